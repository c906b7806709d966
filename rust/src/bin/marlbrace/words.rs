//! The words of the command line.
use crate::failure::Failure;
use std::ffi::OsString;

pub const USAGE: &str = "\
usage: marlbrace COMMAND [--lenient] [--set] [-o FILE] INPUT..

  simplify INPUT..          the shortest list of the addresses of all inputs
  merge INPUT..             the same
  intersect INPUT INPUT..   the addresses that all inputs have, in the shortest list
  exclude INPUT INPUT..     the addresses of the first input that no other has, in the shortest list
  convert INPUT..           the networks of all inputs, those inside another left out, none joined
  ranges INPUT..            the addresses of all inputs as the fewest ranges, a line as 10.0.0.1-10.0.0.6 for each
  contains INPUT INPUT..    whether the first input has all addresses of the others; prints the networks that it has not
  check INPUT..             whether each input is right; prints a line for each

An input is a file, - for standard input, a network such as 10.0.0.0/8 or a range such as 10.0.0.1-10.0.0.6. A file is a set file or has a network or a
range in each line, all of one family. A range stands for its fewest networks.
  --lenient   lines may be blank, have a comment from # on, blanks around them and the - of a range, and a carriage return at their end
  --set       writes a set file instead of lines
  -o FILE     writes there instead of standard output (-): beside the old file, which is replaced when the new one is whole
Statuses: 0 done, or yes; 1 no, or refused, and standard error says why; 2 other words than these.
";

#[derive(Clone, Copy, PartialEq)]
pub enum Command {
    Simplify,
    Merge,
    Intersect,
    Exclude,
    Convert,
    Ranges,
    Contains,
    Check,
}

use Command::*;

impl Command {
    const ALL: [(&'static str, Command); 8] = [
        ("simplify", Simplify),
        ("merge", Merge),
        ("intersect", Intersect),
        ("exclude", Exclude),
        ("convert", Convert),
        ("ranges", Ranges),
        ("contains", Contains),
        ("check", Check),
    ];

    pub fn name(self) -> &'static str {
        Command::ALL[self as usize].0
    }

    fn least_inputs(self) -> usize {
        1 + matches!(self, Intersect | Exclude | Contains) as usize
    }

    fn writes(self) -> bool {
        !matches!(self, Contains | Check)
    }
}

pub struct Words {
    pub command: Command,
    pub lenient: bool,
    pub set: bool,
    pub output: Option<OsString>,
    pub inputs: Vec<OsString>,
}

impl Words {
    pub fn read(words: Vec<OsString>) -> Result<Words, Failure> {
        let mut rest = words.into_iter();
        let named = rest.next().ok_or_else(|| usage("no command"))?;
        let found = Command::ALL.iter().find(|(name, _)| named == *name);
        let command = found.ok_or_else(|| usage(&format!("no command {}", named.to_string_lossy())))?.1;
        let mut read = Words { command, lenient: false, set: false, output: None, inputs: Vec::new() };
        while let Some(word) = rest.next() {
            read.take(word, &mut rest)?;
        }
        read.judged()
    }

    /// Takes a word, and what it asks for of those behind it.
    fn take(&mut self, word: OsString, rest: &mut impl Iterator<Item = OsString>) -> Result<(), Failure> {
        match word.to_str() {
            Some("--lenient") => self.lenient = true,
            Some("--set") if self.command.writes() && self.command != Ranges => self.set = true,
            Some("-o") if self.command.writes() && self.output.is_none() => self.output = Some(rest.next().ok_or_else(|| usage("-o takes a file"))?),
            Some("--") => self.inputs.extend(rest),
            _ if word != "-" && word.as_encoded_bytes().starts_with(b"-") => {
                return Err(usage(&format!("{} takes no {}", self.command.name(), word.to_string_lossy())));
            }
            _ => self.inputs.push(word),
        }
        Ok(())
    }

    fn judged(self) -> Result<Words, Failure> {
        let least = self.command.least_inputs();
        if self.inputs.len() < least {
            return Err(usage(&format!("{} takes at least {least} input{}", self.command.name(), if least == 1 { "" } else { "s" })));
        }
        if self.inputs.iter().filter(|name| *name == "-").count() > 1 {
            return Err(usage("standard input can be read once"));
        }
        Ok(self)
    }
}

fn usage(what: &str) -> Failure {
    Failure::Usage(what.to_string())
}
