//! What an input has: a set file or lines, told by the first byte, which is 0 in a set file and in no line.
use crate::failure::Failure;
use crate::progress::Progress;
use marlbrace::{IpNet, IpRange, Refusal};
use std::ffi::OsStr;
use std::fs::File;
use std::io::{stdin, BufRead, BufReader, Error, Read};
use std::net::IpAddr;
use std::os::fd::AsFd;

/// The bytes of the longest set file, 4,194,304 entries of IPv6, and one more.
const FILE: u64 = 16 + 17 * 4_194_304 + 1;

/// No line is longer, its comment and its end included.
const LONGEST: usize = 65_536;

/// Lines between two words on how far it is.
const STEP: u64 = 1024;

pub struct Input {
    pub name: String,
    content: Content,
}

enum Content {
    Set(IpRange),
    Lines(Lines),
}

/// The networks of lines, how many lines were read, and how many of them were trimmed.
#[derive(Default)]
struct Lines {
    nets: Vec<IpNet>,
    read: u64,
    trimmed: u64,
}

impl Input {
    /// Its networks in a set; what is inside another is left out.
    pub fn set(self) -> Result<IpRange, Refusal> {
        match self.content {
            Content::Set(set) => Ok(set),
            Content::Lines(lines) => {
                let mut set = IpRange::new();
                set.try_extend(lines.nets)?;
                Ok(set)
            }
        }
    }

    /// Its networks as they stand.
    pub fn nets(self) -> std::vec::IntoIter<IpNet> {
        match self.content {
            Content::Set(set) => set.iter(),
            Content::Lines(lines) => lines.nets.into_iter(),
        }
    }

    /// What kind of input it is.
    pub fn report(&self) -> String {
        match &self.content {
            Content::Set(set) => format!("IPv{} set file", set.family()),
            Content::Lines(lines) => match lines.nets.first() {
                Some(net) => format!("IPv{} lines, {} read, {} trimmed", net.family(), lines.read, lines.trimmed),
                None => "no lines".to_string(),
            },
        }
    }
}

/// Reads inputs that are all of one family: that of the first network or set file.
pub struct Reader<'a> {
    lenient: bool,
    family: Option<u8>,
    progress: &'a Progress,
}

impl Reader<'_> {
    pub fn new(lenient: bool, progress: &Progress) -> Reader<'_> {
        Reader { lenient, family: None, progress }
    }

    pub fn read(&mut self, word: &OsStr) -> Result<Input, Failure> {
        let name = if word == "-" { "standard input".to_string() } else { word.to_string_lossy().into_owned() };
        let mut lines = Lines::default();
        match self.take(word.as_encoded_bytes(), &mut lines) {
            Ok(()) => return Ok(Input { name, content: Content::Lines(lines) }),
            Err(Refusal::BadText) => {}
            Err(no) => return Err(Failure::refused(&format!("{name}:"), no)),
        }
        self.progress.say(|| format!("{name}: reading"));
        let mut bytes = BufReader::with_capacity(1 << 16, open(word).map_err(|e| unopened(&name, e))?);
        let first = bytes.fill_buf().map_err(|e| Failure::system(&name, e))?.first().copied();
        let content = if first == Some(0) { self.set_file(&name, bytes)? } else { self.lines(&name, bytes)? };
        Ok(Input { name, content })
    }

    fn set_file(&mut self, name: &str, bytes: impl Read) -> Result<Content, Failure> {
        let mut file = Vec::new();
        bytes.take(FILE).read_to_end(&mut file).map_err(|e| Failure::system(name, e))?;
        let set = IpRange::from_bytes(&file).and_then(|set| self.same_family(set.family()).map(|()| set));
        Ok(Content::Set(set.map_err(|no| Failure::refused(&format!("{name}:"), no))?))
    }

    fn lines(&mut self, name: &str, mut bytes: impl BufRead) -> Result<Content, Failure> {
        let (mut lines, mut number, mut line) = (Lines::default(), 0u64, Vec::new());
        while bytes.by_ref().take(LONGEST as u64).read_until(b'\n', &mut line).map_err(|e| Failure::system(name, e))? > 0 {
            number += 1;
            if number % STEP == 0 {
                self.progress.say(|| format!("{name}: {number} lines"));
            }
            if line.len() == LONGEST && line.last() != Some(&b'\n') {
                return Err(Failure::Wrong(format!("{name}: line {number} refused: it has more than {LONGEST} bytes")));
            }
            self.line(&line, &mut lines).map_err(|no| Failure::refused(&format!("{name}: line {number}"), no))?;
            line.clear();
        }
        Ok(Content::Lines(lines))
    }

    /// Takes a line, but for one that a lenient reading passes over.
    fn line(&mut self, line: &[u8], lines: &mut Lines) -> Result<(), Refusal> {
        let text = line.strip_suffix(b"\n").unwrap_or(line);
        let text = if self.lenient { bare(text) } else { text };
        if self.lenient && text.is_empty() {
            return Ok(());
        }
        self.take(text, lines)
    }

    /// Takes the network of a text, or the fewest of a range.
    fn take(&mut self, text: &[u8], lines: &mut Lines) -> Result<(), Refusal> {
        if text.contains(&b'-') {
            let (first, last) = if self.lenient { IpNet::read_range(&tight(text)) } else { IpNet::read_range(text) }?;
            self.same_family(IpNet::from(first).family())?;
            let mut set = IpRange::new();
            set.add_range(first, last)?;
            lines.nets.extend(&set);
        } else {
            let (net, cut) = IpNet::read_line(text)?;
            self.same_family(net.family())?;
            lines.nets.push(net);
            lines.trimmed += cut as u64;
        }
        lines.read += 1;
        Ok(())
    }

    fn same_family(&mut self, family: u8) -> Result<(), Refusal> {
        match self.family.replace(family) {
            Some(other) if other != family => Err(Refusal::WrongFamily),
            _ => Ok(()),
        }
    }
}

/// What to say of an input that cannot be opened: an address is most likely meant for a network.
fn unopened(name: &str, error: Error) -> Failure {
    match name.parse::<IpAddr>() {
        Ok(address) => Failure::Wrong(format!("{name}: {error}; a network has its length behind it, as {}", IpNet::from(address))),
        Err(_) => Failure::system(name, error),
    }
}

/// A line without its comment and the blanks around it, a carriage return included.
fn bare(line: &[u8]) -> &[u8] {
    line.split(|&byte| byte == b'#').next().unwrap_or(line).trim_ascii()
}

/// A range without the blanks around its hyphen.
fn tight(range: &[u8]) -> Vec<u8> {
    range.splitn(2, |&byte| byte == b'-').map(|end| end.trim_ascii()).collect::<Vec<_>>().join(&b'-')
}

/// A closed standard input has to fail: `Stdin` would take it for an empty one.
fn open(word: &OsStr) -> Result<File, Error> {
    if word == "-" {
        stdin().as_fd().try_clone_to_owned().map(File::from)
    } else {
        File::open(word)
    }
}
