//! Sets of IP networks at the shell: `marlbrace --help` prints what it takes. What is built, looked up and written goes through the crate, so through its
//! proved calls.
mod failure;
mod input;
mod output;
mod progress;
mod words;

use failure::Failure;
use input::{Input, Reader};
use marlbrace::{Form, IpNet, IpRange, Refusal};
use output::Output;
use progress::Progress;
use std::process::ExitCode;
use words::{Command, Words, USAGE};

fn main() -> ExitCode {
    let words: Vec<_> = std::env::args_os().skip(1).collect();
    if words.iter().take_while(|word| *word != "--").any(|word| word == "-h" || word == "--help") {
        return status(Output::standard().write(|out| out.write_all(USAGE.as_bytes())).map(|()| true));
    }
    status(Words::read(words).and_then(|words| run(&words)))
}

/// 0 for yes and done, 1 for no and whatever went wrong, 2 for words that it does not take.
fn status(ended: Result<bool, Failure>) -> ExitCode {
    match ended {
        Ok(yes) => ExitCode::from(!yes as u8),
        Err(failure) => failure.say(),
    }
}

fn run(words: &Words) -> Result<bool, Failure> {
    let progress = Progress::start();
    let done = match words.command {
        Command::Check => check(words, &progress),
        Command::Contains => contains(words, &progress),
        _ => rewrite(words, &progress),
    };
    progress.clear();
    done
}

/// Reads the inputs, all of one family, and writes one set.
fn rewrite(words: &Words, progress: &Progress) -> Result<bool, Failure> {
    let mut reader = Reader::new(words.lenient, progress);
    let inputs = words.inputs.iter().map(|name| reader.read(name)).collect::<Result<Vec<_>, _>>()?;
    progress.say(|| "building".to_string());
    let set = combined(words.command, inputs).map_err(|no| Failure::refused(&format!("{}:", words.command.name()), no))?;
    let output = Output::to(words.output.as_deref());
    progress.clear();
    if !output.is_terminal() {
        progress.say(|| "writing".to_string());
    }
    match words.command {
        Command::Ranges => output.ranges(set.ranges().into_iter())?,
        _ => output.set(&set, words.set)?,
    }
    Ok(true)
}

fn combined(command: Command, mut inputs: Vec<Input>) -> Result<IpRange, Refusal> {
    match command {
        Command::Intersect => {
            let mut sets = inputs.into_iter().map(Input::set);
            let first = sets.next().unwrap_or_else(|| Ok(IpRange::new()));
            sets.try_fold(first?, |so_far, set| so_far.intersect(&set?))
        }
        Command::Exclude => {
            let others = together(inputs.split_off(1))?;
            together(inputs)?.exclude(&others)
        }
        Command::Convert | Command::Ranges => together(inputs),
        _ => together(inputs).map(simplified),
    }
}

/// The networks of all inputs in one set; what is inside another is left out.
fn together(mut inputs: Vec<Input>) -> Result<IpRange, Refusal> {
    if inputs.len() == 1 {
        return inputs.remove(0).set();
    }
    let mut set = IpRange::new();
    set.try_extend(inputs.into_iter().flat_map(Input::nets))?;
    Ok(set)
}

fn simplified(mut set: IpRange) -> IpRange {
    set.simplify();
    set
}

/// Whether the first input has every address of the others; prints those of their networks that it has not.
fn contains(words: &Words, progress: &Progress) -> Result<bool, Failure> {
    let mut reader = Reader::new(words.lenient, progress);
    let set = reader.read(&words.inputs[0])?.set().map(simplified).map_err(|no| Failure::refused("contains:", no))?;
    let mut outside: Vec<IpNet> = Vec::new();
    for name in &words.inputs[1..] {
        let nets: Vec<IpNet> = reader.read(name)?.nets().collect();
        outside.extend(nets.iter().zip(set.contains_all(&nets)).filter(|(_, inside)| !inside).map(|(net, _)| net));
    }
    progress.clear();
    Output::standard().lines(outside.iter().copied())?;
    Ok(outside.is_empty())
}

/// Reads every input for itself; prints a line for each that is right, and says what is wrong with the others.
fn check(words: &Words, progress: &Progress) -> Result<bool, Failure> {
    let mut right = true;
    for name in &words.inputs {
        let found = Reader::new(words.lenient, progress).read(name).and_then(report);
        progress.clear();
        match found {
            Ok(line) => Output::standard().write(|out| writeln!(out, "{line}"))?,
            Err(failure) => {
                right = false;
                failure.say();
            }
        }
    }
    Ok(right)
}

fn report(input: Input) -> Result<String, Failure> {
    let (name, front) = (input.name.clone(), input.report());
    let set = input.set().map_err(|no| Failure::refused(&format!("{name}:"), no))?;
    let (networks, nodes) = (set.len(), set.nodes());
    let form = if set.form() == Form::First { "" } else { " in the second form" };
    let shortest = simplified(set).len();
    Ok(format!("{name}: {front}, {networks} networks, {nodes} nodes{form}, {shortest} when simplified"))
}
