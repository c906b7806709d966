//! Where the result goes: standard output, or a file that is replaced when the new one is whole.
use crate::failure::Failure;
use marlbrace::{IpNet, IpRange, Refusal, LINE};
use std::ffi::{OsStr, OsString};
use std::fs::{self, File};
use std::io::{self, stdout, BufWriter, ErrorKind, IsTerminal, Write};
use std::net::IpAddr;
use std::os::fd::AsFd;
use std::path::{Path, PathBuf};

pub struct Output {
    name: String,
    file: Option<PathBuf>,
}

impl Output {
    pub fn standard() -> Output {
        Output { name: "standard output".to_string(), file: None }
    }

    pub fn to(word: Option<&OsStr>) -> Output {
        match word {
            Some(word) if word != "-" => Output { name: word.to_string_lossy().into_owned(), file: Some(word.into()) },
            _ => Output::standard(),
        }
    }

    pub fn is_terminal(&self) -> bool {
        self.file.is_none() && stdout().is_terminal()
    }

    /// A set, as a set file or as lines.
    pub fn set(&self, set: &IpRange, as_file: bool) -> Result<(), Failure> {
        if as_file {
            self.write(|out| out.write_all(&set.to_vec()))
        } else {
            self.lines(set.iter())
        }
    }

    pub fn lines(&self, nets: impl Iterator<Item = IpNet>) -> Result<(), Failure> {
        self.each(nets, |net, line| {
            line.extend_from_slice(net.write_line(&mut [0; LINE])?);
            Ok(())
        })
    }

    /// Ranges, as first and last address with a hyphen between them.
    pub fn ranges(&self, ranges: impl Iterator<Item = (IpAddr, IpAddr)>) -> Result<(), Failure> {
        self.each(ranges, |(first, last), line| {
            address(first, line)?;
            line.push(b'-');
            address(last, line)
        })
    }

    /// A line for each, with what is put into it.
    fn each<T>(&self, all: impl Iterator<Item = T>, put: impl Fn(T, &mut Vec<u8>) -> Result<(), Refusal>) -> Result<(), Failure> {
        let mut no = None;
        let written = self.write(|out| {
            let mut line = Vec::new();
            for one in all {
                line.clear();
                put(one, &mut line).map_err(|refusal| {
                    no = Some(refusal);
                    io::Error::from(ErrorKind::InvalidData)
                })?;
                line.push(b'\n');
                out.write_all(&line)?;
            }
            Ok(())
        });
        match no {
            Some(refusal) => Err(Failure::refused(&format!("{}:", self.name), refusal)),
            None => written,
        }
    }

    pub fn write(&self, work: impl FnOnce(&mut dyn Write) -> io::Result<()>) -> Result<(), Failure> {
        let done = match &self.file {
            None => to_standard(work),
            Some(file) => replace(file, work),
        };
        done.map_err(|error| match (&self.file, error.kind()) {
            (None, ErrorKind::BrokenPipe) => Failure::Unread,
            _ => Failure::system(&self.name, error),
        })
    }
}

/// The text of an address: the line of the network of it alone, without the length.
fn address(address: IpAddr, line: &mut Vec<u8>) -> Result<(), Refusal> {
    let mut out = [0; LINE];
    let text = IpNet::from(address).write_line(&mut out)?;
    line.extend(text.iter().take_while(|&&byte| byte != b'/'));
    Ok(())
}

/// A closed standard output has to fail: `Stdout` would lose what is written.
fn to_standard(work: impl FnOnce(&mut dyn Write) -> io::Result<()>) -> io::Result<()> {
    fill(File::from(stdout().as_fd().try_clone_to_owned()?), work).map(|_| ())
}

fn fill(file: File, work: impl FnOnce(&mut dyn Write) -> io::Result<()>) -> io::Result<File> {
    let mut out = BufWriter::with_capacity(1 << 16, file);
    work(&mut out)?;
    out.into_inner().map_err(|error| error.into_error())
}

/// Writes beside the file that the name leads to, and renames. What is no regular file, as a device or a pipe, is written to where it stands, and so is a link
/// to nothing.
fn replace(name: &Path, work: impl FnOnce(&mut dyn Write) -> io::Result<()>) -> io::Result<()> {
    if fs::metadata(name).is_ok_and(|found| !found.is_file()) {
        return fill(File::options().write(true).open(name)?, work).map(|_| ());
    }
    let target = match fs::canonicalize(name) {
        Ok(target) => target,
        Err(_) if name.is_symlink() => return fill(File::create(name)?, work).map(|_| ()),
        Err(_) => name.to_path_buf(),
    };
    let mut beside = OsString::from(&target);
    beside.push(format!(".new-{}", std::process::id()));
    let new = File::create_new(&beside)?;
    // it has the mode of the old one from the start: what is private stays so
    let ready = fs::metadata(&target).map_or(Ok(()), |old| new.set_permissions(old.permissions()));
    let whole = ready.and_then(|()| fill(new, work)).and_then(|new| new.sync_all()).and_then(|()| fs::rename(&beside, &target));
    whole.inspect_err(|_| drop(fs::remove_file(&beside)))
}
