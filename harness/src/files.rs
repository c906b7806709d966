//! Set files and lines of text, by document 01 alone.
use crate::lists::{cleared, supernet, width, List, Member};
use crate::model::is_family;

const MOST: u32 = 4_194_304;

/// The bytes of an entry.
pub fn entry_size(family: u8) -> usize {
    width(family) as usize / 8 + 1
}

/// The file of entries in the order given.
pub fn file_of(family: u8, entries: impl ExactSizeIterator<Item = Member>) -> Vec<u8> {
    let size = entry_size(family);
    let n = entries.len();
    let mut f = Vec::with_capacity(16 + size * n);
    for x in [family as u32, n as u32, 16, (16 + size * n) as u32] {
        f.extend(x.to_be_bytes());
    }
    for (len, a) in entries {
        f.extend(&a.to_be_bytes()[17 - size..]);
        f.push(len);
    }
    f
}

pub fn file(family: u8, l: &List) -> Vec<u8> {
    file_of(family, l.iter().copied())
}

/// The family and the list of a file, or nothing where a rule is broken.
pub fn read_file(f: &[u8]) -> Option<(u8, List)> {
    let number = |k: usize| f.get(4 * k..4 * k + 4).map(|b| u32::from_be_bytes(b.try_into().unwrap()));
    let (family, count, first, size) = (number(0)?, number(1)?, number(2)?, number(3)?);
    let family = u8::try_from(family).ok().filter(|&f| is_family(f))?;
    let right = count <= MOST && first == 16 && size as usize == f.len() && f.len() == 16 + entry_size(family) * count as usize;
    if !right {
        return None;
    }
    let w = width(family);
    let mut l = List::new();
    for e in f[16..].chunks_exact(entry_size(family)) {
        let (len, a) = (e[e.len() - 1], e[..e.len() - 1].iter().fold(0, |x, &b| x << 8 | b as u128));
        let m: Member = (len, a);
        if len > w || cleared(w, len, a) != a || l.last().is_some_and(|&last| last >= m) || supernet(w, &l, m).is_some() {
            return None;
        }
        l.insert(m);
    }
    Some((family, l))
}

/// The lines of an input: each is ended by a line feed, which the last may lack.
pub fn read_lines(s: &[u8]) -> Vec<&[u8]> {
    let mut all: Vec<&[u8]> = s.split(|&b| b == b'\n').collect();
    if all.last().is_some_and(|l| l.is_empty()) {
        all.pop();
    }
    all
}
