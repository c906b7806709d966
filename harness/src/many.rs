//! Many networks in one call: those of a set file, and the fewest of a range. By document 01, requests M-103 and M-112, and docs/CALLS.md.
use crate::files::read_file;
use crate::layout::State;
use crate::lists::{self, past, width, Member};
use crate::model::{address, change};
use crate::wire::*;

/// The last address of a range: the first sixteen bytes of the tail, zeros where it has fewer.
pub fn last(c: &Call) -> Net {
    let word = |k: usize| (0..8).map(|j| (*c.tail.get(8 * k + j).unwrap_or(&0) as u64) << (8 * j)).sum();
    Net { family: c.net.family, hi: word(0), lo: word(1), len: 0 }
}

/// The tail that says so.
pub fn tail(last: u128) -> Vec<u8> {
    [(last >> 64) as u64, last as u64].iter().flat_map(|x| x.to_le_bytes()).collect()
}

/// The networks of a call in a pool of the family, or the number of its refusal.
fn networks(family: u8, c: &Call) -> Result<Vec<Member>, u8> {
    if c.code != ADD_RANGE {
        let (own, list) = read_file(&c.tail).ok_or(5)?;
        return if own == family { Ok(list.into_iter().collect()) } else { Err(6) };
    }
    let (w, a, b) = (width(family), address(&c.net), address(&last(c)));
    if c.net.family != family {
        Err(6)
    } else if a.max(b) > past(w, 0) {
        Err(7)
    } else if a > b {
        Err(12)
    } else {
        Ok(lists::blocks(w, a, b))
    }
}

/// The list is that of adding or removing them one by one, and the call is judged by it alone.
pub fn pour(w: &mut [u32], s: State, c: &Call) -> Answer {
    let nets = networks(s.family, c);
    let one = if c.code == REMOVE_FILE { lists::remove } else { lists::add };
    let no = nets.as_ref().err().copied().unwrap_or(0);
    change(w, s, c.a, no, |s| nets.unwrap_or_default().into_iter().fold(s.sets[c.a as usize].list.clone(), |l, n| one(width(s.family), &l, n)))
}
