//! Two set files compared, by runs of numbers: M-113.
use crate::files::read_file;
use crate::lists::{blocks, past, width, List};
use crate::model::net;
use crate::wire::*;

/// The first and the last number of each run of addresses that a list covers, ascending and apart.
fn runs(w: u8, l: &List) -> Vec<(u128, u128)> {
    let mut all: Vec<(u128, u128)> = l.iter().map(|m| (m.1, m.1 | past(w, m.0))).collect();
    all.sort();
    let mut r: Vec<(u128, u128)> = vec![];
    for (a, b) in all {
        match r.last_mut() {
            Some(x) if x.1.checked_add(1) == Some(a) => x.1 = b,
            _ => r.push((a, b)),
        }
    }
    r
}

/// The smallest number that only one of the two covers, and whether the first does.
fn smallest(x: &[(u128, u128)], y: &[(u128, u128)]) -> Option<(bool, u128)> {
    let k = (0..x.len().max(y.len())).find(|&k| x.get(k) != y.get(k))?;
    Some(match (x.get(k), y.get(k)) {
        (Some(p), Some(q)) if p.0 == q.0 => (p.1 > q.1, p.1.min(q.1) + 1),
        (Some(p), Some(q)) => (p.0 < q.0, p.0.min(q.0)),
        (p, q) => (p.is_some(), p.or(q)?.0),
    })
}

/// Where the tail of a call is cut into two files.
pub fn cut(c: &Call) -> usize {
    (c.a as usize).min(c.tail.len())
}

pub fn compare(c: &Call) -> Answer {
    let (first, second) = c.tail.split_at(cut(c));
    let (Some((f, l)), Some((g, m))) = (read_file(first), read_file(second)) else { return Answer::refused(5) };
    if f != g {
        return Answer::refused(6);
    }
    let (x, y) = (runs(width(f), &l), runs(width(f), &m));
    match smallest(&x, &y) {
        Some((own, a)) => Answer { flag: 1, x: 2 - own as u32, net: net(f, (width(f), a)), ..Answer::default() },
        None => Answer { x: 3 + (m.len() == y.into_iter().map(|(a, b)| blocks(width(f), a, b).len()).sum::<usize>()) as u32, ..Answer::default() },
    }
}
