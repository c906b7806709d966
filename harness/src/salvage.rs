//! What is left of a wrecked set file, by sorting: M-109.
use crate::files::{entry_size, file_of};
use crate::lists::{cleared, holds, past, width, Member};
use crate::model::is_family;
use crate::plan::{Dice, Plan};
use crate::wire::*;

const MOST: usize = 4_194_304;

/// What a salvage says and writes.
pub struct Saved {
    pub read: u32,
    pub trimmed: u32,
    pub long: u32,
    pub covered: u32,
    pub file: Vec<u8>,
}

/// The family and the whole entries of a file, as they stand in it, or nothing where it is refused.
pub fn entries(f: &[u8]) -> Option<(u8, Vec<Member>)> {
    let family = u32::from_be_bytes(f.get(..16)?[..4].try_into().unwrap());
    let family = u8::try_from(family).ok().filter(|&f| is_family(f))?;
    let all: Vec<Member> = f[16..].chunks_exact(entry_size(family)).map(|e| (e[e.len() - 1], e[..e.len() - 1].iter().fold(0, |x, &b| x << 8 | b as u128))).collect();
    (all.len() <= MOST).then_some((family, all))
}

/// How many entries are strictly inside another or equal to an earlier one, one by one as the request has it.
fn covered(w: u8, all: &[Member]) -> usize {
    let inside = |m: Member| all.iter().any(|&n| n != m && holds(w, n, m));
    (0..all.len()).filter(|&k| inside(all[k]) || all[..k].contains(&all[k])).count()
}

pub fn saved(f: &[u8]) -> Option<Saved> {
    let (family, all) = entries(f)?;
    let w = width(family);
    let kept: Vec<Member> = all.iter().copied().filter(|m| m.0 <= w).collect();
    let clear: Vec<Member> = kept.iter().map(|m| (m.0, cleared(w, m.0, m.1))).collect();
    // by address, then by length, what lies inside a network follows it
    let mut sorted = clear.clone();
    sorted.sort_by_key(|m| (m.1, m.0));
    let mut left: Vec<Member> = vec![];
    for m in sorted {
        if left.last().map_or(true, |&n| !holds(w, n, m)) {
            left.push(m);
        }
    }
    left.sort();
    let dropped = clear.len() - left.len();
    assert!(clear.len() > 300 || covered(w, &clear) == dropped);
    Some(Saved {
        read: all.len() as u32,
        trimmed: kept.iter().filter(|m| m.1 & past(w, m.0) != 0).count() as u32,
        long: (all.len() - kept.len()) as u32,
        covered: dropped as u32,
        file: file_of(family, left.into_iter()),
    })
}

/// Into b bytes that were all c: docs/CALLS.md.
pub fn salvage(c: &Call) -> Answer {
    let mut out = vec![c.c as u8; c.b as usize];
    let a = match saved(&c.tail) {
        None => Answer::refused(5),
        Some(s) if s.file.len() > out.len() => Answer::refused(11),
        Some(s) => {
            out[..s.file.len()].copy_from_slice(&s.file);
            let net = Net { hi: s.trimmed as u64, lo: (s.long as u64) << 32 | s.covered as u64, ..Net::default() };
            Answer { x: s.file.len() as u32, y: s.read, net, ..Answer::default() }
        }
    };
    Answer { tail: out, ..a }
}

/// A salvage of the bytes, into room for all that they have, for the result, for a byte less of either, or for hardly anything.
pub fn call(d: &mut Dice, wreck: Vec<u8>) -> Call {
    let (all, right) = (wreck.len() as u32, saved(&wreck).map_or(16, |s| s.file.len() as u32));
    let b = d.pick(&[all, all, all + 9, all.saturating_sub(1), right, right, right + 1, right - 1, 0, 15, 16]);
    Call { b, c: d.below(256) as u32, tail: wreck, ..Call::new(SALVAGE) }
}

/// A file, wrecked as scripts do it: entries in disorder, doubled, inside one another, with bits past their length or a length out of range; then a header that says something else, a part of an entry at the end.
pub fn wreck(d: &mut Dice, family: u8, list: Vec<Member>, more: impl Fn(&mut Dice) -> Member) -> Vec<u8> {
    let w = width(family);
    let mut all = list;
    for _ in 0..d.below(6) {
        let any = if all.is_empty() || d.one_in(3) { more(d) } else { d.pick(&all) };
        let stray = any.1 | (d.roll() as u128) & past(w, any.0.min(w));
        let inside = (any.0.saturating_add(1 + d.below(3) as u8).min(w), any.1 | past(w, any.0.min(w)) >> 1);
        let outside = (any.0 / 2, any.1);
        let m = d.pick(&[any, (any.0, stray), inside, outside, (w + 1, any.1), (255, stray), (0, any.1), (w, stray)]);
        all.insert(d.below(all.len() as u64 + 1) as usize, m);
    }
    match d.below(5) {
        0 => all.reverse(),
        1 => (1..all.len()).rev().for_each(|k| all.swap(k, d.below(k as u64 + 1) as usize)),
        _ => {}
    }
    let mut f = file_of(family, all.into_iter());
    for _ in 0..d.below(3) {
        // the header, but for the family, as often as not
        let at = if d.one_in(6) { d.below(4) } else { 4 + d.below(12) } as usize;
        f[at] = d.pick(&[0, 1, 4, 6, 16, 255]);
    }
    if d.one_in(3) {
        f.extend((0..1 + d.below(entry_size(family) as u64 - 1)).map(|k| k as u8));
    }
    if d.one_in(12) {
        f.truncate(d.below(f.len() as u64 + 1) as usize);
    }
    f
}

/// A good file of each family with each byte damaged, and cut at each byte: into all the room, into the result's and into a byte less.
pub fn damaged(d: &mut Dice, plan: &Plan) -> Vec<Call> {
    let four: Vec<Member> = vec![(2, 0x8000_0000), (8, 0x0a00_0000), (23, 0xc0a8_0000), (23, 0xc0a8_0200), (32, 1), (32, 0xffff_ffff)];
    let six: Vec<Member> = vec![(8, 0xff << 120), (64, 0x2001_0db8 << 96 | 1 << 64), (65, 0x2001_0db8 << 96 | 1 << 63), (128, 1)];
    let mut calls = vec![plan.layout()];
    for (family, list) in [(4, four), (6, six)] {
        let good = file_of(family, list.into_iter());
        assert!(saved(&good).unwrap().file == good);
        let mut push = |f: &[u8]| {
            let right = saved(f).map_or(16, |s| s.file.len() as u32);
            calls.extend([good.len() as u32 + 3, right, right - 1].map(|b| Call { b, c: 165, tail: f.to_vec(), ..Call::new(SALVAGE) }));
        };
        push(&good);
        for at in 0..good.len() {
            push(&good[..at]);
            for x in [good[at] ^ 1 << d.below(8), good[at].wrapping_add(1), d.pick(&[0, 4, 6, 32, 33, 128, 129, 255])] {
                let mut f = good.clone();
                f[at] = x;
                push(&f);
            }
        }
    }
    calls
}
