//! The rows that need data of their own. A new one is a function here and its line in APART.
use super::case::{alone, seconds, turns, Pool, Took};
use crate::exports as call;
use crate::files::{entry_size, file_of};
use crate::layout::Form;
use crate::lists::Member;
use crate::oracle::Numbers;
use crate::plan::Dice;
use ipnet::{Ipv4Net, Ipv6Net};
use iprange::IpRange;
use std::str::FromStr;

/// What was measured: the family, how many entries or lines, and the times.
type Measured = (u8, usize, Took);

pub struct Apart {
    pub name: &'static str,
    pub what: &'static str,
    pub each: &'static str,
    /// By so many turns; nothing is measured on more entries than given.
    pub run: fn(usize, usize) -> Vec<Measured>,
}

pub const APART: &[Apart] = &[
    Apart { name: "load_most", what: "load of /21 side by side, as many as a pool holds", each: "entry", run: load_most },
    Apart { name: "load_refused", what: "load of /22 side by side, refused 9", each: "entry", run: load_refused },
    Apart { name: "load_lengths", what: "load of 127 lengths in turns, refused 9", each: "entry", run: load_lengths },
    Apart { name: "compare", what: "compare networks with their halves", each: "entry of both", run: compare },
    Apart { name: "compare_lengths", what: "compare 106 lengths in turns with the same", each: "entry of both", run: compare_lengths },
    Apart { name: "lines", what: "lines, ascending / parse and add", each: "line", run: lines },
    Apart { name: "lines_shuffled", what: "lines, shuffled / parse and add", each: "line", run: lines_shuffled },
];

fn alone_of(family: u8, n: usize, rounds: usize, ours: impl FnMut() -> f64) -> Measured {
    (family, n, Took { each: n, nodes: 0, ours: alone(rounds, ours), theirs: None })
}

/// All networks of a length, which ascend.
fn side(len: u8) -> Vec<u8> {
    file_of(4, (0..1usize << len).map(|k| (len, (k as u128) << (32 - len))).collect::<Vec<_>>().into_iter())
}

/// So many networks whose length changes with each in the order of addresses, so that every step passes all lengths; more of the caller's choice.
fn in_turns(n: usize, more: impl Iterator<Item = Member>) -> Vec<u8> {
    let mut l: Vec<Member> = (0..n as u128).map(|k| (23 + (k % 106) as u8, k << 105)).chain(more).collect();
    l.sort();
    file_of(6, l.into_iter())
}

fn loaded(family: u8, rounds: usize, f: &[u8], answer: u64) -> Measured {
    let empty = Pool::of(Form::First, family, &[], false);
    let mut w = empty.words();
    alone_of(family, (f.len() - 16) / entry_size(family), rounds, || {
        empty.again(&mut w);
        seconds(|| assert_eq!(call::load(&mut w, 0, f), answer))
    })
}

const REFUSED: u64 = 9 << 32;
/// The most entries that a file may have; no pool has the nodes for as many.
const MOST: usize = 4_194_304;

fn load_most(rounds: usize, _: usize) -> Vec<Measured> {
    vec![loaded(4, rounds, &side(21), 4_194_303)]
}

fn load_refused(rounds: usize, _: usize) -> Vec<Measured> {
    vec![loaded(4, rounds, &side(22), REFUSED)]
}

fn load_lengths(rounds: usize, _: usize) -> Vec<Measured> {
    let f = in_turns(MOST - 127, (2..=128).map(|len| (len, 1 << 127 | 1 << (128 - len))));
    vec![loaded(6, rounds, &f, REFUSED)]
}

fn compared(family: u8, rounds: usize, first: &[u8], second: &[u8], answer: u64) -> Measured {
    let n = (first.len() + second.len() - 32) / entry_size(family);
    alone_of(family, n, rounds, || seconds(|| assert_eq!(call::compare(first, second), answer)))
}

fn compare(rounds: usize, most: usize) -> Vec<Measured> {
    let lengths = [13u8, 17, 21].into_iter().filter(|&len| 3usize << len <= most.max(3 << 13));
    lengths.map(|len| compared(4, rounds, &side(len), &side(len + 1), 3)).collect()
}

fn compare_lengths(rounds: usize, most: usize) -> Vec<Measured> {
    let sizes = [1usize << 13, 1 << 17, 1 << 20].into_iter().filter(|&n| 2 * n <= most.max(1 << 14));
    sizes.map(|n| in_turns(n, std::iter::empty())).map(|f| compared(6, rounds, &f, &f, 4)).collect()
}

/// Lines into an empty set; the Rust parses the same lines and adds.
fn read<N: Numbers + Clone + FromStr>(rounds: usize, text: &str) -> Measured {
    let family = if text.contains(':') { 6 } else { 4 };
    let n = text.lines().count();
    let empty = Pool::of(Form::First, family, &[], false);
    let mut w = empty.words();
    let ours = || {
        empty.again(&mut w);
        let mut counts = [0; 2];
        let t = seconds(|| assert_eq!(call::lines(&mut w, text.as_bytes(), &mut counts), 0));
        assert_eq!(counts, [n as u64 + 1, 0]);
        t
    };
    let theirs = || {
        let mut r = IpRange::<N>::new();
        seconds(|| text.lines().for_each(|l| _ = r.add(l.parse().ok().unwrap())))
    };
    let (a, b) = turns(rounds, ours, theirs);
    (family, n, Took { each: n, nodes: 0, ours: a, theirs: Some(b) })
}

/// /24 and /48 networks side by side, as text.
fn line(family: u8, k: u32) -> String {
    if family == 4 { format!("{}.{}.{}.0/24\n", k >> 16, k >> 8 & 255, k & 255) } else { format!("2001:{:x}:{:x}::/48\n", k >> 16, k & 0xffff) }
}

fn lines(rounds: usize, most: usize) -> Vec<Measured> {
    let text = |family: u8, n: u32| (0..n).map(|k| line(family, k)).collect::<String>();
    let sizes: Vec<u32> = [2_000u32, 20_000, 200_000].into_iter().filter(|&n| n as usize <= most.max(2_000)).collect();
    let four = sizes.iter().map(|&n| read::<Ipv4Net>(rounds, &text(4, n)));
    four.chain(sizes.iter().map(|&n| read::<Ipv6Net>(rounds, &text(6, n)))).collect()
}

/// Each line moves the nodes behind its network.
fn lines_shuffled(rounds: usize, most: usize) -> Vec<Measured> {
    let text = |n: u32| {
        let (d, mut nets) = (&mut Dice(5), (0..n).collect::<Vec<u32>>());
        for k in (1..n as usize).rev() {
            nets.swap(k, d.below(k as u64 + 1) as usize);
        }
        nets.iter().map(|&k| line(4, k)).collect::<String>()
    };
    let sizes = [2_000u32, 10_000, 40_000].into_iter().filter(|&n| n as usize <= most.max(2_000));
    sizes.map(|n| read::<Ipv4Net>(rounds.min(2), &text(n))).collect()
}
