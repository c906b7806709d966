//! Times of a salvage at many entries, in orders that could be dear: with room for all entries, and with a byte less.
use crate::exports::salvage;
use crate::files::{entry_size, file_of};
use crate::lists::{past, width, Member};
use crate::plan::Dice;
use crate::salvage::saved;

/// So many different networks of one length, side by side.
fn side(w: u8, n: usize) -> Vec<Member> {
    (0..n as u128).map(|k| (w - 8, k << 8)).collect()
}

/// Every block of up to 22 bits, the longest first, so that what holds all comes last.
fn nested(w: u8, n: usize) -> Vec<Member> {
    let blocks = (0..22u8).flat_map(|len| (0..1u128 << len).map(move |k| (len, k.checked_shl((w - len) as u32).unwrap_or(0))));
    let mut all: Vec<Member> = blocks.take(n - 1).chain([(22, 0)]).collect();
    all.reverse();
    all
}

fn shuffled(d: &mut Dice, mut all: Vec<Member>) -> Vec<Member> {
    (1..all.len()).rev().for_each(|k| all.swap(k, d.below(k as u64 + 1) as usize));
    all
}

fn random(d: &mut Dice, w: u8, n: usize) -> Vec<Member> {
    (0..n).map(|_| (w / 4 + d.below(3 * w as u64 / 4 + 1) as u8, ((d.roll() as u128) << 64 | d.roll() as u128) & past(w, 0))).collect()
}

const ORDERS: [&str; 6] = ["sorted", "descending", "all equal", "all nested, the outer ones last", "shuffled, none dropped", "random, with bits past the length"];

fn order(k: usize, w: u8, n: usize) -> Vec<Member> {
    let d = &mut Dice(1);
    match k {
        0 => side(w, n),
        1 => side(w, n).into_iter().rev().collect(),
        2 => vec![(8, 10 << (w - 8)); n],
        3 => nested(w, n),
        4 => shuffled(d, side(w, n)),
        _ => random(d, w, n),
    }
}

/// Processor seconds of this thread, which other work on the machine does not change.
fn spent() -> f64 {
    let said = std::fs::read_to_string("/proc/thread-self/schedstat").expect("Linux");
    said.split(' ').next().and_then(|n| n.parse::<f64>().ok()).expect("nanoseconds") / 1e9
}

/// What is written has to be what the model says.
fn row(what: &str, family: u8, all: &[Member], less: usize) {
    let f = file_of(family, all.iter().copied());
    let room = f.len() - less;
    let mut out = vec![0u8; room];
    let mut counts = [0; 4];
    let began = spent();
    let number = salvage(&f, &mut out, &mut counts);
    let time = spent() - began;
    let right = saved(&f).expect("a file");
    let fits = right.file.len() <= room;
    let expected = if fits { right.file.len() as u64 } else { 11 << 32 };
    assert_eq!(number, expected, "{what}");
    assert!(!fits || out[..right.file.len()] == right.file && counts == [right.read, right.trimmed, right.long, right.covered].map(u64::from));
    let (n, left) = (all.len(), (right.file.len() - 16) / entry_size(family));
    let said = if !fits { "refused 11" } else { "written" };
    let room = if less == 0 { "all" } else { "a byte less" };
    println!("| {what} | IPv{family} | {n} | {left} | {room} | {said} | {time:.2} | {:.0} |", time * 1e9 / n as f64);
}

/// All rows with room for so many entries, and those with a byte less for so many; 0 leaves them out.
pub fn main(most: u64, short: u64) -> bool {
    println!("| order | family | entries | left | room | | processor seconds | ns an entry |");
    println!("|---|---|---|---|---|---|---|---|");
    for (n, less) in [(most as usize, 0), (short as usize, 1)] {
        for family in [4, 6].into_iter().filter(|_| n > 0) {
            (0..ORDERS.len()).for_each(|k| row(ORDERS[k], family, &order(k, width(family), n), less));
        }
    }
    true
}
