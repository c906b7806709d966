//! The tables that are measured, and queries into them. Each is made from a seed of its own, so that it is the same whatever else a run measures.
use crate::lists::{cleared, holds, past, supernet, width, List, Member};
use crate::plan::Dice;
use std::collections::BTreeMap;

pub const QUERIES: usize = 100_000;

/// How the networks of a table lie.
#[derive(Clone, Copy, PartialEq, Eq)]
pub enum Shape {
    /// Lengths as in routing tables, the longer ones in blocks.
    Mix,
    /// Of one length, side by side: the only tables of 2,000,000 networks that a pool has the nodes for.
    Side,
}

impl Shape {
    pub const ALL: [Shape; 2] = [Shape::Mix, Shape::Side];

    pub fn name(self) -> &'static str {
        match self {
            Shape::Mix => "mix",
            Shape::Side => "side",
        }
    }
}

/// Lengths as they are seen in routing tables, with their weights.
const FOUR: [(u8, u64); 13] = [(24, 580), (23, 100), (22, 110), (21, 50), (20, 45), (19, 30), (18, 18), (17, 12), (16, 20), (15, 4), (14, 4), (13, 2), (12, 1)];
const SIX: [(u8, u64); 11] = [(48, 480), (47, 30), (46, 40), (45, 20), (44, 90), (40, 80), (36, 50), (35, 20), (33, 40), (32, 120), (29, 30)];

fn pick_length(d: &mut Dice, table: &[(u8, u64)]) -> u8 {
    let mut at = d.below(table.iter().map(|t| t.1).sum());
    for &(len, weight) in table {
        if at < weight {
            return len;
        }
        at -= weight;
    }
    unreachable!()
}

fn any_address(d: &mut Dice, w: u8) -> u128 {
    ((d.roll() as u128) << 64 | d.roll() as u128) & past(w, 0)
}

/// So many networks, no one inside another: the longer ones side by side in blocks, the shorter ones anywhere.
fn mix(d: &mut Dice, family: u8, n: usize) -> List {
    let w = width(family);
    let (lengths, block): (&[(u8, u64)], u8) = if family == 4 { (&FOUR, 10) } else { (&SIX, 36) };
    let any = |d: &mut Dice| {
        let a = any_address(d, w);
        if family == 4 { a & 0xdfff_ffff } else { a >> 3 | 1 << 125 }
    };
    let blocks: Vec<u128> = (0..(n / if family == 4 { 4000 } else { 1500 }).max(2)).map(|_| cleared(w, block, any(d))).collect();
    let mut l = List::new();
    let mut taken: BTreeMap<u128, u8> = BTreeMap::new();
    while l.len() < n {
        let len = pick_length(d, lengths);
        let a = if len > block { d.pick(&blocks) | any(d) & past(w, block) } else { any(d) };
        let m: Member = (len, cleared(w, len, a));
        let before = taken.range(..=m.1).next_back().is_some_and(|(&a, &k)| holds(w, (k, a), m));
        let after = taken.range(m.1..).next().is_some_and(|(&a, &k)| holds(w, m, (k, a)));
        if !before && !after {
            taken.insert(m.1, m.0);
            l.insert(m);
        }
    }
    l
}

/// A table of so many networks.
pub fn table(shape: Shape, family: u8, n: usize) -> List {
    match (shape, family) {
        (Shape::Mix, _) => mix(&mut Dice(n as u64), family, n),
        (Shape::Side, 4) => (0..n as u128).map(|k| (24, k << 8)).collect(),
        (Shape::Side, _) => (0..n as u128).map(|k| (48, 0x2001 << 112 | k << 80)).collect(),
    }
}

/// Half of a table's networks, and as many others of the mix.
pub fn second(family: u8, first: &List) -> List {
    let (w, d) = (width(family), &mut Dice(2));
    let mut l: List = first.iter().copied().filter(|_| d.one_in(2)).collect();
    for m in mix(d, family, first.len() / 2) {
        let inside = |l: &List| (m.0 + 1..=w).any(|k| l.range((k, m.1)..=(k, m.1 | past(w, m.0))).next().is_some());
        if supernet(w, &l, m).is_none() && !inside(&l) {
            l.insert(m);
        }
    }
    l
}

/// Addresses of which each is in a member, or each in none.
pub fn queries(family: u8, a: &List, hit: bool) -> Vec<Member> {
    let (w, d) = (width(family), &mut Dice(3));
    // members lie apart, so that only the last one that begins at or before an address can hold it
    let mut members: Vec<Member> = a.iter().copied().collect();
    members.sort_by_key(|m| m.1);
    let held = |x: Member| members[..members.partition_point(|m| m.1 <= x.1)].last().is_some_and(|&m| holds(w, m, x));
    let mut q = vec![];
    while q.len() < QUERIES {
        let any = any_address(d, w);
        let m = d.pick(&members);
        let beside = if hit { m.1 } else { m.1 ^ 1u128 << (w - m.0 + d.below(4) as u8).min(w - 1) };
        let x = (w, if hit || d.one_in(2) { beside | any & past(w, m.0) } else { any });
        if held(x) == hit {
            q.push(x);
        }
    }
    q
}

/// Some members, spread over the table.
pub fn some(a: &List, n: usize) -> Vec<Member> {
    let d = &mut Dice(4);
    let members: Vec<Member> = a.iter().copied().collect();
    let mut chosen = List::new();
    while chosen.len() < n.min(members.len()) {
        chosen.insert(d.pick(&members));
    }
    let mut v: Vec<Member> = chosen.into_iter().collect();
    for k in (1..v.len()).rev() {
        v.swap(k, d.below(k as u64 + 1) as usize);
    }
    v
}
