//! Seeded sequences of calls: several sets, both families and forms, dense small universes and wide ones, networks around the ends of the words, and arguments that are wrong.
use crate::files::file;
use crate::layout::{held, least, room, Form, State};
use crate::lists::{self, cleared, width, Member};
use crate::many;
use crate::model::net;
use crate::wire::*;

/// splitmix64
pub struct Dice(pub u64);

impl Dice {
    pub fn roll(&mut self) -> u64 {
        self.0 = self.0.wrapping_add(0x9e37_79b9_7f4a_7c15);
        let mut z = self.0;
        z = (z ^ z >> 30).wrapping_mul(0xbf58_476d_1ce4_e5b9);
        z = (z ^ z >> 27).wrapping_mul(0x94d0_49bb_1331_11eb);
        z ^ z >> 31
    }
    pub fn below(&mut self, n: u64) -> u64 {
        self.roll() % n
    }
    pub fn one_in(&mut self, n: u64) -> bool {
        self.below(n) == 0
    }
    pub fn pick<T: Copy>(&mut self, xs: &[T]) -> T {
        xs[self.below(xs.len() as u64) as usize]
    }
}

#[derive(Clone, Copy)]
pub enum Universe {
    Dense(u8),
    Wide,
    Edges,
}

/// The ends of the words, of the families, and of what an index has.
const EDGES: [u8; 14] = [0, 1, 2, 7, 8, 9, 31, 32, 33, 63, 64, 65, 127, 128];

#[derive(Clone)]
pub struct Plan {
    pub family: u8,
    pub form: Form,
    pub universe: Universe,
    pub sets: u32,
    /// bit s: set s is indexed
    pub indexed: u64,
    pub nodes: u32,
    pub shares: Vec<u32>,
    pub limits: Vec<u32>,
}

impl Plan {
    pub fn new(d: &mut Dice) -> Plan {
        let family = d.pick(&[4, 6]);
        let universe = match d.below(3) {
            0 => Universe::Dense(2 + d.below(8) as u8),
            1 => Universe::Wide,
            _ => Universe::Edges,
        };
        let sets = 1 + d.below(5) as u32;
        let form = d.pick(&Form::BOTH);
        // in the second form some are so small that they are full of a few networks
        let nodes = match universe {
            Universe::Dense(k) => 2 + d.below((4 << k).min(512)) as u32,
            _ if form == Form::Second && d.one_in(2) => 2 + d.below(32) as u32,
            _ => 8 + d.below(6 * width(family) as u64) as u32,
        };
        let mut left = nodes;
        let (mut shares, mut limits) = (vec![], vec![]);
        for _ in 0..sets {
            let share = d.below(left as u64 / 2 + 1) as u32;
            left -= share;
            shares.push(share);
            limits.push(if d.one_in(8) { u32::MAX } else { share + d.below(nodes as u64 + 2) as u32 });
        }
        // up to one plan in two of the first form has indexed sets
        let indexed = if form == Form::First && d.one_in(2) { d.below(1 << sets) } else { 0 };
        Plan { family, form, universe, sets, nodes, shares, limits, indexed }
    }

    pub fn words(&self) -> usize {
        least(self.sets as u64, self.nodes as u64, self.indexed.count_ones() as u64) as usize
    }

    pub fn layout(&self) -> Call {
        let tail = self.shares.iter().chain(&self.limits).flat_map(|n| n.to_le_bytes()).collect();
        Call { a: self.sets, b: self.nodes, c: self.sets + 256 * self.form as u32, net: Net { family: self.family, hi: self.indexed, len: self.sets as u8, ..Net::default() }, tail, ..Call::new(LAYOUT) }
    }

    pub(crate) fn member(&self, d: &mut Dice) -> Member {
        let w = width(self.family);
        let all = if w == 32 { u32::MAX as u128 } else { u128::MAX };
        let any = ((d.roll() as u128) << 64 | d.roll() as u128) & all;
        let (len, a) = match self.universe {
            Universe::Dense(k) => (d.below(k as u64 + 1) as u8, (d.below(1 << k) as u128) << (w - k)),
            Universe::Wide => (d.below(w as u64 + 1) as u8, any),
            Universe::Edges => {
                let len = d.pick(&EDGES).min(w);
                let flipped = if len == 0 { 0 } else { 1u128 << (w - 1 - d.below(len as u64) as u8) };
                (len, d.pick(&[0, all, any, 1u128 << (w - 1), flipped, all ^ flipped]))
            }
        };
        // now and then one around, beside or inside an inner network
        if d.one_in(10) {
            let (n, at) = d.pick(&lists::inner(self.family));
            let len = d.pick(&[n, n.saturating_sub(1), (n + 1).min(w), w, n / 2]);
            let at = d.pick(&[at, at | lists::past(w, n), at.wrapping_sub(1) & all, (at | lists::past(w, n)).wrapping_add(1) & all]);
            return (len, cleared(w, len, at));
        }
        (len, cleared(w, len, a))
    }

    /// A member, often one of those listed or beside one.
    pub(crate) fn near(&self, d: &mut Dice, s: &State) -> Member {
        let w = width(self.family);
        let mut m = self.member(d);
        let list = &s.sets[d.below(s.sets.len() as u64) as usize].list;
        if !list.is_empty() && d.one_in(2) {
            m = *list.iter().nth(d.below(list.len() as u64) as usize).unwrap();
            match d.below(4) {
                0 if m.0 > 0 => m.1 ^= 1u128 << (w - m.0),
                1 if m.0 > 0 => m = (m.0 - 1, cleared(w, m.0 - 1, m.1)),
                2 if m.0 < w => m.0 += 1,
                _ => {}
            }
        }
        m
    }

    /// A network, often one of those listed or beside one, sometimes with bits past its length, sometimes none.
    pub(crate) fn net(&self, d: &mut Dice, s: &State) -> Net {
        let mut n = net(self.family, self.near(d, s));
        if d.one_in(4) {
            n.lo |= d.below(1 << 32);
        }
        match d.below(60) {
            0 => n.family = d.pick(&[0, 4, 5, 6, 255]),
            1 => n.len = d.pick(&[33, 64, 128, 129, 255]),
            2 => n.hi |= 1 << d.below(64),
            3 => n.lo |= 1 << d.below(64),
            _ => {}
        }
        n
    }

    pub(crate) fn set(&self, d: &mut Dice) -> u32 {
        if d.one_in(50) { d.pick(&[self.sets, 64, u32::MAX]) } else { d.below(self.sets as u64) as u32 }
    }

    /// One call, in the state that the words have.
    pub fn call(&self, d: &mut Dice, s: &State) -> Call {
        let (a, b, c) = (self.set(d), self.set(d), self.set(d));
        let net = self.net(d, s);
        if d.one_in(40) {
            return self.salvage(d, s);
        }
        let code = match d.below(100) {
            0..=14 => ADD,
            15..=17 => d.pick(&[ADD_FILE, REMOVE_FILE]),
            18..=19 => COMPARE,
            20..=22 => SAVE,
            23..=26 => LOAD,
            27..=29 => LINES,
            30..=31 => NTH,
            32 => LAST,
            33 => PAGE,
            34..=41 => REMOVE,
            42..=45 => SIMPLIFY,
            46..=50 => MERGE,
            51..=54 => INTERSECT,
            55..=56 => ADD_RANGE,
            57..=59 => EXCLUDE,
            60..=61 => EXCLUDE_APART,
            62..=67 => SUPERNET,
            68..=72 => CONTAINS,
            73..=74 => IS_EMPTY,
            75..=77 => EQUAL,
            78 => d.pick(&[FREE, MAKE_PUBLIC]),
            79..=80 => REPLAN,
            81 => HELD,
            82 => d.pick(&[PLAN, REPLAN, RANGES]),
            83..=86 => NEXT,
            87..=88 => LIST,
            89 => RANGES,
            90 => READ_LINE,
            91 => READ_LINE_6,
            92 => READ_LINE_EITHER,
            93..=94 => WRITE_LINE,
            95..=98 => NEW + d.below(9) as u8,
            _ => LAYOUT,
        };
        let mut call = Call { a, b, c, net, ..Call::new(code) };
        match code {
            MERGE..=EXCLUDE_APART | EXCLUDE => {
                let empty: Vec<u32> = (0..self.sets).filter(|&k| s.sets[k as usize].list.is_empty()).collect();
                if !empty.is_empty() && !d.one_in(6) {
                    call.a = d.pick(&empty);
                } else if !d.one_in(6) {
                    return Call { a, net: Net { family: self.family, ..Net::default() }, ..Call::new(REMOVE) };
                }
            }
            MAKE_PUBLIC => {
                let empty: Vec<u32> = (0..self.sets).filter(|&k| s.sets[k as usize].list.is_empty()).collect();
                if !empty.is_empty() && !d.one_in(4) {
                    call.a = d.pick(&empty);
                }
            }
            REPLAN => {
                // at the bounds of each condition, and one to either side
                let own = if (a as usize) < s.sets.len() { held(s, a as usize) as u32 } else { 0 };
                let space = room(s, a as usize) as u32;
                let near = |d: &mut Dice, x: u32| d.pick(&[x, x.wrapping_add(1), x.saturating_sub(1)]);
                let any = d.below(self.nodes as u64 + 2) as u32;
                let (x, y) = (d.pick(&[own, space, 0, any]), d.pick(&[own, space, self.nodes, u32::MAX]));
                call.b = near(d, x);
                call.c = if d.one_in(3) { near(d, call.b) } else { near(d, y) };
            }
            LIST | RANGES => {
                call.b = d.below(40) as u32;
                call.c = d.roll() as u32;
            }
            // as often as not so long that it begins at the index
            SUPERNET | CONTAINS if d.one_in(2) => call.net.len = call.net.len.max(d.pick(&[8, 9, 32])),
            NEXT => call.b = d.below(4) as u32,
            NTH | PAGE => call.b = d.below(18) as u32,
            SAVE => {
                let size = s.sets.get(a as usize).map_or(16, |set| file(self.family, &set.list).len() as u32);
                call.b = d.pick(&[size, size + 1, size - 1, size + 40, 0, 15]);
                call.c = d.roll() as u32;
            }
            LOAD => {
                let empty: Vec<u32> = (0..self.sets).filter(|&k| s.sets[k as usize].list.is_empty()).collect();
                if !empty.is_empty() && !d.one_in(6) {
                    call.a = d.pick(&empty);
                }
                call.tail = self.file(d, s);
            }
            ADD_FILE | REMOVE_FILE => call.tail = if d.one_in(3) { self.file(d, s) } else { self.nets(d, s) },
            ADD_RANGE => {
                let (first, last) = self.range(d, s);
                call.net = Net { family: self.family, hi: (first >> 64) as u64, lo: first as u64, len: call.net.len };
                call.tail = many::tail(last);
                match d.below(24) {
                    0 => call.net.family = d.pick(&[0, 4, 5, 6, 255]),
                    1 => call.net.hi |= 1 << d.below(64),
                    2 => call.net.lo |= 1 << d.below(64),
                    3 => call.tail[d.below(16) as usize] |= 1 << d.below(8),
                    4 => call.tail.truncate(d.below(17) as usize),
                    5 => call.tail.push(d.below(256) as u8),
                    _ => {}
                }
            }
            LINES => {
                call.tail = self.lines(d);
                call.b = d.below(call.tail.len() as u64 + 3) as u32;
            }
            COMPARE => {
                let (first, second) = self.pair(d, s);
                call.a = if d.one_in(20) { d.below(first.len() as u64 + 40) as u32 } else { first.len() as u32 };
                call.tail = [first, second].concat();
            }
            READ_LINE => call.tail = self.line(d),
            READ_LINE_6 => call.tail = self.line6(d),
            READ_LINE_EITHER => call.tail = if d.one_in(3) { self.line(d) } else { self.line6(d) },
            WRITE_LINE => {
                call.b = d.below(50) as u32;
                call.c = d.below(256) as u32;
                if d.one_in(2) {
                    call.net = Net { family: 4, hi: 0, lo: d.below(1 << 32), len: d.below(34) as u8 };
                }
            }
            NEXT_BIT | WITH_NEW_PREFIX => {
                call.a = d.below(130) as u32;
                call.net.hi = d.roll();
            }
            OCTETS | BYTES | GROUPS | WORDS => {
                call.a = d.roll() as u32;
                call.net.hi = if d.one_in(2) { d.roll() } else { 0 };
                call.net.lo = d.roll() >> d.pick(&[0, 32]);
            }
            LAYOUT => {
                // most are refused; a granted one begins anew
                call = self.layout();
                match d.below(10) {
                    0 => call.a = d.pick(&[0, 65, self.sets + 1]),
                    1 => call.b = d.pick(&[0, self.nodes + 1, 4_194_305, u32::MAX]),
                    2 => call.net.family = d.pick(&[0, 5, 255]),
                    3 => call.net.len ^= 1,
                    4 => call.c = d.pick(&[0, 1 + self.sets]) + 256 * self.form as u32,
                    // a set that there is not, one more than there is room for, or one less
                    5 => call.net.hi |= d.pick(&[1 << self.sets, 1 << 63]),
                    6 => call.net.hi ^= 1 << d.below(self.sets as u64),
                    // no form; the other one, which may not have an index
                    7 => call.c = self.sets + 256 * d.pick(&[2, 3, 256, u32::MAX / 256]),
                    8 => call.c ^= 256,
                    _ => call.tail[0] = 255,
                }
            }
            _ => {}
        }
        call
    }
}
