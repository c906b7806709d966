//! The words of a pool, by docs/LAYOUT.md alone: what they hold, and what a state is written as.
use crate::kept;
use crate::lists::{self, cleared, meets_inner, width, List, Member};
use std::collections::{BTreeMap, BTreeSet};

pub const MARK: u32 = 1296126540;

/// How a pool keeps its lists, by the number in word 5.
#[derive(Clone, Copy, Debug, PartialEq, Eq)]
pub enum Form {
    /// A node for each leading string of a member.
    First,
    /// A node for each member and each branch point.
    Second,
}

impl Form {
    pub const BOTH: [Form; 2] = [Form::First, Form::Second];

    pub fn of(number: u32) -> Option<Form> {
        Form::BOTH.into_iter().find(|&form| form as u32 == number)
    }

    /// How many words a node takes.
    pub fn stride(self, family: u8) -> usize {
        match (self, family) {
            (Form::First, _) => 1,
            (Form::Second, 4) => 2,
            (Form::Second, _) => 5,
        }
    }

    /// The nodes of a list.
    pub fn nodes(self, w: u8, l: &List) -> u64 {
        match self {
            Form::First => lists::nodes(w, l),
            Form::Second => (2 * l.len() as u64).saturating_sub(1),
        }
    }

    /// The nodes that a lookup counts.
    pub fn steps(self, w: u8, l: &List, n: Member) -> u32 {
        match self {
            Form::First => lists::steps(w, l, n),
            Form::Second => lists::kept_steps(w, l, n),
        }
    }
}

#[derive(Clone, Debug, PartialEq, Eq)]
pub struct Set {
    pub share: u32,
    pub limit: u32,
    pub public: bool,
    pub indexed: bool,
    pub list: List,
}

#[derive(Clone, Debug, PartialEq, Eq)]
pub struct State {
    pub family: u8,
    pub form: Form,
    pub nodes: u32,
    pub sets: Vec<Set>,
}

/// The smallest buffer, and where the index of the j-th indexed set stands, counted from 0.
pub fn least(sets: u64, nodes: u64, j: u64) -> u64 {
    64 + 8 * sets + 8 * nodes + 256 * j
}

/// What words 0 to 5 say.
pub struct Header {
    pub family: u8,
    pub form: Form,
    pub sets: usize,
    pub nodes: u32,
}

impl Header {
    /// Where the first node stands.
    pub fn base(&self) -> usize {
        64 + 8 * self.sets
    }
}

/// The header, where it and the length are right.
pub fn header(w: &[u32]) -> Option<Header> {
    if w.len() < 64 || w[0] != MARK || !(w[1] == 4 || w[1] == 6) {
        return None;
    }
    let (form, sets, nodes) = (Form::of(w[5])?, w[2] as u64, w[3] as u64);
    if !(1..=64).contains(&sets) || !(1..=4_194_304).contains(&nodes) || w[4] as u64 > sets || (w.len() as u64) < least(sets, nodes, w[4] as u64) {
        return None;
    }
    Some(Header { family: w[1] as u8, form, sets: sets as usize, nodes: w[3] })
}

/// The words of nodes.
pub struct Reading<'a> {
    pub words: &'a [u32],
    pub family: u8,
    pub base: usize,
    pub nodes: u64,
    pub width: u8,
}

impl Reading<'_> {
    /// The trie at node i in the first form, whose path is the first `depth` bits of `at`; gives the number behind it.
    fn trie(&self, i: u64, depth: u8, at: u128, list: &mut List) -> Option<u64> {
        if i > self.nodes {
            return None;
        }
        let x = self.words[self.base + (i - 1) as usize] as u64;
        if x == 0 {
            list.insert((depth, at));
            return Some(i + 1);
        }
        if depth == self.width {
            return None;
        }
        let mut next = i + 1;
        if x % 2 == 1 {
            next = self.trie(next, depth + 1, at, list)?;
        }
        if x / 2 > 0 {
            if i + x / 2 != next {
                return None;
            }
            next = self.trie(next, depth + 1, at | 1u128 << (self.width - 1 - depth), list)?;
        }
        Some(next)
    }
}

/// Whether set s, which has this list, is indexed, where so many before it are: its tag is then one more than these, and its index is right.
fn is_indexed(w: &[u32], s: usize, before: u64, list: &List) -> Option<bool> {
    let (tag, at) = (w[68 + 8 * s] as u64, least(w[2] as u64, w[3] as u64, before) as usize);
    if tag == 0 {
        return Some(false);
    }
    (tag == before + 1 && w.get(at..at + 256)? == index(width(w[1] as u8), list)).then_some(true)
}

pub fn decode(w: &[u32]) -> Option<State> {
    let h = header(w)?;
    let r = Reading { words: w, family: h.family, base: h.base(), nodes: h.nodes as u64, width: width(h.family) };
    let mut state = State { family: h.family, form: h.form, nodes: h.nodes, sets: vec![] };
    let (mut next, mut claimed, mut indexes) = (1u64, 0u64, 0u64);
    for s in 0..h.sets {
        let (root, share, limit, mark) = (w[64 + 8 * s] as u64, w[65 + 8 * s], w[66 + 8 * s], w[67 + 8 * s]);
        let mut list = List::new();
        let first = next;
        if root != 0 {
            if root != next {
                return None;
            }
            next = match h.form {
                Form::First => r.trie(next, 0, 0, &mut list)?,
                Form::Second => kept::trie(&r, next, (0, 0), &mut list)?,
            };
        }
        let held = next - first;
        if share > limit || held > limit as u64 || mark > 1 || (mark == 1 && meets_inner(h.family, &list)) {
            return None;
        }
        claimed += held.max(share as u64);
        let indexed = is_indexed(w, s, indexes, &list)?;
        if indexed && h.form == Form::Second {
            return None;
        }
        indexes += indexed as u64;
        state.sets.push(Set { share, limit, public: mark == 1, indexed, list });
    }
    if claimed > h.nodes as u64 || w[4] as u64 != indexes {
        return None;
    }
    Some(state)
}

/// The index of a list: for each byte where a walk stands after its eight bits. It is 16 more than the depth at which there is nothing, or the depth of a node
/// (eight, or less where it is a member) and 32 times how many nodes stand before it in preorder.
pub fn index(w: u8, list: &List) -> Vec<u32> {
    // the leading strings of all members, by address and then by length, which is preorder
    let strings: BTreeSet<(u128, u8)> = list.iter().flat_map(|m| (0..=m.0).map(move |n| (cleared(w, n, m.1), n))).collect();
    let place: BTreeMap<_, _> = strings.iter().enumerate().map(|(k, s)| (*s, k as u32)).collect();
    let word = |byte: u128| {
        for n in 0..=8 {
            let at = cleared(w, n, byte << (w - 8));
            match place.get(&(at, n)) {
                None => return 16 + n as u32,
                Some(k) if n == 8 || list.contains(&(n, at)) => return 32 * k + n as u32,
                Some(_) => {}
            }
        }
        unreachable!()
    };
    (0..256).map(word).collect()
}

/// The members below a path, in address order, as words of the first form.
fn encode_at(w: u8, depth: u8, members: &[(u128, u8)], out: &mut Vec<u32>) {
    if members[0].1 == depth {
        out.push(0);
        return;
    }
    let bit = 1u128 << (w - 1 - depth);
    let middle = members.partition_point(|m| m.0 & bit == 0);
    let at = out.len();
    out.push(0);
    if middle > 0 {
        encode_at(w, depth + 1, &members[..middle], out);
        out[at] = 1;
    }
    if middle < members.len() {
        out[at] += 2 * (out.len() - at) as u32;
        encode_at(w, depth + 1, &members[middle..], out);
    }
}

/// The words with the state written over them: what is behind the last node stays.
pub fn encode(w: &mut [u32], s: &State) {
    let base = 64 + 8 * s.sets.len();
    let mut words = vec![];
    let mut indexes = 0;
    for (k, set) in s.sets.iter().enumerate() {
        let mut members: Vec<(u128, u8)> = set.list.iter().map(|m| (m.1, m.0)).collect();
        members.sort();
        w[64 + 8 * k] = if members.is_empty() { 0 } else { (words.len() / s.form.stride(s.family)) as u32 + 1 };
        w[65 + 8 * k] = set.share;
        w[66 + 8 * k] = set.limit;
        w[67 + 8 * k] = set.public as u32;
        w[68 + 8 * k] = 0;
        if set.indexed {
            let at = least(s.sets.len() as u64, s.nodes as u64, indexes) as usize;
            indexes += 1;
            w[68 + 8 * k] = indexes as u32;
            w[at..at + 256].copy_from_slice(&index(width(s.family), &set.list));
        }
        match s.form {
            _ if members.is_empty() => {}
            Form::First => encode_at(width(s.family), 0, &members, &mut words),
            Form::Second => kept::encode(s.family, &members, &mut words),
        }
    }
    w[base..base + words.len()].copy_from_slice(&words);
}

pub fn held(s: &State, k: usize) -> u64 {
    s.form.nodes(width(s.family), &s.sets[k].list)
}

pub fn room(s: &State, k: usize) -> u64 {
    let others: u64 = (0..s.sets.len()).filter(|&j| j != k).map(|j| held(s, j).max(s.sets[j].share as u64)).sum();
    s.nodes as u64 - others
}
