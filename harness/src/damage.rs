//! Pools with a damaged word, and calls on them.
use crate::differential::{sequence_of, Case};
use crate::kept::node;
use crate::layout::{decode, held, least, Form, State};
use crate::lists::{cleared, past, width, Member};
use crate::model::{apply, net};
use crate::plan::{Dice, Plan};
use crate::wire::*;

/// Where the first index of a pool stands, behind its nodes.
fn indexes(s: &State) -> usize {
    least(s.sets.len() as u64, s.nodes as u64, 0) as usize
}

/// Where the nodes of a pool stand.
fn base(s: &State) -> usize {
    64 + 8 * s.sets.len()
}

/// The words of a pool that are damaged: of what is read all but the indexes, each word of each node in use among them, and some of the indexes and of the
/// rest.
fn places(d: &mut Dice, s: &State, words: usize) -> Vec<usize> {
    let used: u64 = (0..s.sets.len()).map(|k| held(s, k)).sum();
    let end = words.min(base(s) + s.form.stride(s.family) * (used as usize + 1) + 2);
    // most of the header's unread words are alike
    let mut at: Vec<usize> = (0..end).filter(|at| !(8..60).contains(at) || d.one_in(16)).collect();
    at.extend((end..words).filter(|&at| d.one_in(if at < indexes(s) { 64 } else { 16 })));
    at
}

/// The node of the second form that a word belongs to, and which of its words it is.
fn node_at(s: &State, at: usize) -> Option<(u64, usize)> {
    let from = at.checked_sub(base(s)).filter(|_| s.form == Form::Second)?;
    let stride = s.form.stride(s.family);
    Some((1 + (from / stride) as u64, from % stride)).filter(|(i, _)| *i <= s.nodes as u64)
}

/// Other values for a word: what it may be near; of an index what it may say of a node, of an absence, and of none; of a node of the second form another length
/// or distance, and other bits.
fn others(d: &mut Dice, s: &State, words: &[u32], at: usize) -> Vec<u32> {
    let (old, beside) = (words[at], words[(at + 1).min(words.len() - 1)]);
    let mut x = vec![0, 1, beside, u32::MAX, d.roll() as u32, old.wrapping_add(1), old.wrapping_sub(1), old ^ 2];
    match node_at(s, at) {
        Some((i, 0)) => {
            let (len, far) = (old % 256, old - old % 256);
            let behind = s.nodes - i as u32;
            x.extend([len, old.wrapping_add(256), old.wrapping_sub(256), len + 256, len + 256 * behind, len + 256 * (behind + 1)]);
            // a length no more than its own, which may be no more than the parent's, and any
            x.extend([0; 4].map(|_| far + d.below(len as u64 + 1) as u32));
            x.extend([far, far + d.below(width(s.family) as u64 + 2) as u32, far + 255]);
        }
        Some(_) => x.extend([old ^ 1 << d.below(32), old ^ 1 << d.below(32), old ^ 1 << 31]),
        None if at >= indexes(s) => {
            let node = 32 * d.below(s.nodes as u64 + 2) as u32;
            x.extend([node + 8, node + 9, node + d.below(8) as u32, old.wrapping_add(32), 16 + d.below(9) as u32, d.pick(&[9, 15, 25, 31, 48])]);
        }
        None => {}
    }
    x.retain(|_| d.one_in(3));
    x
}

/// The network of a lookup whose first `len` bits are those of `from`, and the others any.
fn query(d: &mut Dice, s: &State, lengths: [u8; 4], (len, from): Member) -> Net {
    let (w, any) = (width(s.family), (d.roll() as u128) << 64 | d.roll() as u128);
    net(s.family, (d.pick(&lengths), from | any & past(w, len)))
}

/// A lookup where a word of a node of the second form is damaged, in the set that has the node: its string leads the query, as long as it, longer, or a single
/// address.
fn lookup_of(d: &mut Dice, s: &State, words: &[u32], i: u64) -> Call {
    let w = width(s.family);
    let x = node(words, s.family, base(s), i);
    let len = x.len.min(w);
    let own = (0..s.sets.len()).filter(|&k| (1..=i).contains(&(words[64 + 8 * k] as u64))).max_by_key(|&k| words[64 + 8 * k]);
    let longer = len + d.below((w - len) as u64 + 1) as u8;
    let net = query(d, s, [len, longer, w, w], (len, cleared(w, len, x.address)));
    Call { a: own.unwrap_or(0) as u32, net, ..Call::new(d.pick(&[SUPERNET, CONTAINS])) }
}

/// A lookup of eight bits or more where a word is damaged: in the set of that record or index, by the byte of the index word, or else by that of a member.
fn lookup_at(d: &mut Dice, s: &State, words: &[u32], at: usize) -> Call {
    if let Some((i, _)) = node_at(s, at) {
        return lookup_of(d, s, words, i);
    }
    let w = width(s.family);
    let indexed: Vec<usize> = (0..s.sets.len()).filter(|&k| s.sets[k].indexed).collect();
    let own = if at < 64 { None } else { Some((at - 64) / 8).filter(|&k| k < s.sets.len()) };
    let (k, byte) = match at.checked_sub(indexes(s)).map(|from| (indexed.get(from / 256), from % 256)) {
        Some((Some(&k), byte)) => (k, Some(byte as u128)),
        _ => (own.unwrap_or(d.below(s.sets.len() as u64) as usize), None),
    };
    let list = &s.sets[k].list;
    let from = match byte {
        Some(byte) => (8, byte << (w - 8)),
        None if list.is_empty() => (0, 0),
        None => *list.iter().nth(d.below(list.len() as u64) as usize).unwrap(),
    };
    let longer = 8 + d.below(w as u64 - 7) as u8;
    let net = query(d, s, [8, 9, longer, w], from);
    Call { a: k as u32, net, ..Call::new(d.pick(&[SUPERNET, CONTAINS])) }
}

/// A pool with something in it, then one word after another set to another value, a few calls on what that gives, and the word set back.
pub fn damage(d: &mut Dice) -> Case {
    let plan = Plan::new(d);
    let mut case = sequence_of(d, &plan, 100, |c| matches!(c.code, ADD | MERGE | EXCLUDE | MAKE_PUBLIC | LOAD | ADD_RANGE | ADD_FILE));
    let mut words = vec![0u32; case.words];
    case.calls.iter().for_each(|c| {
        apply(&mut words, c);
    });
    let Some(state) = decode(&words) else { return case };
    let plan = Plan::new(d);
    for at in places(d, &state, case.words) {
        let old = words[at];
        for x in others(d, &state, &words, at) {
            let write = |x: u32| Call { a: at as u32, tail: x.to_le_bytes().to_vec(), ..Call::new(WRITE_WORDS) };
            // free says whether the words are sound
            case.calls.extend([write(x), lookup_at(d, &state, &words, at), Call::new(FREE)]);
            for _ in 0..2 {
                let mut c = plan.call(d, &state_of(&plan));
                if c.code == LAYOUT {
                    c = Call::new(FREE);
                }
                let changes = matches!(c.code, ADD..=EXCLUDE_APART | EXCLUDE | REPLAN | MAKE_PUBLIC | LOAD | LINES | ADD_RANGE..=REMOVE_FILE);
                if !changes || x == old {
                    c.net.family = state.family;
                    case.calls.push(c);
                } else {
                    // a changing call on a copy: the words are written back whole
                    case.calls.push(c);
                    let tail = words.iter().flat_map(|y| y.to_le_bytes()).collect();
                    case.calls.push(Call { tail, ..Call::new(WRITE_WORDS) });
                    case.calls.push(write(x));
                }
            }
            case.calls.push(write(old));
        }
    }
    case
}

fn state_of(p: &Plan) -> State {
    let mut w = vec![0u32; p.words()];
    apply(&mut w, &p.layout());
    decode(&w).unwrap()
}
