//! What each call has to answer and to leave, by document 01, requests M-101, M-102, M-103, M-105, M-107, M-108, M-109, M-111 and M-112, and docs/CALLS.md:
//! refusals, room, limits, shares, reports, files, text, damaged memory.
use crate::files::{file, read_file, read_lines};
use crate::layout::{decode, encode, held, least, room, Form, State, MARK};
use crate::lists::{self, cleared, width, List, Member};
use crate::many;
use crate::paths::{path, root};
use crate::runs;
use crate::salvage;
use crate::text4::{read_either, read_line, text4};
use crate::text6::{read_line6, text6};
use crate::wire::*;

pub fn is_family(f: u8) -> bool {
    f == 4 || f == 6
}

pub fn address(n: &Net) -> u128 {
    (n.hi as u128) << 64 | n.lo as u128
}

pub fn net(family: u8, m: Member) -> Net {
    Net { family, hi: (m.1 >> 64) as u64, lo: m.1 as u64, len: m.0 }
}

/// 6 for another family than 4 and 6, 7 for a length or an address outside the range.
fn net_no(n: &Net) -> u8 {
    if !is_family(n.family) {
        return 6;
    }
    let small = n.family == 6 || address(n) < 1 << 32;
    if n.len > width(n.family) || !small { 7 } else { 0 }
}

/// The refusal of a network as an argument in a pool of the family.
pub fn in_pool(family: u8, n: &Net) -> u8 {
    if n.family != family { 6 } else { net_no(n) }
}

fn member(n: &Net) -> Member {
    (n.len, cleared(width(n.family), n.len, address(n)))
}

/// Whether a bit past the length is set, as y has it.
fn trimmed(n: &Net) -> u32 {
    (address(n) & lists::past(width(n.family), n.len) != 0) as u32
}

fn answered(no: u8, a: impl FnOnce() -> Answer) -> Answer {
    if no != 0 { Answer::refused(no) } else { a() }
}

fn given(n: Net) -> Answer {
    Answer { net: n, ..Answer::default() }
}

/// A network taken in: its bits past the length are cleared, and the answer says whether one was set.
fn entered(n: &Net) -> Answer {
    Answer { y: trimmed(n), ..given(net(n.family, member(n))) }
}

fn number(x: u32) -> Answer {
    Answer { x, ..Answer::default() }
}

fn told(b: bool) -> Answer {
    Answer { flag: b as u8, ..Answer::default() }
}

fn found(family: u8, m: Option<Member>) -> Answer {
    match m {
        Some(m) => Answer { flag: 1, net: net(family, m), ..Answer::default() },
        None => Answer::default(),
    }
}

fn layout(w: &mut [u32], c: &Call) -> Answer {
    let (family, sets, nodes) = (c.net.family, c.a as u64, c.b as u64);
    let shares = numbers(&c.tail, 0, c.net.len as usize);
    let limits = numbers(&c.tail, c.net.len as usize, (c.c % 256) as usize);
    let indexes = c.net.hi.count_ones();
    // no set is indexed in the second form
    let form = Form::of(c.c / 256).filter(|&form| form == Form::First || indexes == 0);
    let right = is_family(family)
        && form.is_some()
        && (1..=64).contains(&sets)
        && (1..=4_194_304).contains(&nodes)
        && (sets == 64 || c.net.hi >> sets == 0)
        && least(sets, nodes, indexes as u64) <= w.len() as u64
        && shares.len() as u64 == sets
        && limits.len() as u64 == sets
        && shares.iter().zip(&limits).all(|(s, l)| s <= l)
        && shares.iter().map(|&s| s as u64).sum::<u64>() <= nodes;
    if !right {
        return Answer::refused(1);
    }
    w[..least(sets, nodes, indexes as u64) as usize].fill(0);
    w[..6].copy_from_slice(&[MARK, family as u32, c.a, c.b, indexes, c.c / 256]);
    for k in 0..sets as usize {
        w[65 + 8 * k] = shares[k];
        w[66 + 8 * k] = limits[k];
    }
    for (j, k) in (0..sets as usize).filter(|k| c.net.hi >> k & 1 == 1).enumerate() {
        w[68 + 8 * k] = j as u32 + 1;
    }
    // in an empty set every walk ends at once
    w[least(sets, nodes, 0) as usize..least(sets, nodes, indexes as u64) as usize].fill(16);
    number(0)
}

/// A changing call on set k, where the arguments get the number `no` and the result is the list.
pub fn change(w: &mut [u32], mut s: State, k: u32, no: u8, list: impl FnOnce(&State) -> List) -> Answer {
    let k = k as usize;
    if k >= s.sets.len() {
        return Answer::refused(3);
    }
    if no != 0 {
        return Answer::refused(no);
    }
    let l = list(&s);
    let n = s.form.nodes(width(s.family), &l);
    if s.sets[k].public && lists::meets_inner(s.family, &l) {
        return Answer::refused(14);
    }
    if n > s.sets[k].limit as u64 {
        return Answer::refused(9);
    }
    if n > room(&s, k) {
        return Answer::refused(10);
    }
    s.sets[k].list = l;
    encode(w, &s);
    number(n as u32)
}

/// One that takes a network in: with the report, where it is granted.
fn change_by(w: &mut [u32], s: State, c: &Call, f: fn(u8, &List, Member) -> List) -> Answer {
    let no = in_pool(s.family, &c.net);
    let a = change(w, s, c.a, no, |s| f(width(s.family), &s.sets[c.a as usize].list, member(&c.net)));
    if a.no != 0 { a } else { Answer { y: trimmed(&c.net), ..a } }
}

/// Share and limit of set a become b and c: M-105's three conditions, the claims summed over all sets with the new share.
fn replan(w: &mut [u32], mut s: State, c: &Call) -> Answer {
    let k = c.a as usize;
    if k >= s.sets.len() {
        return Answer::refused(3);
    }
    let own = held(&s, k);
    (s.sets[k].share, s.sets[k].limit) = (c.b, c.c);
    let claims: u64 = (0..s.sets.len()).map(|j| held(&s, j).max(s.sets[j].share as u64)).sum();
    if c.b > c.c || own > c.c as u64 || claims > s.nodes as u64 {
        return Answer::refused(13);
    }
    encode(w, &s);
    number(own as u32)
}

/// Set a becomes public-only, where it is empty.
fn make_public(w: &mut [u32], mut s: State, c: &Call) -> Answer {
    let k = c.a as usize;
    if k >= s.sets.len() {
        return Answer::refused(3);
    }
    if !s.sets[k].list.is_empty() {
        return Answer::refused(8);
    }
    s.sets[k].public = true;
    encode(w, &s);
    number(0)
}

fn combine(w: &mut [u32], s: State, c: &Call, f: fn(u8, &List, &List) -> List) -> Answer {
    let sets = s.sets.len() as u32;
    let no = if c.b >= sets || c.c >= sets {
        3
    } else if c.a < sets && !s.sets[c.a as usize].list.is_empty() {
        8
    } else {
        0
    };
    change(w, s, c.a, no, |s| f(width(s.family), &s.sets[c.b as usize].list, &s.sets[c.c as usize].list))
}

fn is_empty(w: &[u32], set: u32) -> Answer {
    match root(w, set) {
        Err(no) => Answer::refused(no),
        Ok((h, root)) => answered(if root > h.nodes as u64 { 2 } else { 0 }, || told(root == 0)),
    }
}

/// A call that writes rows of so many numbers, one for each of what the set has.
fn rows(s: &State, c: &Call, wide: usize, of: impl FnOnce(&List) -> Vec<u64>) -> Answer {
    let mut lent = vec![c.c as u64; c.b as usize];
    let a = if c.a as usize >= s.sets.len() {
        Answer::refused(3)
    } else {
        let numbers = of(&s.sets[c.a as usize].list);
        if numbers.len() > lent.len() {
            Answer::refused(11)
        } else {
            lent[..numbers.len()].copy_from_slice(&numbers);
            number((numbers.len() / wide) as u32)
        }
    };
    Answer { tail: lent.iter().flat_map(|r| r.to_le_bytes()).collect(), ..a }
}

fn next(s: &State, c: &Call) -> Answer {
    if c.a as usize >= s.sets.len() {
        return Answer::refused(3);
    }
    let no = if c.b == 0 { 0 } else { in_pool(s.family, &c.net) };
    answered(no, || found(s.family, lists::next(&s.sets[c.a as usize].list, if c.b == 0 { None } else { Some(member(&c.net)) })))
}

fn save(s: &State, c: &Call) -> Answer {
    let mut out = vec![c.c as u8; c.b as usize];
    let a = if c.a as usize >= s.sets.len() {
        Answer::refused(3)
    } else {
        let f = file(s.family, &s.sets[c.a as usize].list);
        answered(if f.len() > out.len() { 11 } else { 0 }, || {
            out[..f.len()].copy_from_slice(&f);
            number(f.len() as u32)
        })
    };
    Answer { tail: out, ..a }
}

fn load(w: &mut [u32], s: State, c: &Call) -> Answer {
    let (family, list) = read_file(&c.tail).unwrap_or_default();
    let no = if family == 0 {
        5
    } else if family != s.family {
        6
    } else if s.sets.get(c.a as usize).is_some_and(|set| !set.list.is_empty()) {
        8
    } else {
        0
    };
    change(w, s, c.a, no, |_| list)
}

/// The lines are added to set 0 up to the first that is refused; of that at most 50 bytes are kept. On unsound memory every call on a pool answers 2: the first line is not reached.
fn lines(w: &mut [u32], c: &Call) -> Answer {
    if decode(w).is_none() {
        return Answer { no: 2, ..number(1) };
    }
    let all = read_lines(&c.tail);
    let mut cut = 0;
    let at = |k: usize, cut: u64| Answer { net: Net { lo: cut, ..Net::default() }, ..number(k as u32 + 1) };
    for (k, line) in all.iter().enumerate() {
        let (no, bits) = match read_either(line) {
            None => (4, 0),
            Some(net) => (apply(w, &Call { net: net.clone(), ..Call::new(ADD) }).no, trimmed(&net)),
        };
        if no != 0 {
            return Answer { no, y: line.len().min(50) as u32, ..at(k, cut) };
        }
        cut += bits as u64;
    }
    at(all.len(), cut)
}

fn write_line(c: &Call) -> Answer {
    let mut out = vec![c.c as u8; c.b as usize];
    let n = &c.net;
    let a = answered(net_no(n), || {
        let v = member(n).1;
        let text = format!("{}/{}", if n.family == 4 { text4(v) } else { text6(v) }, n.len);
        answered(if text.len() > out.len() { 11 } else { 0 }, || {
            out[..text.len()].copy_from_slice(text.as_bytes());
            Answer { y: trimmed(n), ..number(text.len() as u32) }
        })
    });
    Answer { tail: out, ..a }
}

/// The calls without a pool.
fn alone(c: &Call) -> Answer {
    let n = &c.net;
    let no = net_no(n);
    match c.code {
        NEW => answered(no, || given(n.clone())),
        TO_NETWORK => answered(no, || entered(n)),
        WITH_NEW_PREFIX => {
            let m = Net { len: c.a as u8, ..n.clone() };
            answered(if no != 0 { no } else { net_no(&m) }, || given(net(m.family, member(&m))))
        }
        PREFIX_BITS => answered(no, || {
            let a = address(n) << (128 - width(n.family));
            given(Net { family: 0, ..net(0, (n.len, a)) })
        }),
        NEXT_BIT if n.len == 0 => Answer::default(),
        NEXT_BIT => {
            let a = address(n);
            Answer { flag: 1, x: (a >> 127) as u32, net: net(0, (n.len - 1, a << 1)), ..Answer::default() }
        }
        OCTETS => given(net(4, (32, u32::from_be_bytes(c.a.to_le_bytes()) as u128))),
        BYTES | GROUPS => {
            let b: Vec<u8> = n.hi.to_le_bytes().into_iter().chain(n.lo.to_le_bytes()).collect();
            let a = if c.code == BYTES {
                b.iter().fold(0u128, |x, &y| x << 8 | y as u128)
            } else {
                b.chunks(2).fold(0u128, |x, y| x << 16 | u16::from_le_bytes([y[0], y[1]]) as u128)
            };
            given(net(6, (128, a)))
        }
        _ => {
            let m = Net { len: width(n.family), ..n.clone() };
            answered(net_no(&m), || given(m))
        }
    }
}

/// What the call answers, and the words afterwards.
pub fn apply(w: &mut [u32], c: &Call) -> Answer {
    match c.code {
        LAYOUT => return layout(w, c),
        SUPERNET | CONTAINS => {
            return match path(w, c.a, &c.net) {
                Err(no) => Answer::refused(no),
                Ok((len, read)) => {
                    // on sound memory by the list, which is what the path shows; on any other by the path
                    let wide = width(c.net.family);
                    let x = decode(w).map_or(read, |s| s.form.steps(wide, &s.sets[c.a as usize].list, member(&c.net)));
                    assert_eq!(x, read, "{c:?}");
                    let m = len.map(|k| (k, cleared(wide, k, address(&c.net))));
                    let a = if c.code == CONTAINS { told(m.is_some()) } else { found(c.net.family, m) };
                    Answer { x, y: trimmed(&c.net), ..a }
                }
            }
        }
        IS_EMPTY => return is_empty(w, c.a),
        READ_LINE => return read_line(&c.tail).map_or(Answer::refused(4), |n| entered(&n)),
        READ_LINE_6 => return read_line6(&c.tail).map_or(Answer::refused(4), |n| entered(&n)),
        READ_LINE_EITHER => return read_either(&c.tail).map_or(Answer::refused(4), |n| entered(&n)),
        WRITE_LINE => return write_line(c),
        LINES => return lines(w, c),
        NEW..=WORDS => return alone(c),
        COMPARE => return runs::compare(c),
        SALVAGE => return salvage::salvage(c),
        WRITE_WORDS => {
            for (k, x) in c.tail.chunks_exact(4).enumerate() {
                if let Some(y) = w.get_mut(c.a as usize + k) {
                    *y = u32::from_le_bytes(x.try_into().unwrap());
                }
            }
            return Answer::default();
        }
        READ_WORDS => {
            let words = (0..c.b as usize).flat_map(|k| w.get(c.a as usize + k).unwrap_or(&0).to_le_bytes());
            return Answer { tail: words.collect(), ..Answer::default() };
        }
        _ => {}
    }
    let Some(s) = decode(w) else {
        let tail = match c.code {
            LIST | RANGES => vec![c.c as u64; c.b as usize].iter().flat_map(|r| r.to_le_bytes()).collect(),
            SAVE => vec![c.c as u8; c.b as usize],
            _ => vec![],
        };
        return Answer { tail, ..Answer::refused(2) };
    };
    let (f, k) = (s.family, c.a as usize);
    let known = k < s.sets.len();
    match c.code {
        FREE => number(s.nodes - (0..s.sets.len()).map(|j| held(&s, j)).sum::<u64>() as u32),
        HELD => answered(if known { 0 } else { 3 }, || Answer { y: s.sets[k].list.len() as u32, ..number(held(&s, k) as u32) }),
        PLAN => answered(if known { 0 } else { 3 }, || Answer { y: s.sets[k].limit, ..number(s.sets[k].share) }),
        ADD => change_by(w, s, c, lists::add),
        REMOVE => change_by(w, s, c, lists::remove),
        SIMPLIFY => change(w, s, c.a, 0, |s| lists::simplify(width(f), &s.sets[k].list)),
        MERGE => combine(w, s, c, lists::merge),
        INTERSECT => combine(w, s, c, lists::intersect),
        EXCLUDE => combine(w, s, c, lists::exclude),
        EXCLUDE_APART => combine(w, s, c, lists::exclude_apart),
        REPLAN => replan(w, s, c),
        MAKE_PUBLIC => make_public(w, s, c),
        EQUAL => {
            let j = c.b as usize;
            answered(if known && j < s.sets.len() { 0 } else { 3 }, || told(s.sets[k].list == s.sets[j].list))
        }
        LIST => rows(&s, c, 3, |l| l.iter().flat_map(|m| [words(m.1)[0], words(m.1)[1], m.0 as u64]).collect()),
        RANGES => rows(&s, c, 4, |l| lists::ranges(width(f), l).into_iter().flat_map(|(a, e)| [words(a), words(e)].concat()).collect()),
        SAVE => save(&s, c),
        LOAD => load(w, s, c),
        ADD_RANGE | ADD_FILE | REMOVE_FILE => many::pour(w, s, c),
        NTH => answered(if known { 0 } else { 3 }, || found(f, s.sets[k].list.iter().nth(c.b as usize).copied())),
        LAST => answered(if known { 0 } else { 3 }, || found(f, s.sets[k].list.last().copied())),
        PAGE => answered(if !known { 3 } else if s.sets[k].list.len() > 16 { 11 } else { 0 }, || {
            let l = &s.sets[k].list;
            Answer { net: l.iter().nth(c.b as usize % 16).map_or(Net::default(), |&m| net(f, m)), ..number(l.len() as u32) }
        }),
        NEXT => next(&s, c),
        code => panic!("no call has the code {code}"),
    }
}
