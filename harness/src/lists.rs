//! Lists of networks as document 01 describes them, sentence by sentence. Written apart from the library, to be held against it.
use std::collections::BTreeSet;

/// Length and address; the address is left-aligned in the width of the family.
pub type Member = (u8, u128);
pub type List = BTreeSet<Member>;

pub fn width(family: u8) -> u8 {
    if family == 4 { 32 } else { 128 }
}

/// The bits of an address past the length, as a mask.
pub fn past(w: u8, len: u8) -> u128 {
    let k = (w - len) as u32;
    if k >= 128 { u128::MAX } else { (1u128 << k) - 1 }
}

pub fn cleared(w: u8, len: u8, a: u128) -> u128 {
    a & !past(w, len)
}

/// The network m contains the network n.
pub fn holds(w: u8, m: Member, n: Member) -> bool {
    m.0 <= n.0 && cleared(w, m.0, n.1) == m.1
}

/// The inner networks of a family, as request M-112 lists them.
pub fn inner(family: u8) -> Vec<Member> {
    let four = ["10.0.0.0/8", "172.16.0.0/12", "192.168.0.0/16", "127.0.0.0/8", "169.254.0.0/16", "100.64.0.0/10"];
    let six = ["::1/128", "fe80::/10", "::ffff:0:0/96", "fc00::/7"];
    let parts = |s: &'static str| s.split_once('/').map(|(a, n)| (n.parse::<u8>().unwrap(), a)).unwrap();
    match family {
        4 => four.map(parts).iter().map(|(n, a)| (*n, u32::from(a.parse::<std::net::Ipv4Addr>().unwrap()) as u128)).collect(),
        _ => six.map(parts).iter().map(|(n, a)| (*n, u128::from(a.parse::<std::net::Ipv6Addr>().unwrap()))).collect(),
    }
}

/// A member and an inner network have an address in common.
pub fn meets_inner(family: u8, l: &List) -> bool {
    let w = width(family);
    inner(family).iter().any(|&q| l.iter().any(|&m| holds(w, m, q) || holds(w, q, m)))
}

pub fn supernet(w: u8, l: &List, n: Member) -> Option<Member> {
    (0..=n.0).map(|k| (k, cleared(w, k, n.1))).find(|m| l.contains(m))
}

/// How many leading bit strings of the query, the empty one included, are leading bit strings of some member too.
pub fn steps(w: u8, l: &List, n: Member) -> u32 {
    (0..=n.0).filter(|&k| l.iter().any(|m| m.0 >= k && cleared(w, k, m.1) == cleared(w, k, n.1))).count() as u32
}

/// How many members and branch points lead the query: a branch point is followed by 0 in one member and by 1 in another.
pub fn kept_steps(w: u8, l: &List, n: Member) -> u32 {
    let goes_on = |m: &Member, k: u8, bit: u128| m.0 > k && cleared(w, k, m.1) == cleared(w, k, n.1) && m.1 >> (w - 1 - k) & 1 == bit;
    let branches = |k: u8| [0, 1].into_iter().all(|bit| l.iter().any(|m| goes_on(m, k, bit)));
    (0..=n.0).filter(|&k| l.contains(&(k, cleared(w, k, n.1))) || branches(k)).count() as u32
}

pub fn add(w: u8, l: &List, n: Member) -> List {
    if supernet(w, l, n).is_some() {
        return l.clone();
    }
    let mut r: List = l.iter().copied().filter(|&m| !holds(w, n, m)).collect();
    r.insert(n);
    r
}

/// The other half of the block that a network of length k around the address halves.
fn sibling(w: u8, k: u8, a: u128) -> Member {
    (k, cleared(w, k, a) ^ (1u128 << (w - k)))
}

pub fn remove(w: u8, l: &List, n: Member) -> List {
    let mut r = List::new();
    for &m in l {
        if holds(w, n, m) {
            continue;
        }
        if holds(w, m, n) {
            r.extend((m.0 + 1..=n.0).map(|k| sibling(w, k, n.1)));
        } else {
            r.insert(m);
        }
    }
    r
}

/// The same addresses, with no two halves of one block and no member inside another.
pub fn simplify(w: u8, l: &List) -> List {
    let mut r: List = l.iter().copied().filter(|&m| supernet(w, l, m) == Some(m)).collect();
    for k in (1..=w).rev() {
        let halves: Vec<Member> = r.range((k, 0)..=(k, u128::MAX)).copied().collect();
        for m in halves {
            let s = sibling(w, k, m.1);
            if r.contains(&m) && r.contains(&s) {
                r.remove(&m);
                r.remove(&s);
                r.insert((k - 1, cleared(w, k - 1, m.1)));
            }
        }
    }
    r
}

pub fn merge(w: u8, l: &List, m: &List) -> List {
    simplify(w, &l.union(m).copied().collect())
}

pub fn intersect(w: u8, l: &List, m: &List) -> List {
    let inside = |x: &List, y: &List| -> Vec<Member> { x.iter().copied().filter(|&p| supernet(w, y, p).is_some()).collect() };
    simplify(w, &inside(l, m).into_iter().chain(inside(m, l)).collect())
}

/// What is left of each member by itself.
pub fn exclude_apart(w: u8, l: &List, m: &List) -> List {
    m.iter().fold(l.clone(), |r, &n| remove(w, &r, n))
}

pub fn exclude(w: u8, l: &List, m: &List) -> List {
    simplify(w, &exclude_apart(w, l, m))
}

/// The different leading bit strings of the members.
pub fn nodes(w: u8, l: &List) -> u64 {
    let mut seen: BTreeSet<Member> = BTreeSet::new();
    for &(len, a) in l {
        for k in (0..=len).rev() {
            if !seen.insert((k, cleared(w, k, a))) {
                break;
            }
        }
    }
    seen.len() as u64
}

pub fn next(l: &List, from: Option<Member>) -> Option<Member> {
    match from {
        None => l.iter().next().copied(),
        Some(m) => l.range((std::ops::Bound::Excluded(m), std::ops::Bound::Unbounded)).next().copied(),
    }
}

/// The fewest ranges that cover the list, ascending: an address begins one where the address before it is not covered, and ends one where the address behind it is not. There is none before zero and
/// none behind the last.
pub fn ranges(w: u8, l: &List) -> Vec<(u128, u128)> {
    let covered = |a: u128| supernet(w, l, (w, a)).is_some();
    let first: BTreeSet<u128> = l.iter().map(|m| m.1).filter(|&a| a == 0 || !covered(a - 1)).collect();
    let last: BTreeSet<u128> = l.iter().map(|m| m.1 | past(w, m.0)).filter(|&a| a == past(w, 0) || !covered(a + 1)).collect();
    first.into_iter().zip(last).collect()
}

/// The fewest networks that cover the addresses from a to b, which is no less, ascending: from a on the largest block that begins there and ends within them.
pub fn blocks(w: u8, a: u128, b: u128) -> Vec<Member> {
    let (mut at, mut r) = (a, vec![]);
    loop {
        let len = (0..=w).find(|&k| cleared(w, k, at) == at && at | past(w, k) <= b).expect("an address alone is one");
        r.push((len, at));
        let last = at | past(w, len);
        if last == b {
            return r;
        }
        at = last + 1;
    }
}
