//! The rows that are measured on a table. A new one is a function here and its line in ROWS; where it has a target, a line in targets.txt too.
use super::case::{seconds, Case, Pool, Took, NODES};
use super::tables::{queries, some, QUERIES};
use crate::exports as call;
use crate::files::file;
use crate::layout::Form;
use crate::lists::{meets_inner, List, Member};
use crate::model::net;
use crate::oracle::{self, Numbers};
use crate::wire::{Net, EXCLUDE, EXCLUDE_APART, INTERSECT, MERGE};
use ipnet::{Ipv4Net, Ipv6Net};
use iprange::IpRange;
use std::hint::black_box;

/// The tables that have to fit in one pool.
#[derive(Clone, Copy, PartialEq, Eq)]
pub enum Needs {
    One,
    /// One, of few networks: each call checks the whole pool, and there are as many calls as networks.
    Few,
    /// The table twice.
    Twice,
    /// The table, a second one and what is made of both.
    Two,
}

pub struct Row {
    /// As `--rows` and targets.txt name it.
    pub name: &'static str,
    /// In the tables: our call, and behind a stroke what stands beside it.
    pub what: &'static str,
    /// What the nanoseconds are for.
    pub each: &'static str,
    pub needs: Needs,
    /// Those that it is measured in.
    pub forms: &'static [Form],
    pub four: fn(&Case<Ipv4Net>) -> Took,
    pub six: fn(&Case<Ipv6Net>) -> Took,
}

macro_rules! rows {
    ($($name:ident, $what:literal, $each:literal, $needs:ident, $forms:ident;)*) => {
        &[$(Row { name: stringify!($name), what: $what, each: $each, needs: Needs::$needs, forms: $forms, four: $name::<Ipv4Net>, six: $name::<Ipv6Net> }),*]
    };
}

const FIRST: &[Form] = &[Form::First];
const BOTH: &[Form] = &Form::BOTH;

pub const ROWS: &[Row] = rows! {
    contains_hit, "contains, hit / contains", "lookup", One, BOTH;
    contains_miss, "contains, miss / contains", "lookup", One, BOTH;
    contains_indexed_hit, "contains of an indexed set, hit / contains", "lookup", One, FIRST;
    contains_indexed_miss, "contains of an indexed set, miss / contains", "lookup", One, FIRST;
    indexed_hit, "contains of an indexed set, hit / not indexed", "lookup", One, FIRST;
    indexed_miss, "contains of an indexed set, miss / not indexed", "lookup", One, FIRST;
    contains_all_hit, "contains_all, hit / contains", "lookup", One, BOTH;
    contains_all_miss, "contains_all, miss / contains", "lookup", One, FIRST;
    contains_all_loop, "contains_all, hit / a loop of our contains", "lookup", One, FIRST;
    supernet, "supernet / supernet", "lookup", One, BOTH;
    list, "list / iterate", "network", One, BOTH;
    ranges, "ranges", "network", One, FIRST;
    walk, "nth: a walk of 1,000 steps / iterate", "network", One, FIRST;
    load, "load / collect", "network", One, BOTH;
    save, "save", "network", One, FIRST;
    add_file, "add_file of half a table to the rest / add", "network of the file", One, FIRST;
    add_file_loop, "add_file of half a table to the rest / a loop of our add", "network of the file", Few, FIRST;
    remove_file, "remove_file of half a table / remove", "network of the file", One, FIRST;
    simplify, "simplify / simplify", "network", One, BOTH;
    merge, "merge / merge", "network of both", Two, BOTH;
    intersect, "intersect / intersect", "network of both", Two, BOTH;
    exclude, "exclude / exclude, simplify", "network of both", Two, BOTH;
    exclude_apart, "exclude_apart / exclude", "network of both", Two, FIRST;
    copy, "exclude_apart of nothing / clone", "network", Twice, FIRST;
    equal, "equal / ==", "network", Twice, BOTH;
    merge_public, "merge, public-only / not marked", "network of both", Two, FIRST;
    check, "free: the check of the pool", "node", One, BOTH;
    held, "held", "call", One, FIRST;
    add, "add / add", "call", One, BOTH;
    add_public, "add, public-only / not marked", "call", Two, FIRST;
    remove, "remove / remove", "call", One, BOTH;
    next, "next", "call", One, FIRST;
};

/// An answer that is no refusal.
fn granted(answer: u64) {
    assert_eq!(answer >> 32 & 0xffff, 0, "refused");
}

fn lookups<N: Numbers + Clone>(c: &Case<N>, hit: bool, ours: impl Fn(&Net) -> bool, theirs: impl Fn(&N) -> bool) -> Took {
    let (nets, same): (Vec<Net>, Vec<N>) = queries(c.family, &c.list, hit).iter().map(|&m| (net(c.family, m), N::of(m))).unzip();
    let right = |n: usize| assert_eq!(n, if hit { QUERIES } else { 0 });
    let a = || seconds(|| right(nets.iter().filter(|n| ours(n)).count()));
    c.beside(QUERIES, a, || seconds(|| right(same.iter().filter(|n| theirs(n)).count()))).checked(0)
}

/// All queries in one call of ours, and one by one beside it.
fn many<N: Numbers + Clone>(c: &Case<N>, hit: bool, one: impl Fn(&Net, &N) -> bool) -> Took {
    let (nets, same): (Vec<Net>, Vec<N>) = queries(c.family, &c.list, hit).iter().map(|&m| (net(c.family, m), N::of(m))).unzip();
    let asked: Vec<u64> = nets.iter().flat_map(|n| [n.hi, n.lo, n.len as u64]).collect();
    let right = |n: usize| assert_eq!(n, if hit { QUERIES } else { 0 });
    let a = || {
        let mut answers = vec![0; QUERIES];
        seconds(|| {
            granted(call::contains_all(&c.words, 0, c.family, &asked, &mut answers));
            right(answers.iter().filter(|&a| a >> 48 & 1 == 1).count())
        })
    };
    c.beside(QUERIES, a, || seconds(|| right(nets.iter().zip(&same).filter(|(n, same)| one(n, same)).count()))).checked(0)
}

fn contains_indexed_hit<N: Numbers + Clone>(c: &Case<N>) -> Took {
    let w = Pool::indexed(c.family, &c.list);
    lookups(c, true, |n| call::contains(&w, 0, n), |n| c.range.contains(n))
}

fn contains_indexed_miss<N: Numbers + Clone>(c: &Case<N>) -> Took {
    let w = Pool::indexed(c.family, &c.list);
    lookups(c, false, |n| call::contains(&w, 0, n), |n| c.range.contains(n))
}

/// An indexed set beside one that is not, of the same list.
fn indexed<N: Numbers + Clone>(c: &Case<N>, hit: bool) -> Took {
    let w = Pool::indexed(c.family, &c.list);
    let nets: Vec<Net> = queries(c.family, &c.list, hit).iter().map(|&m| net(c.family, m)).collect();
    let right = if hit { QUERIES } else { 0 };
    let asked = |w: &[u32]| seconds(|| assert_eq!(nets.iter().filter(|n| call::contains(w, 0, n)).count(), right));
    c.beside(QUERIES, || asked(&w), || asked(&c.words)).checked(0)
}

fn indexed_hit<N: Numbers + Clone>(c: &Case<N>) -> Took {
    indexed(c, true)
}

fn indexed_miss<N: Numbers + Clone>(c: &Case<N>) -> Took {
    indexed(c, false)
}

fn contains_all_hit<N: Numbers + Clone>(c: &Case<N>) -> Took {
    many(c, true, |_, n| c.range.contains(n))
}

fn contains_all_miss<N: Numbers + Clone>(c: &Case<N>) -> Took {
    many(c, false, |_, n| c.range.contains(n))
}

fn contains_all_loop<N: Numbers + Clone>(c: &Case<N>) -> Took {
    many(c, true, |n, _| call::contains(&c.words, 0, n))
}

fn contains_hit<N: Numbers + Clone>(c: &Case<N>) -> Took {
    lookups(c, true, |n| call::contains(&c.words, 0, n), |n| c.range.contains(n))
}

fn contains_miss<N: Numbers + Clone>(c: &Case<N>) -> Took {
    lookups(c, false, |n| call::contains(&c.words, 0, n), |n| c.range.contains(n))
}

fn supernet<N: Numbers + Clone>(c: &Case<N>) -> Took {
    lookups(c, true, |n| call::supernet(&c.words, 0, n, black_box(&mut [0; 3])), |n| black_box(c.range.supernet(n)).is_some())
}

fn list<N: Numbers + Clone>(c: &Case<N>) -> Took {
    let n = c.list.len();
    let mut rows = vec![0u64; 3 * n];
    let mut v: Vec<N> = Vec::with_capacity(n);
    let theirs = || {
        v.clear();
        seconds(|| v.extend(black_box(&c.range).iter()))
    };
    c.beside(n, || seconds(|| assert_eq!(call::list(&c.words, 0, &mut rows), n as u64)), theirs)
}

fn ranges<N: Numbers + Clone>(c: &Case<N>) -> Took {
    let mut rows = vec![0u64; 4 * c.list.len()];
    c.alone(c.list.len(), || seconds(|| granted(call::ranges(&c.words, 0, &mut rows))))
}

/// The networks that a walk passes: all of a large table would take minutes.
const STEPS: usize = 1000;

fn walk<N: Numbers + Clone>(c: &Case<N>) -> Took {
    let (n, mut row) = (STEPS.min(c.list.len()), [0; 3]);
    let theirs = || seconds(|| _ = black_box(black_box(&c.range).iter().nth(n - 1)));
    c.beside(n, || seconds(|| granted(call::nth(&c.words, 0, n as u32 - 1, &mut row))), theirs)
}

fn load<N: Numbers + Clone>(c: &Case<N>) -> Took {
    let f = file(c.family, &c.list);
    let sorted: Vec<N> = c.list.iter().map(|&m| N::of(m)).collect();
    let empty = c.pool_of(&[], false);
    let mut w = empty.words();
    let ours = || {
        empty.again(&mut w);
        seconds(|| assert_eq!(call::load(&mut w, 0, &f), c.pool.nodes() as u64))
    };
    c.beside(c.list.len(), ours, || seconds(|| drop(black_box(sorted.iter().cloned().collect::<IpRange<N>>())))).checked(0)
}

fn save<N: Numbers + Clone>(c: &Case<N>) -> Took {
    let mut out = vec![0u8; file(c.family, &c.list).len()];
    c.alone(c.list.len(), || seconds(|| assert_eq!(call::save(&c.words, 0, &mut out), out.len() as u64)))
}

/// Every other network of a table, and the rest.
fn halves(l: &List) -> [List; 2] {
    [0, 1].map(|k| l.iter().copied().skip(k).step_by(2).collect())
}

fn add_file<N: Numbers + Clone>(c: &Case<N>) -> Took {
    let [half, rest] = halves(&c.list);
    let (f, nets) = (file(c.family, &half), half.iter().map(|&m| N::of(m)).collect::<Vec<N>>());
    let (pool, range) = (c.pool_of(&[&rest], false), oracle::ranges::<N>(&rest));
    let mut w = pool.words();
    let ours = || {
        pool.again(&mut w);
        seconds(|| assert_eq!(call::add_file(&mut w, 0, &f), c.pool.nodes() as u64))
    };
    let theirs = || {
        let mut r = range.clone();
        seconds(|| nets.iter().cloned().for_each(|n| _ = r.add(n)))
    };
    Took { nodes: pool.nodes(), ..c.beside(nets.len(), ours, theirs) }
}

fn add_file_loop<N: Numbers + Clone>(c: &Case<N>) -> Took {
    let [half, rest] = halves(&c.list);
    let (f, nets) = (file(c.family, &half), half.iter().map(|&m| net(c.family, m)).collect::<Vec<Net>>());
    let pool = c.pool_of(&[&rest], false);
    let (mut v, mut w) = (pool.words(), pool.words());
    let ours = || {
        pool.again(&mut v);
        seconds(|| granted(call::add_file(&mut v, 0, &f)))
    };
    let theirs = || {
        pool.again(&mut w);
        seconds(|| nets.iter().for_each(|n| granted(call::add(&mut w, 0, n))))
    };
    let took = c.beside(nets.len(), ours, theirs);
    assert!(v == w, "the same words");
    Took { nodes: pool.nodes(), ..took }
}

fn remove_file<N: Numbers + Clone>(c: &Case<N>) -> Took {
    let [half, rest] = halves(&c.list);
    let (f, nets) = (file(c.family, &half), half.iter().map(|&m| N::of(m)).collect::<Vec<N>>());
    let left = c.pool_of(&[&rest], false).nodes();
    let mut w = c.pool.words();
    let ours = || {
        c.pool.again(&mut w);
        seconds(|| assert_eq!(call::remove_file(&mut w, 0, &f), left as u64))
    };
    let theirs = || {
        let mut r = c.range.clone();
        seconds(|| nets.iter().cloned().for_each(|n| _ = r.remove(n)))
    };
    c.beside(nets.len(), ours, theirs)
}

fn simplify<N: Numbers + Clone>(c: &Case<N>) -> Took {
    let mut w = c.pool.words();
    let ours = || {
        c.pool.again(&mut w);
        seconds(|| granted(call::simplify(&mut w, 0)))
    };
    let theirs = || {
        let mut x = c.range.clone();
        seconds(|| x.simplify())
    };
    c.beside(c.list.len(), ours, theirs)
}

/// A combination of the first two sets of a pool into the third, each time from the same words.
fn made(pool: &Pool, w: &mut [u32], code: u8) -> f64 {
    pool.again(w);
    seconds(|| granted(call::combine(code, w, 2, 0, 1)))
}

fn combined<N: Numbers + Clone>(c: &Case<N>, code: u8, theirs: impl Fn(&IpRange<N>) -> IpRange<N>) -> Took {
    let b = c.second();
    let mut w = b.pool.words();
    let took = c.beside(c.list.len() + b.list.len(), || made(&b.pool, &mut w, code), || seconds(|| drop(black_box(theirs(&b.range)))));
    Took { nodes: b.pool.nodes(), ..took }
}

fn merge<N: Numbers + Clone>(c: &Case<N>) -> Took {
    combined(c, MERGE, |s| c.range.merge(s))
}

fn intersect<N: Numbers + Clone>(c: &Case<N>) -> Took {
    combined(c, INTERSECT, |s| c.range.intersect(s))
}

fn exclude<N: Numbers + Clone>(c: &Case<N>) -> Took {
    combined(c, EXCLUDE, |s| {
        let mut x = c.range.exclude(s);
        x.simplify();
        x
    })
}

fn exclude_apart<N: Numbers + Clone>(c: &Case<N>) -> Took {
    combined(c, EXCLUDE_APART, |s| c.range.exclude(s))
}

fn copy<N: Numbers + Clone>(c: &Case<N>) -> Took {
    let mut w = c.pool.words();
    c.beside(c.list.len(), || made(&c.pool, &mut w, EXCLUDE_APART), || seconds(|| drop(black_box(c.range.clone()))))
}

fn equal<N: Numbers + Clone>(c: &Case<N>) -> Took {
    let pool = c.pool_of(&[&c.list, &c.list], false);
    // built as the other is, network by network
    let (w, same) = (pool.words(), oracle::ranges::<N>(&c.list));
    let theirs = || seconds(|| assert!(black_box(&c.range) == black_box(&same)));
    Took { nodes: pool.nodes(), ..c.beside(c.list.len(), || seconds(|| assert_eq!(call::equal(&w, 0, 1) >> 48, 1)), theirs) }
}

fn check<N: Numbers + Clone>(c: &Case<N>) -> Took {
    let free = NODES as u64 - c.pool.nodes() as u64;
    c.alone(c.pool.nodes(), || seconds(|| assert_eq!(call::free(&c.words), free))).checked(0)
}

fn held<N: Numbers + Clone>(c: &Case<N>) -> Took {
    c.alone(1, || seconds(|| assert_eq!(call::held(&c.words, 0), c.pool.nodes() as u64)))
}

const CALLS: usize = 8;

/// Members that are taken out and put back, so that each turn begins with the same set. One of both is timed.
fn there_and_back<N: Numbers + Clone>(c: &Case<N>, back: bool) -> Took {
    let chosen = some(&c.list, CALLS);
    let (nets, same): (Vec<Net>, Vec<N>) = chosen.iter().map(|&m| (net(c.family, m), N::of(m))).unzip();
    let (mut w, mut r) = (c.pool.words(), c.range.clone());
    let timed = |out: f64, put: f64| if back { put } else { out };
    let ours = || {
        let out = seconds(|| nets.iter().for_each(|n| granted(call::remove(&mut w, 0, n))));
        timed(out, seconds(|| nets.iter().for_each(|n| granted(call::add(&mut w, 0, n)))))
    };
    let theirs = || {
        let out = seconds(|| same.iter().cloned().for_each(|n| _ = r.remove(n)));
        timed(out, seconds(|| same.iter().cloned().for_each(|n| _ = r.add(n))))
    };
    c.beside(chosen.len(), ours, theirs).checked(chosen.len())
}

fn add<N: Numbers + Clone>(c: &Case<N>) -> Took {
    there_and_back(c, true)
}

fn remove<N: Numbers + Clone>(c: &Case<N>) -> Took {
    there_and_back(c, false)
}

fn next<N: Numbers + Clone>(c: &Case<N>) -> Took {
    let nets: Vec<Net> = some(&c.list, CALLS).iter().map(|&m| net(c.family, m)).collect();
    let mut row = [0; 3];
    c.alone(nets.len(), || seconds(|| nets.iter().for_each(|n| granted(call::next(&c.words, 0, n, &mut row))))).checked(nets.len())
}

/// The same call where every set is public-only and where none is: two tables without the networks that are not public.
fn marked<N: Numbers + Clone>(c: &Case<N>, each: impl Fn(usize) -> usize, run: impl Fn(&Pool, &mut [u32], &List) -> f64) -> Took {
    let clear = |l: &List| l.iter().copied().filter(|&m: &Member| !meets_inner(c.family, &List::from([m]))).collect::<List>();
    let (a, b) = (clear(&c.list), clear(&c.second().list));
    let (public, plain) = (c.pool_of(&[&a, &b], true), c.pool_of(&[&a, &b], false));
    let (mut v, mut w) = (public.words(), plain.words());
    Took { nodes: plain.nodes(), ..c.beside(each(a.len() + b.len()), || run(&public, &mut v, &a), || run(&plain, &mut w, &a)) }
}

fn merge_public<N: Numbers + Clone>(c: &Case<N>) -> Took {
    marked(c, |n| n, |pool, w, _| made(pool, w, MERGE))
}

fn add_public<N: Numbers + Clone>(c: &Case<N>) -> Took {
    let put = |pool: &Pool, w: &mut [u32], a: &List| {
        let nets: Vec<Net> = some(a, CALLS).iter().map(|&m| net(c.family, m)).collect();
        pool.again(w);
        nets.iter().for_each(|n| granted(call::remove(w, 0, n)));
        seconds(|| nets.iter().for_each(|n| granted(call::add(w, 0, n))))
    };
    marked(c, |_| CALLS, put).checked(CALLS)
}
