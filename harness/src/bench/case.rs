//! One table in a pool and as an IpRange, and the clock: the library and iprange in turns.
use super::tables::{second, table, Shape};
use crate::exports::{free, layout_indexed, load};
use crate::files::file;
use crate::layout::{encode, Form, Set, State, MARK};
use crate::lists::{width, List, Member};
use crate::oracle::{ranges, Numbers};
use iprange::IpRange;
use std::cell::OnceCell;
use std::time::{Duration, Instant};

pub const NODES: u32 = 4_194_304;

/// A pool of the most nodes, with four sets: its words up to the last node in use, and how many these are. What is behind them may hold anything.
pub struct Pool {
    words: Vec<u32>,
    nodes: usize,
}

const FIRST_NODE: usize = 64 + 8 * 4;

/// The nodes of a list. In the first form by neighbours in the order of addresses: each has those that it does not share with the one before it.
fn nodes(form: Form, w: u8, l: &List) -> usize {
    if form == Form::Second {
        return form.nodes(w, l) as usize;
    }
    let mut members: Vec<Member> = l.iter().copied().collect();
    members.sort_by_key(|m| m.1);
    let shared = |a: u128, b: u128| (a ^ b).leading_zeros() as usize + w as usize - 128;
    let first = members.first().map_or(0, |m| m.0 as usize + 1);
    first + members.windows(2).map(|m| m[1].0 as usize - shared(m[0].1, m[1].1)).sum::<usize>()
}

impl Pool {
    /// These lists, and empty sets behind them.
    pub fn of(form: Form, family: u8, lists: &[&List], public: bool) -> Pool {
        let nodes: usize = lists.iter().map(|l| nodes(form, width(family), l)).sum();
        let mut words = vec![0u32; FIRST_NODE + form.stride(family) * nodes];
        words[..6].copy_from_slice(&[MARK, family as u32, 4, NODES, 0, form as u32]);
        let set = |k: usize| Set { share: 0, limit: NODES, public, indexed: false, list: lists.get(k).map_or(List::new(), |&l| l.clone()) };
        encode(&mut words, &State { family, form, nodes: NODES, sets: (0..4).map(set).collect() });
        Pool { words, nodes }
    }

    pub fn nodes(&self) -> usize {
        self.nodes
    }

    /// A whole pool, to be lent.
    pub fn words(&self) -> Vec<u32> {
        let mut w = vec![0u32; FIRST_NODE + 8 * NODES as usize];
        self.again(&mut w);
        w
    }

    /// The words of a whole pool whose first set is indexed and has this list, as the library itself writes them.
    pub fn indexed(family: u8, list: &List) -> Vec<u32> {
        let mut w = vec![0u32; FIRST_NODE + 8 * NODES as usize + 256];
        assert_eq!(layout_indexed(&mut w, family, 4, NODES, NODES, 1), 0);
        assert_eq!(load(&mut w, 0, &file(family, list)), nodes(Form::First, width(family), list) as u64);
        w
    }

    /// The pool as it was.
    pub fn again(&self, w: &mut [u32]) {
        w[..self.words.len()].copy_from_slice(&self.words);
    }
}

/// The least and the median of what was measured, in seconds.
#[derive(Clone, Copy)]
pub struct Timed {
    pub least: f64,
    pub median: f64,
}

impl Timed {
    pub fn of(mut xs: Vec<f64>) -> Timed {
        xs.sort_by(f64::total_cmp);
        Timed { least: xs[0], median: xs[xs.len() / 2] }
    }
}

/// What a row took: for how many, how many nodes were checked, ours, and what stands beside it.
pub struct Took {
    pub each: usize,
    pub nodes: usize,
    pub ours: Timed,
    pub theirs: Option<Timed>,
}

impl Took {
    /// So many calls that check the pool, in place of one.
    pub fn checked(self, calls: usize) -> Took {
        Took { nodes: self.nodes * calls, ..self }
    }
}

#[repr(C)]
struct Timespec {
    seconds: i64,
    nanoseconds: i64,
}

extern "C" {
    /// Of the C library of a 64-bit Linux, which std links anyway.
    fn clock_gettime(clock: i32, time: *mut Timespec) -> i32;
}

/// Seconds that the processor gave this thread so far.
fn given() -> f64 {
    const THREAD: i32 = 3;
    let mut t = Timespec { seconds: 0, nanoseconds: 0 };
    assert_eq!(unsafe { clock_gettime(THREAD, &mut t) }, 0);
    t.seconds as f64 + t.nanoseconds as f64 * 1e-9
}

/// What it takes: processor time, so that other work on the host counts as little as it can; or wall time, where that is less, since asking for the other
/// takes time too.
pub fn seconds(f: impl FnOnce()) -> f64 {
    let (before, t) = (given(), Instant::now());
    f();
    let wall = t.elapsed().as_secs_f64();
    wall.min(given() - before)
}

/// At least so many turns, and more where they are short.
pub fn turns(rounds: usize, mut ours: impl FnMut() -> f64, mut theirs: impl FnMut() -> f64) -> (Timed, Timed) {
    let (mut a, mut b, begun) = (vec![], vec![], Instant::now());
    while a.len() < rounds || a.len() < 10 * rounds && begun.elapsed() < SHORT {
        a.push(ours());
        b.push(theirs());
    }
    (Timed::of(a), Timed::of(b))
}

const SHORT: Duration = Duration::from_millis(50);

/// The library alone.
pub fn alone(rounds: usize, ours: impl FnMut() -> f64) -> Timed {
    turns(rounds, ours, || 0.0).0
}

/// A second table beside the first.
pub struct Second<N: Numbers> {
    pub list: List,
    pub range: IpRange<N>,
    pub pool: Pool,
}

/// A table, alone in a pool and as an IpRange.
pub struct Case<N: Numbers> {
    pub form: Form,
    pub family: u8,
    pub rounds: usize,
    pub list: List,
    pub range: IpRange<N>,
    pub pool: Pool,
    pub words: Vec<u32>,
    second: OnceCell<Second<N>>,
    check: OnceCell<f64>,
}

impl<N: Numbers + Clone> Case<N> {
    pub fn new(shape: Shape, form: Form, family: u8, n: usize, rounds: usize) -> Case<N> {
        let list = table(shape, family, n);
        let pool = Pool::of(form, family, &[&list], false);
        Case { form, family, rounds, range: ranges(&list), words: pool.words(), pool, list, second: OnceCell::new(), check: OnceCell::new() }
    }

    /// A pool of its form and family.
    pub fn pool_of(&self, lists: &[&List], public: bool) -> Pool {
        Pool::of(self.form, self.family, lists, public)
    }

    pub fn second(&self) -> &Second<N> {
        self.second.get_or_init(|| {
            let list = second(self.family, &self.list);
            Second { range: ranges(&list), pool: self.pool_of(&[&self.list, &list], false), list }
        })
    }

    /// Nanoseconds of the check for each node, by a few calls.
    pub fn check(&self) -> f64 {
        let once = || seconds(|| _ = free(&self.words)) * 1e9 / self.pool.nodes() as f64;
        *self.check.get_or_init(|| once().min(once()).min(once()))
    }

    /// In turns with iprange, over the table alone.
    pub fn beside(&self, each: usize, ours: impl FnMut() -> f64, theirs: impl FnMut() -> f64) -> Took {
        let (a, b) = turns(self.rounds, ours, theirs);
        Took { each, nodes: self.pool.nodes(), ours: a, theirs: Some(b) }
    }

    /// Where iprange has no such call.
    pub fn alone(&self, each: usize, ours: impl FnMut() -> f64) -> Took {
        Took { each, nodes: self.pool.nodes(), ours: alone(self.rounds, ours), theirs: None }
    }
}
