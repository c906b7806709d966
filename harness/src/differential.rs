//! Runs the same calls through the library, the model and iprange, and compares every answer, every list and every word after every step.
use crate::by_hand;
use crate::damage::damage;
use crate::exports::{exported, many_along, most, words};
use crate::files::read_lines;
use crate::forms;
use crate::layout::decode;
use crate::model::apply;
use crate::oracle::{left, reading, sides, Oracle};
use crate::plan::{Dice, Plan};
use crate::text4::read_line;
use crate::text6::{read_line6, reading6};
use crate::wire::*;
use std::collections::{BTreeMap, BTreeSet};

/// A pool to begin with, and the calls on it.
#[derive(Clone)]
pub struct Case {
    pub words: usize,
    pub calls: Vec<Call>,
}

impl Case {
    /// The number of the form that its first pool has.
    fn form(&self) -> usize {
        self.calls.iter().find(|c| c.code == LAYOUT).map_or(0, |c| c.c as usize / 256)
    }

    /// Whether it writes words itself.
    pub fn is_damaged(&self) -> bool {
        self.calls.iter().any(|c| c.code == WRITE_WORDS)
    }
}

/// The calls with what they have to answer; after each, all words and the list of each set are asked for.
pub struct Script {
    pub calls: Vec<Call>,
    pub answers: Vec<Answer>,
    /// for each call, which call of the case it is or follows
    pub steps: Vec<usize>,
}

pub fn script(case: &Case) -> Result<Script, String> {
    let mut words = vec![0u32; case.words];
    let mut oracle: Option<Oracle> = None;
    let mut s = Script { calls: vec![], answers: vec![], steps: vec![] };
    for (i, c) in case.calls.iter().enumerate() {
        let a = apply(&mut words, c);
        let state = decode(&words);
        match (c.code, &state) {
            (LAYOUT, Some(st)) if a.no == 0 => oracle = Some(Oracle::new(st.family, st.sets.len())),
            (WRITE_WORDS, _) => oracle = None,
            _ => {}
        }
        if let (Some(o), Some(st)) = (&mut oracle, &state) {
            let differs = if a.no == 0 || c.code == LINES { o.follow(c, &a) } else { None };
            if let Some(what) = differs.or_else(|| o.differs(st)) {
                return Err(format!("call {i} {c:?}: model {a:?}, {what}"));
            }
        }
        let lines = match c.code {
            READ_LINE | READ_LINE_6 | READ_LINE_EITHER => vec![&c.tail[..]],
            LINES => read_lines(&c.tail),
            _ => vec![],
        };
        if let Some(what) = lines.iter().find_map(|l| reading(l, read_line(l)).or_else(|| reading6(l, read_line6(l)))) {
            return Err(format!("call {i} {c:?}: model {a:?}, {what}"));
        }
        if let Some(what) = (c.code == COMPARE).then(|| sides(c, &a)).flatten() {
            return Err(format!("call {i} {c:?}: model {a:?}, {what}"));
        }
        if let Some(what) = (c.code == SALVAGE).then(|| left(c, &a)).flatten() {
            return Err(format!("call {i} {c:?}: model {a:?}, {what}"));
        }
        s.push(i, c.clone(), a);
        let all = Call { b: case.words as u32, ..Call::new(READ_WORDS) };
        let a = apply(&mut words, &all);
        s.push(i, all, a);
        for (k, set) in state.iter().flat_map(|st| st.sets.iter().enumerate()) {
            let l = Call { a: k as u32, b: 3 * set.list.len() as u32, c: i as u32, ..Call::new(LIST) };
            let a = apply(&mut words, &l);
            s.push(i, l, a);
        }
    }
    Ok(s)
}

impl Script {
    /// Whether it is a call of the case, and no question after it.
    pub fn is_own(&self, k: usize) -> bool {
        k == 0 || self.steps[k] != self.steps[k - 1]
    }

    fn push(&mut self, i: usize, c: Call, a: Answer) {
        self.calls.push(c);
        self.answers.push(a);
        self.steps.push(i);
    }
}

/// How often each code was answered by each number.
pub type Tally = BTreeMap<(u8, u8), u64>;

/// What the library answers to a script, or where that is another than what it has to.
pub fn answers(case: &Case, s: &Script) -> Result<(Vec<u32>, Vec<Answer>), String> {
    let mut bytes = vec![];
    s.calls.iter().for_each(|c| c.put(&mut bytes));
    let size: usize = s.calls.iter().map(|c| 28 + c.answer_tail()).sum();
    let rows = s.calls.iter().filter(|c| matches!(c.code, LIST | RANGES)).map(|c| c.b as usize).max().unwrap_or(0);
    let (mut pool, mut lent, mut out) = (vec![0u32; case.words], vec![7u64; rows], vec![0xa5u8; size + 9]);
    let r = run(&mut pool, &mut lent, &bytes, &mut out);
    if r != 8 * s.calls.len() as u64 {
        return Err(format!("ended after {} of {} calls, why {}", r / 8, s.calls.len(), r % 8));
    }
    if out[size..] != [0xa5; 9] {
        return Err("bytes past the last answer changed".to_string());
    }
    let (mut at, mut all) = (0, vec![]);
    for (k, c) in s.calls.iter().enumerate() {
        let a = Answer::take(c, &out[at..]);
        if a != s.answers[k] {
            return Err(format!("call {} {:?}, seen by {:?}: answered {a:?}, expected {:?}", s.steps[k], case.calls[s.steps[k]], c, s.answers[k]));
        }
        at += 28 + c.answer_tail();
        all.push(a);
    }
    Ok((pool, all))
}

/// The first difference, if there is one.
pub fn compare(case: &Case, tally: &mut Tally) -> Option<String> {
    let answered = script(case).and_then(|s| answers(case, &s).map(|(pool, _)| (s, pool)));
    let (s, pool) = match answered {
        Ok(both) => both,
        Err(what) => return Some(what),
    };
    for (k, c) in s.calls.iter().enumerate().filter(|(k, _)| s.is_own(*k)) {
        *tally.entry((c.code, s.answers[k].no)).or_default() += 1;
    }
    case.calls.iter().find_map(|c| exported(&pool, c)).or_else(|| many_along(case.words, &case.calls))
}

/// A shortest case that is still wrong, by leaving out one call after the other.
fn shortest(mut case: Case, wrong: impl Fn(&Case) -> Option<String>) -> Case {
    loop {
        let n = case.calls.len();
        for k in (0..n).rev() {
            let mut less = case.clone();
            less.calls.remove(k);
            if !less.calls.is_empty() && wrong(&less).is_some() {
                case = less;
            }
        }
        if case.calls.len() == n {
            return case;
        }
    }
}

/// A sequence of calls on one pool, of which some are left out.
pub fn sequence_of(d: &mut Dice, plan: &Plan, steps: usize, stays: fn(&Call) -> bool) -> Case {
    let mut words = vec![0u32; plan.words()];
    let mut calls = vec![];
    let mut push = |words: &mut Vec<u32>, c: Call| {
        apply(words, &c);
        calls.push(c);
    };
    if d.one_in(20) {
        push(&mut words, Call::new(FREE)); // words that no layout has seen
    }
    push(&mut words, plan.layout());
    for _ in 0..steps {
        let state = decode(&words).expect("granted calls leave sound words");
        let c = plan.call(d, &state);
        if stays(&c) {
            push(&mut words, c);
        }
    }
    Case { words: plan.words(), calls }
}

pub fn sequence(d: &mut Dice, steps: usize) -> Case {
    let plan = Plan::new(d);
    sequence_of(d, &plan, steps, |_| true)
}

/// The cases of a run: those made by hand, then sequences, and now and then a damaged pool.
fn case(d: &mut Dice, round: u64) -> Case {
    match round {
        1 => by_hand::full(),
        2 => by_hand::wrecks(d),
        3 => by_hand::halfway(),
        4 => by_hand::kept(),
        5 => by_hand::page(),
        6 => by_hand::formed(),
        _ if round % 40 == 0 => damage(d),
        _ => sequence(d, 60),
    }
}

/// Says what is wrong with a case, and the shortest one that has it.
fn report(round: u64, case: &Case, wrong: impl Fn(&Case) -> Option<String>) {
    println!("round {round}: {}", wrong(case).unwrap_or_default());
    let least = shortest(case.clone(), &wrong);
    println!("shortest: {} words, {}", least.words, wrong(&least).unwrap_or_default());
    least.calls.iter().for_each(|c| println!("  {c:?}"));
}

pub fn main(calls: u64, seed: u64) -> bool {
    let mut d = Dice(seed);
    let (mut tally, mut beside) = (Tally::new(), forms::Tally::default());
    let (mut done, mut wrong, mut round) = (0u64, 0u64, 0u64);
    // by form: all calls, and those of cases that write other values over words
    let (mut all, mut damaged) = ([0; 2], [0; 2]);
    if let Some(what) = words().or_else(most) {
        wrong += 1;
        println!("{what}");
    }
    while done < calls && wrong < 3 {
        round += 1;
        let case = case(&mut d, round);
        if compare(&case, &mut tally).is_some() {
            wrong += 1;
            report(round, &case, |c| compare(c, &mut Tally::new()));
        }
        if forms::differ(&case, &mut beside).is_some() {
            wrong += 1;
            report(round, &case, |c| forms::differ(c, &mut forms::Tally::default()));
        }
        let n = case.calls.len() as u64;
        done += n;
        all[case.form()] += n;
        damaged[case.form()] += if case.is_damaged() { n } else { 0 };
    }
    let codes: BTreeSet<u8> = tally.keys().map(|k| k.0).collect();
    for code in codes {
        let numbers: Vec<String> = tally.range((code, 0)..=(code, u8::MAX)).map(|(k, n)| format!("{} x {n}", k.1)).collect();
        println!("code {code}, answered by number: {}", numbers.join(", "));
    }
    println!("by form, the first and the second: {all:?} calls, {damaged:?} of them with damaged words");
    println!("{beside}");
    println!("calls={done} mismatches={wrong}");
    wrong == 0
}
