//! The library and iprange on the same data in one process, in turns. Reports the least of each and its spread, how many times faster the library is by the
//! least, and which targets are missed.
mod apart;
mod case;
mod report;
mod rows;
mod tables;
mod targets;

use crate::layout::Form;
use crate::oracle::Numbers;
use apart::{Apart, APART};
use case::{Case, Took, NODES};
use ipnet::{Ipv4Net, Ipv6Net};
use report::Line;
use rows::{Needs, Row, ROWS};
use std::path::PathBuf;
use tables::Shape;
use targets::Target;

const MIX: [usize; 3] = [2_000, 20_000, 200_000];
const SIDE: [usize; 3] = [10_000, 200_000, 2_000_000];
/// The largest mix of IPv6 of which two tables, and what is made of both, fit in a pool.
const TWO_SIX: usize = 100_000;
/// The most networks for a row that makes a call for each.
const FEW: usize = 20_000;

/// What a run measures, and against what.
struct Bench {
    rows: Vec<&'static Row>,
    apart: Vec<&'static Apart>,
    targets: Vec<Target>,
    /// One kind of table, or one size, in place of all.
    table: Option<Shape>,
    networks: Option<usize>,
    forms: Vec<Form>,
    rounds: usize,
    into: Option<PathBuf>,
}

fn names() -> String {
    ROWS.iter().map(|r| r.name).chain(APART.iter().map(|r| r.name)).collect::<Vec<_>>().join(" ")
}

/// The options, or what is wrong with them.
fn options(words: &[String]) -> Result<Bench, String> {
    let (rows, apart) = (ROWS.iter().collect(), APART.iter().collect());
    let mut b = Bench { rows, apart, targets: targets::targets(targets::TABLE).unwrap(), table: None, networks: None, forms: vec![Form::First], rounds: 5, into: None };
    for pair in words.chunks(2) {
        let [option, value] = pair else { return Err(format!("{} takes a word", pair[0])) };
        match option.as_str() {
            "--rows" => {
                let wanted: Vec<&str> = value.split(',').collect();
                if let Some(w) = wanted.iter().find(|w| !names().split(' ').any(|n| n == **w)) {
                    return Err(format!("no row '{w}'; the rows are: {}", names()));
                }
                b.rows.retain(|r| wanted.contains(&r.name));
                b.apart.retain(|r| wanted.contains(&r.name));
            }
            "--table" => b.table = Some(Shape::ALL.into_iter().find(|s| s.name() == value).ok_or("--table takes mix or side")?),
            "--networks" => b.networks = Some(value.parse().ok().filter(|n| (16..=200_000).contains(n)).ok_or("--networks takes a number from 16 to 200000")?),
            "--form" => b.forms = forms(value).ok_or("--form takes first, second or both")?,
            "--rounds" => b.rounds = value.parse().ok().filter(|n| (1..=1000).contains(n)).ok_or("--rounds takes a number from 1 to 1000")?,
            "--targets" => {
                let text = std::fs::read_to_string(value).map_err(|e| format!("{value}: {e}"))?;
                b.targets = targets::targets(&text).map_err(|l| format!("{value}: no target: {l}"))?;
            }
            "--into" => b.into = Some(value.into()),
            _ => return Err(format!("bench takes no '{option}'")),
        }
    }
    match b.targets.iter().find(|t| !names().split(' ').any(|n| n == t.row)) {
        Some(t) => Err(format!("a target for a row that is none: {}", t.row)),
        None => Ok(b),
    }
}

/// The forms of such a name.
fn forms(name: &str) -> Option<Vec<Form>> {
    match name {
        "first" => Some(vec![Form::First]),
        "second" => Some(vec![Form::Second]),
        "both" => Some(Form::BOTH.to_vec()),
        _ => None,
    }
}

impl Bench {
    /// The largest alone where both forms are held beside each other.
    fn sizes(&self, all: &[usize]) -> Vec<usize> {
        let some = if self.beside() { &all[2..] } else { all };
        self.networks.map_or(some.to_vec(), |n| vec![n])
    }

    fn beside(&self) -> bool {
        self.forms == Form::BOTH
    }

    /// Whether the row is measured on such a table. In the second form the combinations of IPv6 have room on the largest too.
    fn fits(&self, r: &Row, shape: Shape, form: Form, family: u8, n: usize, nodes: usize) -> bool {
        self.forms.iter().all(|f| r.forms.contains(f)) && match r.needs {
            Needs::One => family == 4 || n != TWO_SIX || self.networks.is_some(),
            Needs::Few => n <= FEW,
            Needs::Twice => (family == 4 || n != TWO_SIX || self.networks.is_some()) && 2 * nodes <= NODES as usize,
            Needs::Two => shape == Shape::Mix && (family == 4 || n <= TWO_SIX || form == Form::Second),
        }
    }

    fn table<N: Numbers + Clone>(&self, shape: Shape, family: u8, n: usize, run: fn(&Row) -> fn(&Case<N>) -> Took, out: &mut Vec<Line>) {
        for &form in &self.forms {
            if !self.rows.iter().any(|r| self.fits(r, shape, form, family, n, 0)) {
                continue;
            }
            let c = Case::<N>::new(shape, form, family, n, self.rounds);
            for r in self.rows.iter().filter(|r| self.fits(r, shape, form, family, n, c.pool.nodes())) {
                let took = run(r)(&c);
                let check = if took.nodes > 0 { c.check() } else { 0.0 };
                out.push(Line { name: r.name, what: r.what, each: r.each, shape: Some(shape), form, family, networks: n, took, check });
                println!("{}", out.last().unwrap().whole());
            }
        }
    }

    fn measured(&self) -> Vec<Line> {
        let mut out = vec![];
        println!("{}", report::WHOLE);
        for (shape, all) in [(Shape::Mix, MIX), (Shape::Side, SIDE)].into_iter().filter(|t| self.table.map_or(true, |s| s == t.0)) {
            for n in self.sizes(&all) {
                self.table::<Ipv4Net>(shape, 4, n, |r| r.four, &mut out);
            }
            let more = if shape == Shape::Mix { vec![TWO_SIX] } else { vec![] };
            for n in self.sizes(&[all.to_vec(), more].concat()) {
                self.table::<Ipv6Net>(shape, 6, n, |r| r.six, &mut out);
            }
        }
        // those with data of their own are of the first form
        for r in self.apart.iter().filter(|_| self.forms == [Form::First]) {
            for (family, networks, took) in (r.run)(self.rounds.min(3), self.networks.unwrap_or(usize::MAX)) {
                out.push(Line { name: r.name, what: r.what, each: r.each, shape: None, form: Form::First, family, networks, took, check: 0.0 });
                println!("{}", out.last().unwrap().whole());
            }
        }
        out
    }
}

/// The status: 1 where a target is missed by more than a tenth, 2 where the options are wrong.
pub fn main(words: &[String]) -> i32 {
    let b = match options(words) {
        Ok(b) => b,
        Err(e) => {
            eprintln!("harness/run: {e}");
            return 2;
        }
    };
    let lines = b.measured();
    if let Some(to) = &b.into {
        let written = if b.beside() { report::write_forms(to, &lines) } else { report::write(to, &lines, &b.targets) };
        written.expect("the folder can be written");
    }
    let missed: Vec<String> = b.targets.iter().flat_map(|t| lines.iter().filter(|l| t.is_for(l)).filter_map(|l| t.missed(l))).collect();
    missed.iter().for_each(|m| eprintln!("harness/run: {m}"));
    !missed.is_empty() as i32
}
