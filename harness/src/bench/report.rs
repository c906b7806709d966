//! What was measured, as tables and as the data of the pictures.
use super::case::{Timed, Took};
use super::tables::Shape;
use super::targets::{Bound, Target};
use crate::layout::Form;
use std::fmt::Write as _;
use std::path::Path;

/// One row of one table.
pub struct Line {
    pub name: &'static str,
    pub what: &'static str,
    pub each: &'static str,
    /// None where the data are the row's own.
    pub shape: Option<Shape>,
    pub form: Form,
    pub family: u8,
    pub networks: usize,
    pub took: Took,
    /// Nanoseconds of the check, a node, on the same table.
    pub check: f64,
}

/// 1,234,567
pub fn grouped(n: usize) -> String {
    let digits = n.to_string();
    let groups: Vec<&str> = digits.as_bytes().rchunks(3).rev().map(|g| std::str::from_utf8(g).unwrap()).collect();
    groups.join(",")
}

/// Three digits that count, two of small numbers.
fn rounded(x: f64) -> String {
    match x {
        x if x >= 1000.0 => grouped(x.round() as usize),
        x if x >= 100.0 => format!("{x:.0}"),
        x if x >= 10.0 => format!("{x:.1}"),
        x if x >= 0.1 => format!("{x:.2}"),
        x => format!("{x:.*}", (1.0 - x.log10().floor()) as usize),
    }
}

impl Line {
    fn ns(&self, s: f64) -> f64 {
        s * 1e9 / self.took.each as f64
    }

    /// Nanoseconds for each, the least.
    pub fn ours(&self) -> f64 {
        self.ns(self.took.ours.least)
    }

    pub fn theirs(&self) -> Option<f64> {
        self.took.theirs.map(|t| self.ns(t.least))
    }

    pub fn times(&self) -> Option<f64> {
        self.theirs().map(|t| t / self.ours())
    }

    /// Nanoseconds, and by how much the median is above them.
    fn spread(&self, t: Timed) -> String {
        format!("{} | +{:.0} %", rounded(self.ns(t.least)), (t.median / t.least - 1.0) * 100.0)
    }

    fn sides(&self) -> String {
        let theirs = self.took.theirs.map_or(" | ".to_string(), |t| self.spread(t));
        format!("{} | {} | {}", self.spread(self.took.ours), theirs, self.times().map_or(String::new(), rounded))
    }

    /// What stands beside it is a call of ours, not iprange's.
    fn beside_ours(&self) -> bool {
        self.what.ends_with("not marked") || self.what.ends_with("not indexed") || self.what.contains("/ a loop of our ")
    }

    /// The part of a call that goes into the check of its pool.
    fn part(&self) -> String {
        if self.took.nodes == 0 {
            return String::new();
        }
        format!("{:.0} %", (self.check * self.took.nodes as f64 / (self.took.ours.least * 1e9) * 100.0).min(100.0))
    }

    fn table(&self) -> &'static str {
        self.shape.map_or("own", Shape::name)
    }

    pub fn whole(&self) -> String {
        let (size, form) = (grouped(self.networks), if self.form == Form::First { "" } else { ", second form" });
        format!("| {} | {} | {}{form} | IPv{} | {size} | {} | {} | {} |", self.name, self.what, self.table(), self.family, self.each, self.sides(), self.part())
    }

    /// The same row of the same table in a form.
    fn in_form<'a>(&self, lines: &'a [Line], form: Form) -> Option<&'a Line> {
        lines.iter().find(|l| (l.name, l.shape, l.family, l.networks, l.form) == (self.name, self.shape, self.family, self.networks, form))
    }

    /// Nodes for each network, by a row that is of nodes.
    fn nodes(&self) -> f64 {
        self.took.each as f64 / self.networks as f64
    }
}

pub const WHOLE: &str = "| row | what | table | family | networks | ns for each | ours | spread | beside | spread | times | check |
|---|---|---|---|---|---|---|---|---|---|---|---|";

fn targets(lines: &[Line], targets: &[Target]) -> String {
    let mut s = "| row | table | family | networks | target | measured | |\n|---|---|---|---|---|---|---|\n".to_string();
    for t in targets {
        for l in lines.iter().filter(|l| t.is_for(l)) {
            let (size, wanted, reached) = (grouped(t.networks), t.wanted(), t.reached(l));
            writeln!(s, "| {} | {} | IPv{} | {size} | {wanted} | {reached} | {} |", t.row, t.shape.name(), t.family, t.verdict(l)).unwrap();
        }
    }
    s
}

/// Of each row the line of the largest mix.
fn largest(lines: &[Line]) -> Vec<&Line> {
    let mut v: Vec<&Line> = vec![];
    for l in lines.iter().filter(|l| l.shape == Some(Shape::Mix)) {
        match v.iter_mut().find(|k| (k.name, k.family) == (l.name, l.family)) {
            Some(k) if k.networks < l.networks => *k = l,
            Some(_) => {}
            None => v.push(l),
        }
    }
    v
}

fn mix(lines: &[Line]) -> String {
    let mut s = "| row | what | family | networks | ns for each | ours | spread | beside | spread | times | check |\n".to_string();
    s += "|---|---|---|---|---|---|---|---|---|---|---|\n";
    for l in largest(lines) {
        writeln!(s, "| {} | {} | IPv{} | {} | {} | {} | {} |", l.name, l.what, l.family, grouped(l.networks), l.each, l.sides(), l.part()).unwrap();
    }
    for l in largest(lines).iter().filter(|l| l.each == "node") {
        write!(s, "\nNodes of 4 bytes for each network of IPv{}: {:.2}.", l.family, l.nodes()).unwrap();
    }
    writeln!(s).unwrap();
    s
}

/// A line for each row and family, a column for each size: nanoseconds, and times iprange. Where a row has another size than the column it is said.
fn growth(lines: &[Line], shape: Shape) -> String {
    let mut rows: Vec<Vec<&Line>> = vec![];
    for l in lines.iter().filter(|l| l.shape == Some(shape)) {
        match rows.iter_mut().find(|r| (r[0].name, r[0].family) == (l.name, l.family)) {
            Some(r) => r.push(l),
            None => rows.push(vec![l]),
        }
    }
    let sizes: Vec<usize> = rows.iter().max_by_key(|r| r.len()).map_or(vec![], |r| r.iter().map(|l| l.networks).collect());
    let heads: Vec<String> = sizes.iter().map(|&n| grouped(n)).collect();
    let mut s = format!("| row | family | ns for each | {} |\n|---|---|---|{}\n", heads.join(" | "), "---|".repeat(sizes.len()));
    for r in &rows {
        let cell = |(k, n): (usize, &usize)| {
            let Some(l) = r.get(k) else { return String::new() };
            let times = l.times().map_or(String::new(), |t| format!(" ({}x)", rounded(t)));
            let other = if l.networks == *n { String::new() } else { format!(", of {}", grouped(l.networks)) };
            format!("{}{times}{other}", rounded(l.ours()))
        };
        let cells: Vec<String> = sizes.iter().enumerate().map(cell).collect();
        writeln!(s, "| {} | IPv{} | {} | {} |", r[0].name, r[0].family, r[0].each, cells.join(" | ")).unwrap();
    }
    s
}

/// The rows of calls that take many at once, on every table.
fn many(lines: &[Line]) -> String {
    let rows = lines.iter().filter(|l| ["contains_all_", "add_file", "remove_file"].iter().any(|front| l.name.starts_with(front)));
    [WHOLE.to_string()].into_iter().chain(rows.map(Line::whole)).map(|line| line + "\n").collect()
}

fn apart(lines: &[Line]) -> String {
    let mut s = "| row | what | family | entries or lines | ns for each | spread | beside | spread | times | a second |\n".to_string();
    s += "|---|---|---|---|---|---|---|---|---|---|\n";
    for l in lines.iter().filter(|l| l.shape.is_none()) {
        writeln!(s, "| {} | {} | IPv{} | {} | {} | {} |", l.name, l.what, l.family, grouped(l.networks), l.sides(), rounded(1e9 / l.ours())).unwrap();
    }
    s
}

/// Row, then for each family times iprange and its target; a ? where there is none. Single calls would leave no room for the others.
fn ratios(lines: &[Line], targets: &[Target]) -> String {
    let all = largest(lines);
    let mut s = String::new();
    for l in all.iter().filter(|l| l.family == 4 && l.theirs().is_some() && l.each != "call" && !l.beside_ours()) {
        write!(s, "{}", l.name).unwrap();
        for family in [4, 6] {
            let same = all.iter().find(|k| (k.name, k.family) == (l.name, family));
            let target = same.and_then(|k| targets.iter().find(|t| t.is_for(k))).and_then(|t| if let Bound::Times(x) = t.bound { Some(x) } else { None });
            let number = |x: Option<f64>| x.map_or("?".to_string(), |x| format!("{x:.5}"));
            write!(s, " {} {}", number(same.and_then(|k| k.times())), number(target)).unwrap();
        }
        writeln!(s).unwrap();
    }
    s
}

/// Row, table and family, networks, ours, and what stands beside it.
fn curves(lines: &[Line]) -> String {
    let mut s = String::new();
    for l in lines {
        let theirs = l.theirs().map_or("?".to_string(), |t| format!("{t:.3}"));
        writeln!(s, "{} {}{} {} {:.3} {theirs}", l.name, l.table(), l.family, l.networks, l.ours()).unwrap();
    }
    s
}

/// What a network takes in each form: nodes, the bytes of their words, and the bytes of the smallest buffer, which has eight words for a node.
fn sizes(lines: &[Line]) -> String {
    let mut s = "| table | family | networks | form | nodes a network | bytes of nodes a network | bytes of buffer a network |\n".to_string();
    s += "|---|---|---|---|---|---|---|\n";
    for l in lines.iter().filter(|l| l.each == "node") {
        let (form, nodes) = (if l.form == Form::First { "first" } else { "second" }, l.nodes());
        let (size, own, all) = (grouped(l.networks), 4.0 * l.form.stride(l.family) as f64 * nodes, 32.0 * nodes);
        writeln!(s, "| {} | IPv{} | {size} | {form} | {nodes:.2} | {own:.1} | {all:.1} |", l.table(), l.family).unwrap();
    }
    s
}

/// The rows of both forms: nanoseconds, in brackets how many times faster than iprange in turns with it, and how many times faster the second form is. Nodes
/// are not the same in both, so a row of nodes is said for a network.
fn forms(lines: &[Line]) -> String {
    let mut s = format!("{}\n| row | what | table | family | networks | ns for each | first | second | second beside first |\n", sizes(lines));
    s += "|---|---|---|---|---|---|---|---|---|\n";
    for l in lines.iter().filter(|l| l.form == Form::Second) {
        let of_nodes = l.each == "node";
        let ns = |l: &Line| if of_nodes { l.ours() * l.nodes() } else { l.ours() };
        let cell = |l: &Line| rounded(ns(l)) + &l.times().map_or(String::new(), |t| format!(" ({}x)", rounded(t)));
        let first = l.in_form(lines, Form::First);
        let (one, times) = (first.map_or(String::new(), cell), first.map_or(String::new(), |f| format!("{}x", rounded(ns(f) / ns(l)))));
        let (size, each) = (grouped(l.networks), if of_nodes { "network" } else { l.each });
        writeln!(s, "| {} | {} | {} | IPv{} | {size} | {each} | {one} | {} | {times} |", l.name, l.what, l.table(), l.family, cell(l)).unwrap();
    }
    s
}

/// The part of docs/BENCHMARK.md that has both forms.
pub fn write_forms(to: &Path, lines: &[Line]) -> std::io::Result<()> {
    std::fs::write(to.join("forms.md"), forms(lines))
}

/// The parts of docs/BENCHMARK.md, each in a file of its name, and the data of the pictures.
pub fn write(to: &Path, lines: &[Line], wanted: &[Target]) -> std::io::Result<()> {
    std::fs::write(to.join("targets.md"), targets(lines, wanted))?;
    std::fs::write(to.join("mix.md"), mix(lines))?;
    std::fs::write(to.join("growth.md"), growth(lines, Shape::Mix))?;
    std::fs::write(to.join("large.md"), growth(lines, Shape::Side))?;
    std::fs::write(to.join("apart.md"), apart(lines))?;
    std::fs::write(to.join("many.md"), many(lines))?;
    std::fs::write(to.join("ratios.dat"), ratios(lines, wanted))?;
    std::fs::write(to.join("curves.dat"), curves(lines))
}
