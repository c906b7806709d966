//! What is to be reached: the table in harness/targets.txt, or another of its form.
use super::report::{grouped, Line};
use super::tables::Shape;
use crate::layout::Form;

#[derive(Clone, Copy)]
pub enum Bound {
    /// So many times faster than iprange.
    Times(f64),
    /// At most so many nanoseconds for each.
    Within(f64),
}

pub struct Target {
    pub row: String,
    pub shape: Shape,
    pub family: u8,
    pub networks: usize,
    pub bound: Bound,
}

/// More than a tenth short of it.
const SLACK: f64 = 1.1;

pub const TABLE: &str = include_str!("../../targets.txt");

fn target(line: &str) -> Option<Target> {
    let [row, table, family, networks, bound] = line.split_whitespace().collect::<Vec<_>>()[..] else { return None };
    let number = |s: &str| s.parse::<f64>().ok().filter(|x| x.is_finite() && *x > 0.0);
    let bound = match (bound.strip_suffix('x'), bound.strip_suffix("ns")) {
        (Some(x), _) => Bound::Times(number(x)?),
        (_, Some(x)) => Bound::Within(number(x)?),
        _ => return None,
    };
    let family = family.strip_prefix("IPv")?.parse().ok().filter(|f| [4, 6].contains(f))?;
    let shape = Shape::ALL.into_iter().find(|s| s.name() == table)?;
    Some(Target { row: row.to_string(), shape, family, networks: networks.parse().ok()?, bound })
}

/// The targets of a table, or the line that is none.
pub fn targets(text: &str) -> Result<Vec<Target>, String> {
    let lines = text.lines().map(str::trim).filter(|l| !l.is_empty() && !l.starts_with('#'));
    lines.map(|l| target(l).ok_or_else(|| l.to_string())).collect()
}

impl Target {
    /// Targets are of the first form.
    pub fn is_for(&self, l: &Line) -> bool {
        (self.row.as_str(), Some(self.shape), Form::First, self.family, self.networks) == (l.name, l.shape, l.form, l.family, l.networks)
    }

    pub fn wanted(&self) -> String {
        match self.bound {
            Bound::Times(x) => format!("{x}x"),
            Bound::Within(x) => format!("{x} ns"),
        }
    }

    pub fn reached(&self, l: &Line) -> String {
        match self.bound {
            Bound::Times(_) => l.times().map_or("nothing beside it".to_string(), |x| format!("{x:.1}x")),
            Bound::Within(_) => format!("{:.2} ns", l.ours()),
        }
    }

    /// How far the row is from it: 1 where it is just reached, more where it is missed.
    fn short(&self, l: &Line) -> f64 {
        match self.bound {
            Bound::Times(x) => l.times().map_or(f64::INFINITY, |t| x / t),
            Bound::Within(x) => l.ours() / x,
        }
    }

    pub fn verdict(&self, l: &Line) -> &'static str {
        match self.short(l) {
            s if s <= 1.0 => "reached",
            s if s <= SLACK => "missed by less than a tenth",
            _ => "missed",
        }
    }

    /// Says so where it is missed by more than a tenth.
    pub fn missed(&self, l: &Line) -> Option<String> {
        let of = format!("{} {} IPv{} {}", l.name, self.shape.name(), l.family, grouped(l.networks));
        (self.short(l) > SLACK).then(|| format!("target missed: {of}: {}, wanted {}", self.reached(l), self.wanted()))
    }
}
