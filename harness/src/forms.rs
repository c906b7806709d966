//! The same sequence in both forms, through the library: what the first grants the second grants, with the same lists and lookups. Request M-111.
use crate::differential::{answers, script, Case};
use crate::layout::Form;
use crate::model::apply;
use crate::wire::*;
use std::fmt;

/// How many calls were compared, and how many nodes the lookups among them counted in each form.
#[derive(Default)]
pub struct Tally {
    calls: u64,
    lookups: u64,
    steps: [u64; 2],
}

impl fmt::Display for Tally {
    fn fmt(&self, f: &mut fmt::Formatter) -> fmt::Result {
        let [first, second] = self.steps;
        write!(f, "side by side in both forms: {} calls; {} lookups counted {first} nodes in the first and {second} in the second", self.calls, self.lookups)
    }
}

/// The case with every pool in the form, and no set indexed. A layout that asks for no form stays.
fn in_form(case: &Case, form: Form) -> Case {
    let mut all = case.clone();
    for c in all.calls.iter_mut().filter(|c| c.code == LAYOUT) {
        c.net.hi = 0;
        if Form::of(c.c / 256).is_some() {
            c.c = c.c % 256 + 256 * form as u32;
        }
    }
    all
}

/// Without the calls that are refused for the nodes of their result, or of what is held: there the other form may grant.
fn admitted(case: Case) -> Case {
    let (size, mut words) = (case.words, vec![0u32; case.words]);
    let calls = case.calls.into_iter().filter(|c| {
        let mut after = words.clone();
        let stays = !matches!(apply(&mut after, c).no, 9 | 10 | 13);
        if stays {
            words = after;
        }
        stays
    });
    Case { words: size, calls: calls.collect() }
}

/// Whether the second form's answer is another than it may be beside the first's: nodes are no more, free ones no less, and all else is the same.
fn is_other(c: &Call, first: &Answer, second: &Answer) -> bool {
    let counted = match c.code {
        FREE => first.x <= second.x,
        HELD | SUPERNET | CONTAINS | ADD..=EXCLUDE_APART | EXCLUDE | REPLAN | LOAD | ADD_RANGE..=REMOVE_FILE => second.x <= first.x,
        _ => first.x == second.x,
    };
    !counted || Answer { x: first.x, ..second.clone() } != *first
}

/// The first call on which the forms part, if there is one. After each the lists of all sets are asked for. Sequences that write words themselves are left out.
pub fn differ(case: &Case, tally: &mut Tally) -> Option<String> {
    if case.is_damaged() {
        return None;
    }
    let first = admitted(in_form(case, Form::First));
    let second = in_form(&first, Form::Second);
    let run = |case: &Case| script(case).and_then(|s| answers(case, &s).map(|(_, all)| (s, all)));
    let ((s, a), (t, b)) = match (run(&first), run(&second)) {
        (Ok(one), Ok(other)) => (one, other),
        (Err(what), _) => return Some(format!("in the first form: {what}")),
        (_, Err(what)) => return Some(format!("in the second form: {what}")),
    };
    for k in 0..s.calls.len() {
        let c = &s.calls[k];
        if t.calls.get(k).map(|d| d.code) != Some(c.code) || c.code != READ_WORDS && is_other(c, &a[k], &b[k]) {
            let (own, i) = (&first.calls[s.steps[k]], s.steps[k]);
            return Some(format!("call {i} {own:?}, seen by {c:?}: {:?} in the first form, {:?} in the second", a[k], b.get(k)));
        }
        if matches!(c.code, SUPERNET | CONTAINS) {
            tally.lookups += 1;
            tally.steps[0] += a[k].x as u64;
            tally.steps[1] += b[k].x as u64;
        }
        tally.calls += s.is_own(k) as u64;
    }
    None
}
