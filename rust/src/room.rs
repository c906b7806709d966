//! How large a pool is that is to hold one set, or a few, and in which form.
use crate::{Form, Plan, Pool, Refusal};

/// The most nodes that a pool has; few for this crate's own tests, so that sets soon change their form and have to be combined in parts.
pub(crate) const MOST: u32 = if cfg!(test) { 4096 } else { 4_194_304 };

/// The nodes of a new set.
pub(crate) const FEW: u32 = 64;

/// A pool of one empty set that may have all nodes.
pub(crate) fn one_set(form: Form, family: u8, nodes: u32) -> Result<Pool, Refusal> {
    Pool::new_in_form(form, family, nodes, &[Plan::new(0, nodes)])
}

/// The nodes that so many networks of a routing table take in the first form (docs/BENCHMARK.md); in the second no networks take as many.
pub(crate) fn usual_nodes(family: u8, networks: usize) -> u64 {
    networks as u64 * if family == 4 { 3 } else { 8 }
}

/// Works in pools of more and more nodes until the work is not refused for them: in this form up to the most that a pool has, then, from as many as before, in
/// the second, which has more room and is slower.
pub(crate) fn with_room<T>(form: Form, nodes: u64, work: impl Fn(Form, u32) -> Result<T, Refusal>) -> Result<T, Refusal> {
    let first = nodes.clamp(FEW as u64, MOST as u64) as u32;
    let (mut form, mut nodes) = (form, first);
    loop {
        match work(form, nodes) {
            Err(Refusal::OverLimit | Refusal::NoRoom) if nodes < MOST => nodes = (2 * nodes).min(MOST),
            Err(Refusal::OverLimit | Refusal::NoRoom) if form == Form::First => (form, nodes) = (Form::Second, first),
            done => return done,
        }
    }
}
