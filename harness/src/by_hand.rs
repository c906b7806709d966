//! Cases made by hand, each call with the number and the value that it answers.
use crate::differential::Case;
use crate::files::file;
use crate::layout::{Form, MARK};
use crate::lists::{List, Member};
use crate::many::tail as tail_of;
use crate::model::{apply, net};
use crate::plan::{Dice, Plan, Universe};
use crate::salvage;
use crate::wire::*;

/// A layout of family 4, with the shares and then the limits.
fn layout(form: u32, sets: u8, nodes: u32, plan: &[u32], indexed: u64) -> Call {
    let net = Net { family: 4, hi: indexed, len: sets, ..Net::default() };
    Call { a: sets as u32, b: nodes, c: sets as u32 + 256 * form, net, tail: plan.iter().flat_map(|n| n.to_le_bytes()).collect(), ..Call::new(LAYOUT) }
}

fn on(code: u8, set: u32, m: Member) -> Call {
    Call { a: set, net: net(4, m), ..Call::new(code) }
}

/// The calls, where the model answers so.
fn answered(words: usize, calls: Vec<(Call, u8, u32)>) -> Case {
    let mut w = vec![0; words];
    for (c, no, x) in &calls {
        let a = apply(&mut w, c);
        assert_eq!((a.no, a.x), (*no, *x), "{c:?}");
    }
    Case { words, calls: calls.into_iter().map(|c| c.0).collect() }
}

const TEN: Member = (8, 0x0a00_0000);
/// 192.168.0.0/23, its halves, and an address in the second.
const BLOCK: Member = (23, 0xc0a8_0000);
const LOW: Member = (24, 0xc0a8_0000);
const HIGH: Member = (24, 0xc0a8_0100);
const ONE: Member = (32, 0xc0a8_0107);

/// A full pool: two halves of a block fit in set 2 joined, and not apart. So the named mode of exclude is refused 10 there, and the default is granted.
pub fn full() -> Case {
    let out = |code: u8| Call { a: 2, b: 0, c: 1, ..Call::new(code) };
    let plan = layout(0, 3, 50, &[26, 0, 0, 26, 50, 50], 0);
    answered(64 + 24 + 400, vec![(plan, 0, 0), (on(ADD, 0, LOW), 0, 25), (on(ADD, 0, HIGH), 0, 26), (out(EXCLUDE_APART), 10, 0), (out(EXCLUDE), 0, 24)])
}

/// Calls of many networks are judged by the final list: one of the networks alone is refused 9, all are granted.
pub fn halfway() -> Case {
    let all = |code: u8, l: [Member; 2]| Call { tail: file(4, &List::from(l)), ..Call::new(code) };
    let range = |a: u128, b: u128| Call { tail: tail_of(b), ..on(ADD_RANGE, 0, (0, a)) };
    let calls = vec![
        (layout(0, 1, 50, &[0, 26], 0), 0, 0),
        (on(ADD, 0, LOW), 0, 25),
        (on(ADD, 0, HIGH), 0, 26),
        (on(ADD, 0, TEN), 9, 0),
        (all(ADD_FILE, [TEN, (8, 0xc000_0000)]), 0, 17),
        (Call { c: 18, ..Call::new(REPLAN) }, 0, 17),
        (on(REMOVE, 0, (10, 0xc000_0000)), 9, 0),
        (all(REMOVE_FILE, [(10, 0xc000_0000), (10, 0xc040_0000)]), 0, 18),
        (on(ADD, 0, (2, 0x4000_0000)), 9, 0),
        (range(0x4000_0000, 0xffff_ffff), 0, 11),
        (range(0x4000_0000, 0x3fff_ffff), 12, 0),
    ];
    answered(64 + 8 + 400, calls)
}

/// The second form: a pool of five nodes, in which 10.0.0.0/8 and the two halves are all there is room for. Lookups count the empty string, the block, and
/// members.
pub fn kept() -> Case {
    let plan = |form: u32, indexed: u64| layout(form, 2, 5, &[0, 0, 5, 3], indexed);
    let calls = vec![
        (plan(1, 0), 0, 0),
        (on(ADD, 0, TEN), 0, 1),
        (on(ADD, 0, LOW), 0, 3),
        (on(ADD, 0, HIGH), 0, 5),
        (on(ADD, 0, (12, 0xac10_0000)), 9, 0),
        (on(ADD, 1, (0, 0)), 10, 0),
        (on(SUPERNET, 0, ONE), 0, 3),
        (on(CONTAINS, 0, BLOCK), 0, 2),
        (on(CONTAINS, 0, (24, 0xc0a8_0200)), 0, 1),
        (on(CONTAINS, 0, (32, 0x0a01_0203)), 0, 2),
        (on(SIMPLIFY, 0, (0, 0)), 0, 3),
        (on(SUPERNET, 0, ONE), 0, 2),
        (on(ADD, 1, (0, 0)), 0, 1),
        (on(REMOVE, 0, TEN), 0, 1),
        (on(SUPERNET, 0, ONE), 0, 1),
        (on(CONTAINS, 0, TEN), 0, 0),
        // no set may be indexed, though there is room for it, and there is no third form
        (plan(1, 1), 1, 0),
        (plan(2, 0), 1, 0),
    ];
    answered(64 + 16 + 40 + 256, calls)
}

/// The pool of the second form that docs/LAYOUT.md has by hand, word by word.
pub fn page() -> Case {
    let case = answered(64 + 8 + 160, vec![(layout(1, 1, 20, &[10, 20], 0), 0, 0), (on(ADD, 0, TEN), 0, 1), (on(ADD, 0, LOW), 0, 3), (on(ADD, 0, HIGH), 0, 5)]);
    let mut w = vec![0; case.words];
    case.calls.iter().for_each(|c| _ = apply(&mut w, c));
    assert_eq!(w[..6], [MARK, 4, 1, 20, 0, 1]);
    assert_eq!(w[64..82], [1, 10, 20, 0, 0, 0, 0, 0, 1024, 0, 535, 3232235520, 24, 3232235776, 24, 3232235520, 8, 167772160]);
    case
}

/// Word 5 written over. A pool with an indexed set is unsound in the second form, where a lookup goes by the root; no header has a third form.
pub fn formed() -> Case {
    let form = |x: u32| Call { a: 5, tail: x.to_le_bytes().to_vec(), ..Call::new(WRITE_WORDS) };
    let calls = vec![
        (layout(0, 1, 5, &[0, 5], 1), 0, 0),
        (Call::new(FREE), 0, 5),
        (form(1), 0, 0),
        (Call::new(FREE), 2, 0),
        (on(ADD, 0, TEN), 2, 0),
        (on(CONTAINS, 0, TEN), 0, 0),
        (form(2), 0, 0),
        (Call::new(FREE), 2, 0),
        (on(CONTAINS, 0, TEN), 2, 0),
        (layout(1, 1, 5, &[0, 5], 0), 0, 0),
        (on(ADD, 0, TEN), 0, 1),
        (form(0), 0, 0),
        (Call::new(FREE), 2, 0),
        // in the first form the length of the member says where its children are: none on this side
        (on(CONTAINS, 0, TEN), 0, 1),
        (form(1), 0, 0),
        (on(CONTAINS, 0, TEN), 0, 1),
        (Call::new(FREE), 0, 4),
    ];
    answered(64 + 8 + 40 + 256, calls)
}

/// Damaged files, salvaged beside a small pool.
pub fn wrecks(d: &mut Dice) -> Case {
    let plan = Plan { family: 4, form: Form::First, universe: Universe::Wide, sets: 1, nodes: 2, shares: vec![0], limits: vec![2], indexed: 0 };
    Case { words: plan.words(), calls: salvage::damaged(d, &plan) }
}
