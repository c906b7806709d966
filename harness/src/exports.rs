//! The calls that are exported each for itself, as include/marlbrace.h declares them, on the words that a case leaves, beside the model.
use crate::layout::{header, least};
use crate::many::last;
use crate::model::apply;
use crate::runs::cut;
use crate::wire::*;

extern "C" {
    fn marlbrace_words(sets: u32, nodes: u32) -> u64;
    fn marlbrace_layout(pool: *mut u32, pool_len: usize, family: u8, sets: u32, nodes: u32, shares: *const u32, shares_len: usize, limits: *const u32, limits_len: usize) -> u64;
    fn marlbrace_words_indexed(sets: u32, nodes: u32, indexed: u32) -> u64;
    fn marlbrace_layout_indexed(pool: *mut u32, pool_len: usize, family: u8, sets: u32, nodes: u32, shares: *const u32, shares_len: usize, limits: *const u32, limits_len: usize, indexed: u64) -> u64;
    fn marlbrace_layout_form(pool: *mut u32, pool_len: usize, family: u8, form: u32, sets: u32, nodes: u32, shares: *const u32, shares_len: usize, limits: *const u32, limits_len: usize, indexed: u64) -> u64;
    fn marlbrace_free(pool: *const u32, pool_len: usize) -> u64;
    fn marlbrace_held(pool: *const u32, pool_len: usize, set: u32) -> u64;
    fn marlbrace_networks(pool: *const u32, pool_len: usize, set: u32) -> u64;
    fn marlbrace_share(pool: *const u32, pool_len: usize, set: u32) -> u64;
    fn marlbrace_limit(pool: *const u32, pool_len: usize, set: u32) -> u64;
    fn marlbrace_add(pool: *mut u32, pool_len: usize, set: u32, family: u8, hi: u64, lo: u64, len: u8) -> u64;
    fn marlbrace_remove(pool: *mut u32, pool_len: usize, set: u32, family: u8, hi: u64, lo: u64, len: u8) -> u64;
    fn marlbrace_simplify(pool: *mut u32, pool_len: usize, set: u32) -> u64;
    fn marlbrace_merge(pool: *mut u32, pool_len: usize, to: u32, first: u32, second: u32) -> u64;
    fn marlbrace_intersect(pool: *mut u32, pool_len: usize, to: u32, first: u32, second: u32) -> u64;
    fn marlbrace_exclude(pool: *mut u32, pool_len: usize, to: u32, first: u32, second: u32) -> u64;
    fn marlbrace_exclude_apart(pool: *mut u32, pool_len: usize, to: u32, first: u32, second: u32) -> u64;
    fn marlbrace_replan(pool: *mut u32, pool_len: usize, set: u32, share: u32, limit: u32) -> u64;
    fn marlbrace_make_public(pool: *mut u32, pool_len: usize, set: u32) -> u64;
    fn marlbrace_load(pool: *mut u32, pool_len: usize, set: u32, file: *const u8, file_len: usize) -> u64;
    fn marlbrace_add_file(pool: *mut u32, pool_len: usize, set: u32, file: *const u8, file_len: usize) -> u64;
    fn marlbrace_remove_file(pool: *mut u32, pool_len: usize, set: u32, file: *const u8, file_len: usize) -> u64;
    fn marlbrace_add_range(pool: *mut u32, pool_len: usize, set: u32, family: u8, first_hi: u64, first_lo: u64, last_hi: u64, last_lo: u64) -> u64;
    fn marlbrace_lines(pool: *mut u32, pool_len: usize, text: *const u8, text_len: usize, counts: *mut [u64; 2]) -> u64;
    fn marlbrace_contains(pool: *const u32, pool_len: usize, set: u32, family: u8, hi: u64, lo: u64, len: u8) -> u64;
    fn marlbrace_contains_all(pool: *const u32, pool_len: usize, set: u32, family: u8, queries: *const u64, queries_len: usize, answers: *mut u64, answers_len: usize) -> u64;
    fn marlbrace_supernet(pool: *const u32, pool_len: usize, set: u32, family: u8, hi: u64, lo: u64, len: u8, row: *mut [u64; 3]) -> u64;
    fn marlbrace_is_empty(pool: *const u32, pool_len: usize, set: u32) -> u64;
    fn marlbrace_equal(pool: *const u32, pool_len: usize, first: u32, second: u32) -> u64;
    fn marlbrace_first(pool: *const u32, pool_len: usize, set: u32, row: *mut [u64; 3]) -> u64;
    fn marlbrace_next(pool: *const u32, pool_len: usize, set: u32, family: u8, hi: u64, lo: u64, len: u8, row: *mut [u64; 3]) -> u64;
    fn marlbrace_nth(pool: *const u32, pool_len: usize, set: u32, place: u32, row: *mut [u64; 3]) -> u64;
    fn marlbrace_last(pool: *const u32, pool_len: usize, set: u32, row: *mut [u64; 3]) -> u64;
    fn marlbrace_list(pool: *const u32, pool_len: usize, set: u32, rows: *mut u64, rows_len: usize) -> u64;
    fn marlbrace_ranges(pool: *const u32, pool_len: usize, set: u32, rows: *mut u64, rows_len: usize) -> u64;
    fn marlbrace_save(pool: *const u32, pool_len: usize, set: u32, out: *mut u8, out_len: usize) -> u64;
    fn marlbrace_compare(first: *const u8, first_len: usize, second: *const u8, second_len: usize, row: *mut [u64; 3]) -> u64;
    fn marlbrace_salvage(file: *const u8, file_len: usize, out: *mut u8, out_len: usize, counts: *mut [u64; 4]) -> u64;
    fn marlbrace_read_line(line: *const u8, line_len: usize, row: *mut [u64; 3]) -> u64;
    fn marlbrace_read_line_six(line: *const u8, line_len: usize, row: *mut [u64; 3]) -> u64;
    fn marlbrace_read_line_either(line: *const u8, line_len: usize, row: *mut [u64; 3]) -> u64;
    fn marlbrace_write_line(family: u8, hi: u64, lo: u64, len: u8, out: *mut u8, out_len: usize) -> u64;
}

/// Lays a pool out with empty sets that have no share and the limit, indexed where their bit is set.
pub fn layout_indexed(pool: &mut [u32], family: u8, sets: usize, nodes: u32, limit: u32, indexed: u64) -> u64 {
    let (shares, limits) = (vec![0; sets], vec![limit; sets]);
    let (s, l) = (shares.as_ptr(), limits.as_ptr());
    unsafe { marlbrace_layout_indexed(pool.as_mut_ptr(), pool.len(), family, sets as u32, nodes, s, sets, l, sets, indexed) }
}

/// Whether a member contains the network, where the call is granted.
pub fn contains(pool: &[u32], set: u32, n: &Net) -> bool {
    unsafe { marlbrace_contains(pool.as_ptr(), pool.len(), set, n.family, n.hi, n.lo, n.len) >> 48 & 1 == 1 }
}

/// As `contains`, with the member in the row.
pub fn supernet(pool: &[u32], set: u32, n: &Net, row: &mut [u64; 3]) -> bool {
    unsafe { marlbrace_supernet(pool.as_ptr(), pool.len(), set, n.family, n.hi, n.lo, n.len, row) >> 48 & 1 == 1 }
}

pub fn free(pool: &[u32]) -> u64 {
    unsafe { marlbrace_free(pool.as_ptr(), pool.len()) }
}

pub fn held(pool: &[u32], set: u32) -> u64 {
    unsafe { marlbrace_held(pool.as_ptr(), pool.len(), set) }
}

pub fn equal(pool: &[u32], first: u32, second: u32) -> u64 {
    unsafe { marlbrace_equal(pool.as_ptr(), pool.len(), first, second) }
}

pub fn next(pool: &[u32], set: u32, n: &Net, row: &mut [u64; 3]) -> u64 {
    unsafe { marlbrace_next(pool.as_ptr(), pool.len(), set, n.family, n.hi, n.lo, n.len, row) }
}

pub fn nth(pool: &[u32], set: u32, place: u32, row: &mut [u64; 3]) -> u64 {
    unsafe { marlbrace_nth(pool.as_ptr(), pool.len(), set, place, row) }
}

/// What contains answers to each query of a row, three numbers for each.
pub fn contains_all(pool: &[u32], set: u32, family: u8, queries: &[u64], answers: &mut [u64]) -> u64 {
    unsafe { marlbrace_contains_all(pool.as_ptr(), pool.len(), set, family, queries.as_ptr(), queries.len(), answers.as_mut_ptr(), answers.len()) }
}

pub fn list(pool: &[u32], set: u32, rows: &mut [u64]) -> u64 {
    unsafe { marlbrace_list(pool.as_ptr(), pool.len(), set, rows.as_mut_ptr(), rows.len()) }
}

pub fn ranges(pool: &[u32], set: u32, rows: &mut [u64]) -> u64 {
    unsafe { marlbrace_ranges(pool.as_ptr(), pool.len(), set, rows.as_mut_ptr(), rows.len()) }
}

pub fn save(pool: &[u32], set: u32, out: &mut [u8]) -> u64 {
    unsafe { marlbrace_save(pool.as_ptr(), pool.len(), set, out.as_mut_ptr(), out.len()) }
}

pub fn load(pool: &mut [u32], set: u32, file: &[u8]) -> u64 {
    unsafe { marlbrace_load(pool.as_mut_ptr(), pool.len(), set, file.as_ptr(), file.len()) }
}

pub fn add_file(pool: &mut [u32], set: u32, file: &[u8]) -> u64 {
    unsafe { marlbrace_add_file(pool.as_mut_ptr(), pool.len(), set, file.as_ptr(), file.len()) }
}

pub fn remove_file(pool: &mut [u32], set: u32, file: &[u8]) -> u64 {
    unsafe { marlbrace_remove_file(pool.as_mut_ptr(), pool.len(), set, file.as_ptr(), file.len()) }
}

pub fn lines(pool: &mut [u32], text: &[u8], counts: &mut [u64; 2]) -> u64 {
    unsafe { marlbrace_lines(pool.as_mut_ptr(), pool.len(), text.as_ptr(), text.len(), counts) }
}

pub fn add(pool: &mut [u32], set: u32, n: &Net) -> u64 {
    unsafe { marlbrace_add(pool.as_mut_ptr(), pool.len(), set, n.family, n.hi, n.lo, n.len) }
}

pub fn remove(pool: &mut [u32], set: u32, n: &Net) -> u64 {
    unsafe { marlbrace_remove(pool.as_mut_ptr(), pool.len(), set, n.family, n.hi, n.lo, n.len) }
}

pub fn simplify(pool: &mut [u32], set: u32) -> u64 {
    unsafe { marlbrace_simplify(pool.as_mut_ptr(), pool.len(), set) }
}

/// A combination by its code, into a third set.
pub fn combine(code: u8, pool: &mut [u32], to: u32, first: u32, second: u32) -> u64 {
    let (w, m) = (pool.as_mut_ptr(), pool.len());
    unsafe {
        match code {
            MERGE => marlbrace_merge(w, m, to, first, second),
            INTERSECT => marlbrace_intersect(w, m, to, first, second),
            EXCLUDE => marlbrace_exclude(w, m, to, first, second),
            EXCLUDE_APART => marlbrace_exclude_apart(w, m, to, first, second),
            _ => unreachable!(),
        }
    }
}

pub fn compare(first: &[u8], second: &[u8]) -> u64 {
    unsafe { marlbrace_compare(first.as_ptr(), first.len(), second.as_ptr(), second.len(), &mut [0; 3]) }
}

pub fn salvage(file: &[u8], out: &mut [u8], counts: &mut [u64; 4]) -> u64 {
    unsafe { marlbrace_salvage(file.as_ptr(), file.len(), out.as_mut_ptr(), out.len(), counts) }
}

/// What the exported call answers: its number, and the row, the numbers or the bytes that were lent, as bytes.
fn answered(pool: &mut [u32], c: &Call) -> Option<(u64, Vec<u8>)> {
    let (w, m, n) = (pool.as_mut_ptr(), pool.len(), &c.net);
    let (mut row, mut counts, mut salvaged) = ([7u64; 3], [7u64; 2], [7u64; 4]);
    let mut rows = vec![c.c as u64; if matches!(c.code, LIST | RANGES) { c.b as usize } else { 0 }];
    let mut bytes = vec![c.c as u8; if matches!(c.code, SAVE | WRITE_LINE | SALVAGE) { c.b as usize } else { 0 }];
    let number = unsafe {
        match c.code {
            LAYOUT => {
                let (words, more) = (c.net.len as usize, (c.c % 256) as usize);
                let at = |k: usize| (0..4).map(|j| (*c.tail.get(4 * k + j).unwrap_or(&0) as u32) << (8 * j)).sum::<u32>();
                let (shares, limits): (Vec<u32>, Vec<u32>) = ((0..words).map(at).collect(), (words..words + more).map(at).collect());
                let (s, l) = (shares.as_ptr(), limits.as_ptr());
                // what chooses the form and the sets to be indexed does for all; the others where there is less to choose
                match (c.c / 256, n.hi, c.b % 3) {
                    (0, 0, 0) => marlbrace_layout(w, m, n.family, c.a, c.b, s, words, l, more),
                    (0, _, 1) => marlbrace_layout_indexed(w, m, n.family, c.a, c.b, s, words, l, more, n.hi),
                    (form, _, _) => marlbrace_layout_form(w, m, n.family, form, c.a, c.b, s, words, l, more, n.hi),
                }
            }
            FREE => marlbrace_free(w, m),
            HELD => marlbrace_held(w, m, c.a),
            PLAN => marlbrace_share(w, m, c.a),
            SUPERNET => marlbrace_supernet(w, m, c.a, n.family, n.hi, n.lo, n.len, &mut row),
            CONTAINS => marlbrace_contains(w, m, c.a, n.family, n.hi, n.lo, n.len),
            IS_EMPTY => marlbrace_is_empty(w, m, c.a),
            ADD => marlbrace_add(w, m, c.a, n.family, n.hi, n.lo, n.len),
            REMOVE => marlbrace_remove(w, m, c.a, n.family, n.hi, n.lo, n.len),
            SIMPLIFY => marlbrace_simplify(w, m, c.a),
            MERGE => marlbrace_merge(w, m, c.a, c.b, c.c),
            INTERSECT => marlbrace_intersect(w, m, c.a, c.b, c.c),
            EXCLUDE => marlbrace_exclude(w, m, c.a, c.b, c.c),
            EXCLUDE_APART => marlbrace_exclude_apart(w, m, c.a, c.b, c.c),
            REPLAN => marlbrace_replan(w, m, c.a, c.b, c.c),
            MAKE_PUBLIC => marlbrace_make_public(w, m, c.a),
            EQUAL => marlbrace_equal(w, m, c.a, c.b),
            LIST => marlbrace_list(w, m, c.a, rows.as_mut_ptr(), rows.len()),
            RANGES => marlbrace_ranges(w, m, c.a, rows.as_mut_ptr(), rows.len()),
            NEXT if c.b == 0 => marlbrace_first(w, m, c.a, &mut row),
            NEXT => marlbrace_next(w, m, c.a, n.family, n.hi, n.lo, n.len, &mut row),
            NTH => marlbrace_nth(w, m, c.a, c.b, &mut row),
            LAST => marlbrace_last(w, m, c.a, &mut row),
            SAVE => marlbrace_save(w, m, c.a, bytes.as_mut_ptr(), bytes.len()),
            LOAD => marlbrace_load(w, m, c.a, c.tail.as_ptr(), c.tail.len()),
            ADD_FILE => marlbrace_add_file(w, m, c.a, c.tail.as_ptr(), c.tail.len()),
            REMOVE_FILE => marlbrace_remove_file(w, m, c.a, c.tail.as_ptr(), c.tail.len()),
            ADD_RANGE => {
                let last = last(c);
                marlbrace_add_range(w, m, c.a, n.family, n.hi, n.lo, last.hi, last.lo)
            }
            LINES => marlbrace_lines(w, m, c.tail.as_ptr(), c.tail.len(), &mut counts),
            COMPARE => {
                let (first, second) = c.tail.split_at(cut(c));
                marlbrace_compare(first.as_ptr(), first.len(), second.as_ptr(), second.len(), &mut row)
            }
            SALVAGE => salvage(&c.tail, &mut bytes, &mut salvaged),
            READ_LINE => marlbrace_read_line(c.tail.as_ptr(), c.tail.len(), &mut row),
            READ_LINE_6 => marlbrace_read_line_six(c.tail.as_ptr(), c.tail.len(), &mut row),
            READ_LINE_EITHER => marlbrace_read_line_either(c.tail.as_ptr(), c.tail.len(), &mut row),
            WRITE_LINE => marlbrace_write_line(n.family, n.hi, n.lo, n.len, bytes.as_mut_ptr(), bytes.len()),
            _ => return None,
        }
    };
    bytes.extend(rows.iter().chain(&row).chain(&counts).chain(&salvaged).flat_map(|x| x.to_le_bytes()));
    Some((number, bytes))
}

/// The second value of a report, by its own function.
fn second(pool: &[u32], c: &Call) -> Option<u64> {
    match c.code {
        HELD => Some(unsafe { marlbrace_networks(pool.as_ptr(), pool.len(), c.a) }),
        PLAN => Some(unsafe { marlbrace_limit(pool.as_ptr(), pool.len(), c.a) }),
        _ => None,
    }
}

/// The number of an answer: its value, its refusal, its flag and its report.
fn packed(no: u8, x: u32, flag: bool, cut: bool) -> u64 {
    x as u64 | (no as u64) << 32 | (flag as u64) << 48 | (cut as u64) << 49
}

/// Up to ten queries beside the network of a lookup: it, other lengths and addresses, and numbers that are no network.
fn beside(n: &Net) -> Vec<[u64; 3]> {
    let (hi, lo, len) = (n.hi, n.lo, n.len as u64);
    let queries = [[hi, lo, len], [hi, lo, len + 1], [hi, lo ^ 1 << (lo % 32), len], [hi, lo, len / 2], [hi, lo, len + 256], [hi, lo, 255], [hi, lo, u64::MAX], [hi ^ 1 << (lo % 64), lo, len], [0, 0, 0], [hi, !lo & 0xffff_ffff, len]];
    queries.into_iter().cycle().skip(lo as usize % 10).take((lo / 8 + hi + len) as usize % 11).collect()
}

/// What is wrong with contains_all on the set of a lookup, if anything is: each answer is that of contains, by the model.
fn many(words: &[u32], c: &Call) -> Option<String> {
    let (family, queries) = (c.net.family, beside(&c.net));
    let spare = c.net.lo as usize % 3;
    let mut row = queries.concat();
    row.extend(vec![9; spare]);
    let mut answers = vec![7u64; if c.net.len % 8 == 3 { queries.len().saturating_sub(1) } else { queries.len() + spare }];
    let mut expected = answers.clone();
    let no = match header(words) {
        None => 2,
        Some(h) if c.a as usize >= h.sets => 3,
        Some(h) if h.family != family => 6,
        Some(_) => if answers.len() < queries.len() { 11 } else { 0 },
    };
    for (i, &[hi, lo, len]) in queries.iter().enumerate().filter(|_| no == 0) {
        expected[i] = if len > 255 { packed(7, 0, false, false) } else {
            let a = apply(&mut words.to_vec(), &Call { a: c.a, net: Net { family, hi, lo, len: len as u8 }, ..Call::new(CONTAINS) });
            packed(a.no, a.x, a.flag == 1, a.y == 1)
        };
    }
    let number = contains_all(words, c.a, family, &row, &mut answers);
    (number != packed(no, 0, false, false) || answers != expected).then(|| format!("contains_all of {queries:?} at {c:?}: answered {number:x} {answers:x?}, expected {no} {expected:x?}"))
}

/// The same at each lookup of a case, on the words that it comes to, damaged ones too.
pub fn many_along(words: usize, calls: &[Call]) -> Option<String> {
    let mut words = vec![0u32; words];
    calls.iter().find_map(|c| {
        let wrong = if matches!(c.code, CONTAINS | SUPERNET) { many(&words, c) } else { None };
        apply(&mut words, c);
        wrong
    })
}

/// What is wrong with the exported call, if anything is.
pub fn exported(words: &[u32], c: &Call) -> Option<String> {
    let (mut pool, mut model) = (words.to_vec(), words.to_vec());
    let (number, bytes) = answered(&mut pool, c)?;
    let a = apply(&mut model, c);
    let reports = matches!(c.code, SUPERNET | CONTAINS | ADD | REMOVE | READ_LINE | READ_LINE_6 | READ_LINE_EITHER | WRITE_LINE);
    let (flag, x) = match c.code {
        READ_LINE | READ_LINE_6 | READ_LINE_EITHER => (a.no == 0, a.net.family as u32),
        LINES => (false, 0),
        _ => (a.flag == 1, a.x),
    };
    let row = if flag && matches!(c.code, SUPERNET | NEXT | NTH | LAST | READ_LINE | READ_LINE_6 | READ_LINE_EITHER | COMPARE) { [a.net.hi, a.net.lo, a.net.len as u64] } else { [7; 3] };
    let counts = if c.code == LINES { [a.x as u64, a.net.lo] } else { [7; 2] };
    let salvaged = if c.code == SALVAGE && a.no == 0 { [a.y as u64, a.net.hi, a.net.lo >> 32, a.net.lo & 0xffff_ffff] } else { [7; 4] };
    let mut lent = a.tail.clone();
    lent.extend(row.iter().chain(&counts).chain(&salvaged).flat_map(|x| x.to_le_bytes()));
    let right = number == packed(a.no, x, flag, reports && a.y == 1) && bytes == lent && pool == model && second(words, c).map_or(true, |n| n == packed(a.no, a.y, false, false));
    (!right).then(|| format!("exported {c:?}: answered {number:x} {bytes:?}, expected {a:?}"))
}

/// The words that pools need, at the ends of what there may be.
pub fn words() -> Option<String> {
    let sizes = [0u32, 1, 2, 63, 64, 65, 4_194_303, 4_194_304, 4_194_305, u32::MAX];
    sizes.iter().flat_map(|&m| sizes.iter().map(move |&n| (m, n))).find_map(|(m, n)| sizes.iter().find_map(|&indexed| words_of(m, n, indexed)))
}

/// Those of one pool: by the call that is told how many sets are indexed, and where none is by the other too.
fn words_of(sets: u32, nodes: u32, indexed: u32) -> Option<String> {
    let right = (1..=64).contains(&sets) && (1..=4_194_304).contains(&nodes) && indexed <= sets;
    let expected = if right { packed(0, least(sets as u64, nodes as u64, indexed as u64) as u32, false, false) } else { packed(1, 0, false, false) };
    let number = unsafe { marlbrace_words_indexed(sets, nodes, indexed) };
    let plain = if indexed == 0 { unsafe { marlbrace_words(sets, nodes) } } else { expected };
    let wrong = number != expected || plain != expected;
    wrong.then(|| format!("words of {sets} sets, {indexed} indexed, and {nodes} nodes: {number:x}, {plain:x}, expected {expected:x}"))
}

/// The most entries that a salvage reads, all of them too long, and one more.
pub fn most() -> Option<String> {
    let mut f = vec![255u8; 16 + 5 * 4_194_305];
    f[..4].copy_from_slice(&[0, 0, 0, 4]);
    let (mut out, mut counts) = ([7u8; 17], [7u64; 4]);
    let number = salvage(&f, &mut out, &mut counts);
    let refused = number == packed(5, 0, false, false) && out == [7; 17] && counts == [7; 4];
    let number = salvage(&f[..f.len() - 1], &mut out, &mut counts);
    let granted = number == packed(0, 16, false, false) && out == [0, 0, 0, 4, 0, 0, 0, 0, 0, 0, 0, 16, 0, 0, 0, 16, 7] && counts == [4_194_304, 0, 4_194_304, 0];
    (!refused || !granted).then(|| format!("the most entries: refused {refused}, granted {granted}, {number:x}, {out:?}, {counts:?}"))
}
