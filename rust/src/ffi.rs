//! The calls of include/marlbrace.h. This file alone has unsafe code; every call is safe for any memory, so a wrapper hands over a slice as pointer and
//! length.
use crate::net::Row;
use crate::{entries, IpNet, Refusal};

#[link(name = "marlbrace", kind = "static")]
extern "C" {
    fn marlbrace_words(sets: u32, nodes: u32) -> u64;
    fn marlbrace_layout(
        pool: *mut u32,
        pool_len: usize,
        family: u8,
        sets: u32,
        nodes: u32,
        shares: *const u32,
        shares_len: usize,
        limits: *const u32,
        limits_len: usize,
    ) -> u64;
    fn marlbrace_words_indexed(sets: u32, nodes: u32, indexed: u32) -> u64;
    fn marlbrace_layout_indexed(
        pool: *mut u32,
        pool_len: usize,
        family: u8,
        sets: u32,
        nodes: u32,
        shares: *const u32,
        shares_len: usize,
        limits: *const u32,
        limits_len: usize,
        indexed: u64,
    ) -> u64;
    fn marlbrace_layout_form(
        pool: *mut u32,
        pool_len: usize,
        family: u8,
        form: u32,
        sets: u32,
        nodes: u32,
        shares: *const u32,
        shares_len: usize,
        limits: *const u32,
        limits_len: usize,
        indexed: u64,
    ) -> u64;
    fn marlbrace_free(pool: *const u32, pool_len: usize) -> u64;
    fn marlbrace_held(pool: *const u32, pool_len: usize, set: u32) -> u64;
    fn marlbrace_networks(pool: *const u32, pool_len: usize, set: u32) -> u64;
    fn marlbrace_share(pool: *const u32, pool_len: usize, set: u32) -> u64;
    fn marlbrace_limit(pool: *const u32, pool_len: usize, set: u32) -> u64;
    fn marlbrace_add(pool: *mut u32, pool_len: usize, set: u32, family: u8, hi: u64, lo: u64, len: u8) -> u64;
    fn marlbrace_remove(pool: *mut u32, pool_len: usize, set: u32, family: u8, hi: u64, lo: u64, len: u8) -> u64;
    fn marlbrace_simplify(pool: *mut u32, pool_len: usize, set: u32) -> u64;
    fn marlbrace_merge(pool: *mut u32, pool_len: usize, to: u32, first: u32, second: u32) -> u64;
    fn marlbrace_intersect(pool: *mut u32, pool_len: usize, to: u32, first: u32, second: u32) -> u64;
    fn marlbrace_exclude(pool: *mut u32, pool_len: usize, to: u32, first: u32, second: u32) -> u64;
    fn marlbrace_exclude_apart(pool: *mut u32, pool_len: usize, to: u32, first: u32, second: u32) -> u64;
    fn marlbrace_replan(pool: *mut u32, pool_len: usize, set: u32, share: u32, limit: u32) -> u64;
    fn marlbrace_make_public(pool: *mut u32, pool_len: usize, set: u32) -> u64;
    fn marlbrace_load(pool: *mut u32, pool_len: usize, set: u32, file: *const u8, file_len: usize) -> u64;
    fn marlbrace_add_file(pool: *mut u32, pool_len: usize, set: u32, file: *const u8, file_len: usize) -> u64;
    fn marlbrace_remove_file(pool: *mut u32, pool_len: usize, set: u32, file: *const u8, file_len: usize) -> u64;
    fn marlbrace_add_range(pool: *mut u32, pool_len: usize, set: u32, family: u8, first_hi: u64, first_lo: u64, last_hi: u64, last_lo: u64) -> u64;
    fn marlbrace_lines(pool: *mut u32, pool_len: usize, text: *const u8, text_len: usize, counts: *mut [u64; 2]) -> u64;
    fn marlbrace_contains(pool: *const u32, pool_len: usize, set: u32, family: u8, hi: u64, lo: u64, len: u8) -> u64;
    fn marlbrace_contains_all(
        pool: *const u32,
        pool_len: usize,
        set: u32,
        family: u8,
        queries: *const u64,
        queries_len: usize,
        answers: *mut u64,
        answers_len: usize,
    ) -> u64;
    fn marlbrace_supernet(pool: *const u32, pool_len: usize, set: u32, family: u8, hi: u64, lo: u64, len: u8, row: *mut [u64; 3]) -> u64;
    fn marlbrace_is_empty(pool: *const u32, pool_len: usize, set: u32) -> u64;
    fn marlbrace_equal(pool: *const u32, pool_len: usize, first: u32, second: u32) -> u64;
    fn marlbrace_first(pool: *const u32, pool_len: usize, set: u32, row: *mut [u64; 3]) -> u64;
    fn marlbrace_next(pool: *const u32, pool_len: usize, set: u32, family: u8, hi: u64, lo: u64, len: u8, row: *mut [u64; 3]) -> u64;
    fn marlbrace_nth(pool: *const u32, pool_len: usize, set: u32, place: u32, row: *mut [u64; 3]) -> u64;
    fn marlbrace_last(pool: *const u32, pool_len: usize, set: u32, row: *mut [u64; 3]) -> u64;
    fn marlbrace_list(pool: *const u32, pool_len: usize, set: u32, rows: *mut u64, rows_len: usize) -> u64;
    fn marlbrace_ranges(pool: *const u32, pool_len: usize, set: u32, rows: *mut u64, rows_len: usize) -> u64;
    fn marlbrace_save(pool: *const u32, pool_len: usize, set: u32, out: *mut u8, out_len: usize) -> u64;
    fn marlbrace_compare(first: *const u8, first_len: usize, second: *const u8, second_len: usize, row: *mut [u64; 3]) -> u64;
    fn marlbrace_salvage(file: *const u8, file_len: usize, out: *mut u8, out_len: usize, counts: *mut [u64; 4]) -> u64;
    fn marlbrace_read_line_either(line: *const u8, line_len: usize, row: *mut [u64; 3]) -> u64;
    fn marlbrace_write_line(family: u8, hi: u64, lo: u64, len: u8, out: *mut u8, out_len: usize) -> u64;
}

/// A granted answer by its parts.
#[derive(Clone, Copy)]
pub(crate) struct Granted(u64);

impl Granted {
    pub fn value(self) -> u32 {
        self.0 as u32
    }

    pub fn yes(self) -> bool {
        self.0 >> 48 & 1 == 1
    }

    pub fn trimmed(self) -> bool {
        self.0 >> 49 & 1 == 1
    }
}

fn granted(answer: u64) -> Result<Granted, Refusal> {
    match answer >> 32 & 0xffff {
        0 => Ok(Granted(answer)),
        number => Err(Refusal::of(number)),
    }
}

type Answer = Result<Granted, Refusal>;

pub(crate) fn words(sets: u32, nodes: u32) -> Result<usize, Refusal> {
    granted(unsafe { marlbrace_words(sets, nodes) }).map(|a| a.value() as usize)
}

pub(crate) fn layout(pool: &mut [u32], family: u8, nodes: u32, shares: &[u32], limits: &[u32]) -> Answer {
    let sets = u32::try_from(shares.len()).unwrap_or(u32::MAX);
    granted(unsafe { marlbrace_layout(pool.as_mut_ptr(), pool.len(), family, sets, nodes, shares.as_ptr(), shares.len(), limits.as_ptr(), limits.len()) })
}

pub(crate) fn words_indexed(sets: u32, nodes: u32, indexed: u32) -> Result<usize, Refusal> {
    granted(unsafe { marlbrace_words_indexed(sets, nodes, indexed) }).map(|a| a.value() as usize)
}

/// As `layout`, with set s indexed where bit s is set.
pub(crate) fn layout_indexed(pool: &mut [u32], family: u8, nodes: u32, shares: &[u32], limits: &[u32], indexed: u64) -> Answer {
    let sets = u32::try_from(shares.len()).unwrap_or(u32::MAX);
    let (s, l) = (shares.as_ptr(), limits.as_ptr());
    granted(unsafe { marlbrace_layout_indexed(pool.as_mut_ptr(), pool.len(), family, sets, nodes, s, shares.len(), l, limits.len(), indexed) })
}

/// As `layout`, in the form 0 or 1.
pub(crate) fn layout_form(pool: &mut [u32], family: u8, form: u32, nodes: u32, shares: &[u32], limits: &[u32]) -> Answer {
    let sets = u32::try_from(shares.len()).unwrap_or(u32::MAX);
    let (s, l) = (shares.as_ptr(), limits.as_ptr());
    granted(unsafe { marlbrace_layout_form(pool.as_mut_ptr(), pool.len(), family, form, sets, nodes, s, shares.len(), l, limits.len(), 0) })
}

macro_rules! reads {
    ($($name:ident = $call:ident($($arg:ident: $type:ty),*);)*) => { $(
        pub(crate) fn $name(pool: &[u32] $(, $arg: $type)*) -> Answer {
            granted(unsafe { $call(pool.as_ptr(), pool.len() $(, $arg)*) })
        }
    )* };
}

reads! {
    free = marlbrace_free();
    held = marlbrace_held(set: u32);
    networks = marlbrace_networks(set: u32);
    share = marlbrace_share(set: u32);
    limit = marlbrace_limit(set: u32);
    is_empty = marlbrace_is_empty(set: u32);
    equal = marlbrace_equal(first: u32, second: u32);
}

macro_rules! changes {
    ($($name:ident = $call:ident($($arg:ident: $type:ty),*);)*) => { $(
        pub(crate) fn $name(pool: &mut [u32] $(, $arg: $type)*) -> Answer {
            granted(unsafe { $call(pool.as_mut_ptr(), pool.len() $(, $arg)*) })
        }
    )* };
}

changes! {
    simplify = marlbrace_simplify(set: u32);
    merge = marlbrace_merge(to: u32, first: u32, second: u32);
    intersect = marlbrace_intersect(to: u32, first: u32, second: u32);
    exclude = marlbrace_exclude(to: u32, first: u32, second: u32);
    exclude_apart = marlbrace_exclude_apart(to: u32, first: u32, second: u32);
    replan = marlbrace_replan(set: u32, share: u32, limit: u32);
    make_public = marlbrace_make_public(set: u32);
}

/// A network of a set, where there is one.
fn found(pool: &[u32], call: impl FnOnce(&mut [u64; 3]) -> u64) -> Result<Option<IpNet>, Refusal> {
    let mut row = [0; 3];
    let a = granted(call(&mut row))?;
    Ok(a.yes().then(|| row_of(family(pool), &row).net()))
}

pub(crate) fn supernet(pool: &[u32], set: u32, n: &Row) -> Result<Option<IpNet>, Refusal> {
    found(pool, |row| unsafe { marlbrace_supernet(pool.as_ptr(), pool.len(), set, n.family, n.hi, n.lo, n.len, row) })
}

pub(crate) fn first(pool: &[u32], set: u32) -> Result<Option<IpNet>, Refusal> {
    found(pool, |row| unsafe { marlbrace_first(pool.as_ptr(), pool.len(), set, row) })
}

pub(crate) fn next(pool: &[u32], set: u32, n: &Row) -> Result<Option<IpNet>, Refusal> {
    found(pool, |row| unsafe { marlbrace_next(pool.as_ptr(), pool.len(), set, n.family, n.hi, n.lo, n.len, row) })
}

pub(crate) fn nth(pool: &[u32], set: u32, place: u32) -> Result<Option<IpNet>, Refusal> {
    found(pool, |row| unsafe { marlbrace_nth(pool.as_ptr(), pool.len(), set, place, row) })
}

pub(crate) fn last(pool: &[u32], set: u32) -> Result<Option<IpNet>, Refusal> {
    found(pool, |row| unsafe { marlbrace_last(pool.as_ptr(), pool.len(), set, row) })
}

pub(crate) fn add(pool: &mut [u32], set: u32, n: &Row) -> Answer {
    granted(unsafe { marlbrace_add(pool.as_mut_ptr(), pool.len(), set, n.family, n.hi, n.lo, n.len) })
}

pub(crate) fn remove(pool: &mut [u32], set: u32, n: &Row) -> Answer {
    granted(unsafe { marlbrace_remove(pool.as_mut_ptr(), pool.len(), set, n.family, n.hi, n.lo, n.len) })
}

pub(crate) fn load(pool: &mut [u32], set: u32, file: &[u8]) -> Answer {
    granted(unsafe { marlbrace_load(pool.as_mut_ptr(), pool.len(), set, file.as_ptr(), file.len()) })
}

pub(crate) fn add_file(pool: &mut [u32], set: u32, file: &[u8]) -> Answer {
    granted(unsafe { marlbrace_add_file(pool.as_mut_ptr(), pool.len(), set, file.as_ptr(), file.len()) })
}

pub(crate) fn remove_file(pool: &mut [u32], set: u32, file: &[u8]) -> Answer {
    granted(unsafe { marlbrace_remove_file(pool.as_mut_ptr(), pool.len(), set, file.as_ptr(), file.len()) })
}

pub(crate) fn add_range(pool: &mut [u32], set: u32, first: &Row, last: &Row) -> Answer {
    granted(unsafe { marlbrace_add_range(pool.as_mut_ptr(), pool.len(), set, first.family, first.hi, first.lo, last.hi, last.lo) })
}

/// Lines into set 0: how many were trimmed, or the line that was refused.
pub(crate) fn lines(pool: &mut [u32], text: &[u8]) -> Result<u64, (u64, Refusal)> {
    let mut counts = [0; 2];
    let a = unsafe { marlbrace_lines(pool.as_mut_ptr(), pool.len(), text.as_ptr(), text.len(), &mut counts) };
    granted(a).map(|_| counts[1]).map_err(|no| (counts[0], no))
}

pub(crate) fn contains(pool: &[u32], set: u32, n: &Row) -> Answer {
    granted(unsafe { marlbrace_contains(pool.as_ptr(), pool.len(), set, n.family, n.hi, n.lo, n.len) })
}

/// What contains answers to each network: of one that the call cannot take, its own refusal.
pub(crate) fn contains_all(pool: &[u32], set: u32, family: u8, rows: &[Row]) -> Result<Vec<Granted>, Refusal> {
    let queries: Vec<u64> = rows.iter().flat_map(|n| [n.hi, n.lo, n.len as u64]).collect();
    let mut answers = vec![0u64; rows.len()];
    granted(unsafe { marlbrace_contains_all(pool.as_ptr(), pool.len(), set, family, queries.as_ptr(), queries.len(), answers.as_mut_ptr(), answers.len()) })?;
    answers.into_iter().map(granted).collect()
}

fn row_of(family: u8, row: &[u64]) -> Row {
    Row { family, hi: row[0], lo: row[1], len: row[2] as u8 }
}

/// The networks of a set: how many there are is asked first.
pub(crate) fn list(pool: &[u32], set: u32) -> Result<Vec<IpNet>, Refusal> {
    let mut rows = vec![0u64; 3 * networks(pool, set)?.value() as usize];
    granted(unsafe { marlbrace_list(pool.as_ptr(), pool.len(), set, rows.as_mut_ptr(), rows.len()) })?;
    Ok(rows.chunks_exact(3).map(|row| row_of(family(pool), row).net()).collect())
}

/// The first and the last address of each range of a set, which has no more of them than networks.
pub(crate) fn ranges(pool: &[u32], set: u32) -> Result<Vec<(Row, Row)>, Refusal> {
    let mut rows = vec![0u64; 4 * networks(pool, set)?.value() as usize];
    let a = granted(unsafe { marlbrace_ranges(pool.as_ptr(), pool.len(), set, rows.as_mut_ptr(), rows.len()) })?;
    let end = |row: &[u64]| Row { family: family(pool), hi: row[0], lo: row[1], len: 0 };
    Ok(rows.chunks_exact(4).take(a.value() as usize).map(|row| (end(row), end(&row[2..]))).collect())
}

/// The family of a pool, a word of its header (docs/LAYOUT.md).
pub(crate) fn family(pool: &[u32]) -> u8 {
    pool.get(1).map_or(0, |&family| family as u8)
}

/// The form of a pool, a word of its header too.
pub(crate) fn form(pool: &[u32]) -> u32 {
    pool.get(5).copied().unwrap_or(0)
}

/// The file of a set.
pub(crate) fn save(pool: &[u32], set: u32) -> Result<Vec<u8>, Refusal> {
    let mut out = vec![0u8; entries::bytes(family(pool), networks(pool, set)?.value() as usize)];
    granted(unsafe { marlbrace_save(pool.as_ptr(), pool.len(), set, out.as_mut_ptr(), out.len()) })?;
    Ok(out)
}

/// The right file of what is left of a file's entries, and the counts. It never has more bytes than the file.
pub(crate) fn salvage(file: &[u8]) -> Result<(Vec<u8>, [u64; 4]), Refusal> {
    let (mut out, mut counts) = (vec![0u8; file.len()], [0; 4]);
    let a = granted(unsafe { marlbrace_salvage(file.as_ptr(), file.len(), out.as_mut_ptr(), out.len(), &mut counts) })?;
    out.truncate(a.value() as usize);
    Ok((out, counts))
}

/// Whether two files cover the same addresses: the value of the call, and where they differ the smallest address on which they do, of the files' family.
pub(crate) fn compare(first: &[u8], second: &[u8]) -> Result<(u32, Row), Refusal> {
    let mut row = [0; 3];
    let a = granted(unsafe { marlbrace_compare(first.as_ptr(), first.len(), second.as_ptr(), second.len(), &mut row) })?;
    Ok((a.value(), row_of(first[3], &row)))
}

/// The network of a line, and whether a bit was cut.
pub(crate) fn read_line(line: &[u8]) -> Result<(Row, bool), Refusal> {
    let mut row = [0; 3];
    let a = granted(unsafe { marlbrace_read_line_either(line.as_ptr(), line.len(), &mut row) })?;
    Ok((row_of(a.value() as u8, &row), a.trimmed()))
}

/// Writes the line of a network in front of `out`; answers how many bytes it has.
pub(crate) fn write_line(n: &Row, out: &mut [u8]) -> Result<usize, Refusal> {
    let a = granted(unsafe { marlbrace_write_line(n.family, n.hi, n.lo, n.len, out.as_mut_ptr(), out.len()) })?;
    Ok(a.value() as usize)
}
