//! Calls and answers as docs/CALLS.md has them in bytes.

#[derive(Clone, Debug, PartialEq, Eq, Default)]
pub struct Net {
    pub family: u8,
    pub hi: u64,
    pub lo: u64,
    pub len: u8,
}

#[derive(Clone, Debug, PartialEq, Eq, Default)]
pub struct Call {
    pub code: u8,
    pub a: u32,
    pub b: u32,
    pub c: u32,
    pub net: Net,
    pub tail: Vec<u8>,
}

#[derive(Clone, Debug, PartialEq, Eq, Default)]
pub struct Answer {
    pub no: u8,
    pub flag: u8,
    pub x: u32,
    pub y: u32,
    pub net: Net,
    pub tail: Vec<u8>,
}

pub const LAYOUT: u8 = 1;
pub const FREE: u8 = 2;
pub const HELD: u8 = 3;
pub const PLAN: u8 = 4;
pub const SUPERNET: u8 = 5;
pub const CONTAINS: u8 = 6;
pub const IS_EMPTY: u8 = 7;
pub const ADD: u8 = 8;
pub const REMOVE: u8 = 9;
pub const SIMPLIFY: u8 = 10;
pub const MERGE: u8 = 11;
pub const INTERSECT: u8 = 12;
pub const EXCLUDE_APART: u8 = 13;
pub const EQUAL: u8 = 14;
pub const LIST: u8 = 15;
pub const NEXT: u8 = 16;
pub const READ_LINE: u8 = 17;
pub const WRITE_LINE: u8 = 18;
pub const SAVE: u8 = 19;
pub const LOAD: u8 = 20;
pub const LINES: u8 = 21;
pub const NTH: u8 = 22;
pub const LAST: u8 = 23;
pub const PAGE: u8 = 24;
pub const EXCLUDE: u8 = 25;
pub const REPLAN: u8 = 26;
pub const MAKE_PUBLIC: u8 = 27;
pub const RANGES: u8 = 28;
pub const ADD_RANGE: u8 = 29;
pub const ADD_FILE: u8 = 30;
pub const REMOVE_FILE: u8 = 31;
pub const NEW: u8 = 32;
pub const TO_NETWORK: u8 = 33;
pub const WITH_NEW_PREFIX: u8 = 34;
pub const PREFIX_BITS: u8 = 35;
pub const NEXT_BIT: u8 = 36;
pub const OCTETS: u8 = 37;
pub const BYTES: u8 = 38;
pub const GROUPS: u8 = 39;
pub const WORDS: u8 = 40;
pub const READ_LINE_6: u8 = 41;
pub const READ_LINE_EITHER: u8 = 42;
pub const SALVAGE: u8 = 43;
pub const COMPARE: u8 = 44;
pub const WRITE_WORDS: u8 = 48;
pub const READ_WORDS: u8 = 49;

impl Call {
    pub fn new(code: u8) -> Call {
        Call { code, ..Call::default() }
    }

    pub fn put(&self, out: &mut Vec<u8>) {
        out.push(self.code);
        for n in [self.a, self.b, self.c] {
            out.extend(n.to_le_bytes());
        }
        out.push(self.net.family);
        out.extend(self.net.hi.to_le_bytes());
        out.extend(self.net.lo.to_le_bytes());
        out.push(self.net.len);
        out.extend((self.tail.len() as u32).to_le_bytes());
        out.extend(&self.tail);
    }

    /// How long the answer's tail is, which the call alone decides.
    pub fn answer_tail(&self) -> usize {
        match self.code {
            LIST | RANGES => 8 * self.b as usize,
            WRITE_LINE | SAVE | SALVAGE => self.b as usize,
            READ_WORDS => 4 * self.b as usize,
            _ => 0,
        }
    }
}

fn u32_at(b: &[u8], at: usize) -> u32 {
    u32::from_le_bytes(b[at..at + 4].try_into().unwrap())
}

fn u64_at(b: &[u8], at: usize) -> u64 {
    u64::from_le_bytes(b[at..at + 8].try_into().unwrap())
}

impl Answer {
    pub fn refused(no: u8) -> Answer {
        Answer { no, ..Answer::default() }
    }

    pub fn put(&self, out: &mut Vec<u8>) {
        out.extend([self.no, self.flag]);
        out.extend(self.x.to_le_bytes());
        out.extend(self.y.to_le_bytes());
        out.push(self.net.family);
        out.extend(self.net.hi.to_le_bytes());
        out.extend(self.net.lo.to_le_bytes());
        out.push(self.net.len);
        out.extend(&self.tail);
    }

    /// The answer to the call at the front of `b`.
    pub fn take(call: &Call, b: &[u8]) -> Answer {
        let n = call.answer_tail();
        Answer {
            no: b[0],
            flag: b[1],
            x: u32_at(b, 2),
            y: u32_at(b, 6),
            net: Net { family: b[10], hi: u64_at(b, 11), lo: u64_at(b, 19), len: b[27] },
            tail: b[28..28 + n].to_vec(),
        }
    }
}

extern "C" {
    fn marlbrace_run(pool: *mut u32, pool_len: usize, rows: *mut u64, rows_len: usize, calls: *const u8, calls_len: usize, out: *mut u8, out_len: usize) -> u64;
}

/// Runs a list of calls; gives what `marlbrace_run` answers, and the bytes of the answers.
pub fn run(pool: &mut [u32], rows: &mut [u64], calls: &[u8], out: &mut [u8]) -> u64 {
    unsafe { marlbrace_run(pool.as_mut_ptr(), pool.len(), rows.as_mut_ptr(), rows.len(), calls.as_ptr(), calls.len(), out.as_mut_ptr(), out.len()) }
}

/// So many numbers of a tail, from one on; 0 where it has none.
pub fn numbers(tail: &[u8], from: usize, count: usize) -> Vec<u32> {
    (from..from + count).map(|k| (0..4).map(|j| (*tail.get(4 * k + j).unwrap_or(&0) as u32) << (8 * j)).sum()).collect()
}

/// The two words of an address.
pub fn words(a: u128) -> [u64; 2] {
    [(a >> 64) as u64, a as u64]
}
