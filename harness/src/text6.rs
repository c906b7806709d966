//! IPv6 lines for the model: read by RFC 4291 section 2.2, written by RFC 5952 section 4; and what Rust's standard library says of an address.
use crate::text4::{dec_octet, number_of};
use crate::wire::Net;
use std::net::Ipv6Addr;

/// The length: 0 to 128, and 0 alone begins with 0.
fn size(s: &[u8]) -> bool {
    matches!(s, [b'0'..=b'9'] | [b'1'..=b'9', b'0'..=b'9'] | [b'1', b'0' | b'1', b'0'..=b'9'] | [b'1', b'2', b'0'..=b'8'])
}

fn group(s: &str) -> Option<u16> {
    let digits = (1..=4).contains(&s.len()) && s.bytes().all(|b| b.is_ascii_hexdigit());
    if digits { u16::from_str_radix(s, 16).ok() } else { None }
}

/// Four decimal numbers as two groups.
fn quad(s: &str) -> Option<[u16; 2]> {
    let n: Vec<u64> = s.split('.').map(|p| number_of(p, dec_octet)).collect::<Option<_>>()?;
    if n.len() == 4 { Some([(n[0] * 256 + n[1]) as u16, (n[2] * 256 + n[3]) as u16]) } else { None }
}

/// The groups that colons join; a quad may stand for the last two.
fn groups(s: &str, last: bool) -> Option<Vec<u16>> {
    let mut all = vec![];
    if s.is_empty() {
        return Some(all);
    }
    let pieces: Vec<&str> = s.split(':').collect();
    for (k, p) in pieces.iter().enumerate() {
        if last && k + 1 == pieces.len() && p.contains('.') {
            all.extend(quad(p)?);
        } else {
            all.push(group(p)?);
        }
    }
    Some(all)
}

fn address(s: &str) -> Option<u128> {
    let all = match s.split("::").collect::<Vec<_>>()[..] {
        [whole] => groups(whole, true)?,
        [front, back] => {
            let (mut f, b) = (groups(front, false)?, groups(back, true)?);
            if f.len() + b.len() > 7 {
                return None;
            }
            f.resize(8 - b.len(), 0);
            [f, b].concat()
        }
        _ => return None,
    };
    if all.len() == 8 { Some(all.iter().fold(0, |x, &g| x << 16 | g as u128)) } else { None }
}

/// The numbers as the line has them.
pub fn read_line6(line: &[u8]) -> Option<Net> {
    let (a, n) = std::str::from_utf8(line).ok()?.split_once('/')?;
    let v = address(a)?;
    Some(Net { family: 6, hi: (v >> 64) as u64, lo: v as u64, len: number_of(n, size)? as u8 })
}

/// The one form of RFC 5952: of the runs of two or more zeros the longest is shortened, of equal ones the first.
pub fn text6(v: u128) -> String {
    let g: Vec<u16> = (0..8).map(|k| (v >> (112 - 16 * k)) as u16).collect();
    let run = |at: usize| g[at..].iter().take_while(|&&x| x == 0).count();
    let most = (0..8).map(run).max().unwrap();
    let joined = |part: &[u16]| part.iter().map(|x| format!("{x:x}")).collect::<Vec<_>>().join(":");
    if most < 2 {
        return joined(&g);
    }
    let at = (0..8).find(|&k| run(k) == most).unwrap();
    format!("{}::{}", joined(&g[..at]), joined(&g[at + most..]))
}

/// What the standard library says of a line's address, where that is another than what was read. Its length is judged by the rule above.
pub fn reading6(line: &[u8], read: Option<Net>) -> Option<String> {
    let parts = std::str::from_utf8(line).ok().and_then(|s| s.split_once('/'));
    let std = parts.and_then(|(a, n)| Some((number_of(n, size)? as u8, u128::from(a.parse::<Ipv6Addr>().ok()?))));
    let ours = read.map(|n| (n.len, (n.hi as u128) << 64 | n.lo as u128));
    (ours != std).then(|| format!("std::net reads {std:?}"))
}
