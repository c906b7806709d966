//! IPv4 text, by document 01 and M-101, and a line of either family.
use crate::text6::read_line6;
use crate::wire::Net;

/// `dec-octet` of RFC 3986, section 3.2.2, alternative by alternative.
pub fn dec_octet(s: &[u8]) -> bool {
    matches!(
        s,
        [b'0'..=b'9']
            | [b'1'..=b'9', b'0'..=b'9']
            | [b'1', b'0'..=b'9', b'0'..=b'9']
            | [b'2', b'0'..=b'4', b'0'..=b'9']
            | [b'2', b'5', b'0'..=b'5']
    )
}

/// The length: 0 to 32, and 0 alone begins with 0.
fn size(s: &[u8]) -> bool {
    matches!(s, [b'0'..=b'9'] | [b'1' | b'2', b'0'..=b'9'] | [b'3', b'0'..=b'2'])
}

/// The number of digits that follow the rule.
pub fn number_of(s: &str, rule: fn(&[u8]) -> bool) -> Option<u64> {
    if rule(s.as_bytes()) { s.parse().ok() } else { None }
}

/// The numbers as the line has them.
pub fn read_line(line: &[u8]) -> Option<Net> {
    let (a, n) = std::str::from_utf8(line).ok()?.split_once('/')?;
    let parts: Vec<u64> = a.split('.').map(|p| number_of(p, dec_octet)).collect::<Option<_>>()?;
    if parts.len() != 4 {
        return None;
    }
    let lo = parts.iter().fold(0, |x, &p| x * 256 + p);
    Some(Net { family: 4, hi: 0, lo, len: number_of(n, size)? as u8 })
}

/// The numbers of a line of either family.
pub fn read_either(line: &[u8]) -> Option<Net> {
    read_line(line).or_else(|| read_line6(line))
}

/// The four numbers of an address.
pub fn text4(v: u128) -> String {
    format!("{}.{}.{}.{}", v >> 24 & 255, v >> 16 & 255, v >> 8 & 255, v & 255)
}
