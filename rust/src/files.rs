use crate::{ffi, Refusal};
use std::net::IpAddr;

/// What [`compare`] finds.
#[derive(Clone, Copy, Debug, PartialEq, Eq)]
pub enum Compared {
    /// The same addresses, and the second file is the shortest list of them.
    Shortest,
    /// The same addresses, but there is a shorter list than the second file.
    Same,
    /// Different addresses: the smallest on which they differ is in the first file alone.
    First(IpAddr),
    /// The smallest on which they differ is in the second file alone.
    Second(IpAddr),
}

/// Whether two set files of one family cover the same addresses. Neither needs a pool.
///
/// ```
/// # use marlbrace::{compare, Compared, IpRange, Refusal};
/// # fn main() -> Result<(), Refusal> {
/// let file = |lines: &[&str]| -> Result<Vec<u8>, Refusal> {
///     let mut set = IpRange::new();
///     lines.iter().try_for_each(|line| set.add(line.parse()?))?;
///     Ok(set.to_vec())
/// };
/// let (halves, block) = (file(&["10.0.0.0/9", "10.128.0.0/9"])?, file(&["10.0.0.0/8"])?);
/// assert_eq!(compare(&halves, &block)?, Compared::Shortest);
/// assert_eq!(compare(&block, &halves)?, Compared::Same);
/// assert_eq!(compare(&block, &file(&["10.0.0.0/9"])?)?, Compared::First([10, 128, 0, 0].into()));
/// # Ok(())
/// # }
/// ```
pub fn compare(first: &[u8], second: &[u8]) -> Result<Compared, Refusal> {
    let (found, row) = ffi::compare(first, second)?;
    Ok(match found {
        1 => Compared::First(row.net().addr()),
        2 => Compared::Second(row.net().addr()),
        3 => Compared::Same,
        _ => Compared::Shortest,
    })
}

/// What [`salvage`] leaves of a file, and how many of its entries were read, trimmed, and dropped.
#[derive(Clone, Debug, PartialEq, Eq)]
pub struct Salvaged {
    /// The right file.
    pub file: Vec<u8>,
    /// The whole entries of the wrecked one.
    pub read: u64,
    /// Those with a set bit past their length, which was cut.
    pub trimmed: u64,
    /// Those dropped for a length out of range.
    pub long: u64,
    /// Those dropped as covered by others.
    pub covered: u64,
}

/// The right set file of what is left of a wrecked one, such as scripts leave behind: its family and its whole entries from byte 16 on count, whatever else its
/// header says. The addresses covered stay the same, and a right file comes out unchanged. Refused BadFile where there is no family, or more than 4,194,304
/// entries.
///
/// ```
/// # use marlbrace::{salvage, IpRange};
/// # fn main() -> Result<(), marlbrace::Refusal> {
/// // 10.9.8.7/8 and 10.1.0.0/16, behind a header that says nothing but the family
/// let wreck = [0, 0, 0, 4, 0, 0, 0, 0, 0, 0, 0, 0, 0, 0, 0, 0, 10, 9, 8, 7, 8, 10, 1, 0, 0, 16];
/// let found = salvage(&wreck)?;
/// assert_eq!((found.read, found.trimmed, found.long, found.covered), (2, 1, 0, 1));
/// assert_eq!(IpRange::from_bytes(&found.file)?.iter().next(), Some("10.0.0.0/8".parse()?));
/// # Ok(())
/// # }
/// ```
pub fn salvage(file: &[u8]) -> Result<Salvaged, Refusal> {
    let (file, [read, trimmed, long, covered]) = ffi::salvage(file)?;
    Ok(Salvaged { file, read, trimmed, long, covered })
}
