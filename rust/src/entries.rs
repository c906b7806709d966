//! Set files of networks that come in any order: their entries one behind the other, which [`right`] makes a right file of.
use crate::net::Row;
use crate::{ffi, IpNet, Refusal};

/// The most networks that a set can have: a list of m networks has at least 2m - 1 nodes, and a pool at most 4,194,304. A file has room for twice as many, so
/// for those that are left of the ones before and as many others.
const MOST: usize = 2_097_152;

const HEADER: usize = 16;

/// The right file of networks in any order, all of the family: what is inside another is left out, so the list is that of adding them one by one.
pub(crate) fn file_of(family: u8, nets: impl IntoIterator<Item = IpNet>) -> Result<Vec<u8>, Refusal> {
    let (mut file, mut nets) = (apart(family, vec![]), nets.into_iter());
    loop {
        let mut fresh: Vec<IpNet> = nets.by_ref().take(MOST).collect();
        if fresh.is_empty() {
            return Ok(file);
        }
        if fresh.iter().any(|net| net.family() != family) {
            return Err(Refusal::WrongFamily);
        }
        // in order they are salvaged in half the time; what comes out is the same
        fresh.sort_unstable();
        fresh.iter().for_each(|net| push(&mut file, &net.row()));
        file = right(&file)?;
    }
}

/// The right file of networks of the family of which none is inside another.
pub(crate) fn apart(family: u8, mut nets: Vec<IpNet>) -> Vec<u8> {
    nets.sort_unstable();
    let header = [family as u32, nets.len() as u32, HEADER as u32, bytes(family, nets.len()) as u32];
    let mut file: Vec<u8> = header.iter().flat_map(|number| number.to_be_bytes()).collect();
    nets.iter().for_each(|net| push(&mut file, &net.row()));
    file
}

/// How many whole entries the bytes of a file have.
pub(crate) fn count(family: u8, file: &[u8]) -> usize {
    file.len().saturating_sub(HEADER) / size(family)
}

/// How many bytes an entry has: the address and the length.
fn size(family: u8) -> usize {
    if family == 4 {
        5
    } else {
        17
    }
}

/// How many bytes a file of so many entries has.
pub(crate) fn bytes(family: u8, entries: usize) -> usize {
    HEADER + size(family) * entries
}

fn push(file: &mut Vec<u8>, n: &Row) {
    let address = n.address().to_be_bytes();
    file.extend_from_slice(&address[17 - size(n.family)..]);
    file.push(n.len);
}

/// The right file of entries in any order. Beyond what any set can have it is refused as the set would be.
fn right(file: &[u8]) -> Result<Vec<u8>, Refusal> {
    let (out, _) = ffi::salvage(file)?;
    if count(file[3], &out) > MOST {
        return Err(Refusal::OverLimit);
    }
    Ok(out)
}

#[cfg(test)]
mod tests {
    use super::*;

    #[test]
    fn disorder_and_networks_inside_others() {
        let nets = ["10.1.0.0/16", "192.168.0.0/24", "10.0.0.0/8", "10.0.0.0/9", "9.0.0.0/8", "10.0.0.0/8"].map(|line| line.parse().unwrap());
        let file = file_of(4, nets).unwrap();
        assert_eq!(file, [0, 0, 0, 4, 0, 0, 0, 3, 0, 0, 0, 16, 0, 0, 0, 31, 9, 0, 0, 0, 8, 10, 0, 0, 0, 8, 192, 168, 0, 0, 24]);
        assert_eq!((count(4, &file), bytes(4, 3)), (3, 31));
        assert_eq!(right(&file), Ok(file));
        assert_eq!((file_of(4, []), file_of(4, nets[4..].to_vec())), (Ok(apart(4, vec![])), Ok(apart(4, vec![nets[5], nets[4]]))));
    }

    #[test]
    fn the_whole_space_alone() {
        let all = IpNet::new(std::net::Ipv6Addr::UNSPECIFIED, 0).unwrap();
        let last = IpNet::from(std::net::Ipv6Addr::from(u128::MAX));
        let file = file_of(6, [last, all]).unwrap();
        assert_eq!((count(6, &file), file.len(), file[32]), (1, 33, 0));
        assert_eq!(file_of(4, [all]), Err(Refusal::WrongFamily));
    }
}
