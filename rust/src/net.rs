use crate::{ffi, Refusal};
use std::fmt;
use std::net::{IpAddr, Ipv4Addr, Ipv6Addr};
use std::str::FromStr;

/// How many bytes the line of any network fits in.
pub const LINE: usize = 64;

/// A network of either family: an address and how many of its leading bits count. Made by [`IpNet::new`], from an address (a network of that address alone),
/// or from text.
///
/// ```
/// use marlbrace::IpNet;
/// let net: IpNet = "10.9.8.7/8".parse().unwrap();
/// assert_eq!(net.to_string(), "10.0.0.0/8"); // bits past the length are cleared
/// assert!("010.0.0.0/8".parse::<IpNet>().is_err()); // other tools take 010 for 8
/// ```
#[derive(Clone, Copy, PartialEq, Eq, Hash, PartialOrd, Ord)]
pub struct IpNet {
    prefix_len: u8,
    addr: IpAddr,
}

impl IpNet {
    /// A network; bits of the address past the length are cleared. Refused where the length is above 32 or 128.
    pub fn new(addr: impl Into<IpAddr>, prefix_len: u8) -> Result<IpNet, Refusal> {
        let addr = addr.into();
        if prefix_len > IpNet::from(addr).prefix_len {
            return Err(Refusal::BadNetwork);
        }
        let row = Row::of(addr, prefix_len);
        let past = (width(row.family) - prefix_len) as u32;
        let cleared = row.address().checked_shr(past).map_or(0, |kept| kept << past);
        Ok(Row::at(row.family, cleared, prefix_len).net())
    }

    /// The first address.
    pub fn addr(self) -> IpAddr {
        self.addr
    }

    /// The first address, by ipnet's name.
    pub fn network(self) -> IpAddr {
        self.addr
    }

    /// The last address.
    ///
    /// ```
    /// # use marlbrace::IpNet;
    /// let net: IpNet = "10.9.8.7/8".parse().unwrap();
    /// assert_eq!((net.network().to_string(), net.broadcast().to_string()), ("10.0.0.0".to_string(), "10.255.255.255".to_string()));
    /// ```
    pub fn broadcast(self) -> IpAddr {
        let Row { family, len, .. } = self.row();
        let past = 1u128.checked_shl((width(family) - len) as u32).unwrap_or(0).wrapping_sub(1);
        Row::at(family, self.row().address() | past, len).net().addr
    }

    /// How many leading bits count.
    pub fn prefix_len(self) -> u8 {
        self.prefix_len
    }

    /// How many bits an address of its family has.
    pub fn max_prefix_len(self) -> u8 {
        width(self.family())
    }

    /// 4 or 6.
    pub fn family(self) -> u8 {
        if self.addr.is_ipv4() {
            4
        } else {
            6
        }
    }

    /// Whether the whole other network lies in it.
    pub fn contains(self, other: IpNet) -> bool {
        let (a, b) = (self.row(), other.row());
        a.family == b.family && a.len <= b.len && (a.address() ^ b.address()).checked_shr((width(a.family) - a.len) as u32).unwrap_or(0) == 0
    }

    /// All addresses of a family.
    pub(crate) fn all(family: u8) -> IpNet {
        Row { family, hi: 0, lo: 0, len: 0 }.net()
    }

    /// Its halves, where it has more than one address.
    pub(crate) fn halves(self) -> Option<[IpNet; 2]> {
        let Row { family, len, .. } = self.row();
        let bit = 1u128.checked_shl((width(family) - len) as u32 - 1).filter(|_| len < width(family))?;
        Some([0, bit].map(|bit| Row::at(family, self.row().address() | bit, len + 1).net()))
    }

    /// The network of a line without its end, and whether a set bit past its length was cut.
    pub fn read_line(line: &[u8]) -> Result<(IpNet, bool), Refusal> {
        ffi::read_line(line).map(|(row, trimmed)| (row.net(), trimmed))
    }

    /// The first and the last address of a line as `10.0.0.1-10.0.0.6`, without its end. Refused BadText where there are no two addresses, WrongFamily where
    /// they are of two families, and BadRange where the first is above the last.
    ///
    /// ```
    /// # use marlbrace::{IpNet, Refusal};
    /// assert_eq!(IpNet::read_range(b"10.0.0.1-10.0.0.6"), Ok(([10, 0, 0, 1].into(), [10, 0, 0, 6].into())));
    /// assert_eq!(IpNet::read_range(b"10.0.0.6-10.0.0.1"), Err(Refusal::BadRange));
    /// ```
    pub fn read_range(line: &[u8]) -> Result<(IpAddr, IpAddr), Refusal> {
        let at = line.iter().position(|&byte| byte == b'-').ok_or(Refusal::BadText)?;
        let (first, last) = (address(&line[..at])?, address(&line[at + 1..])?);
        if first.is_ipv4() != last.is_ipv4() {
            Err(Refusal::WrongFamily)
        } else if first > last {
            Err(Refusal::BadRange)
        } else {
            Ok((first, last))
        }
    }

    /// Its line, without an end, in front of the bytes that are lent; [`LINE`] are enough for any.
    pub fn write_line(self, out: &mut [u8]) -> Result<&[u8], Refusal> {
        let written = ffi::write_line(&self.row(), out)?;
        Ok(&out[..written])
    }

    pub(crate) fn row(self) -> Row {
        Row::of(self.addr, self.prefix_len)
    }
}

/// The address of a text, read as the network of it alone.
fn address(text: &[u8]) -> Result<IpAddr, Refusal> {
    let len: &[u8] = if text.contains(&b':') { b"/128" } else { b"/32" };
    IpNet::read_line(&[text, len].concat()).map(|(net, _)| net.addr())
}

/// A network as the calls have it.
#[derive(Clone, Copy)]
pub(crate) struct Row {
    pub family: u8,
    pub hi: u64,
    pub lo: u64,
    pub len: u8,
}

fn width(family: u8) -> u8 {
    if family == 4 {
        32
    } else {
        128
    }
}

impl Row {
    fn of(addr: IpAddr, len: u8) -> Row {
        match addr {
            IpAddr::V4(a) => Row::at(4, u32::from(a) as u128, len),
            IpAddr::V6(a) => Row::at(6, u128::from(a), len),
        }
    }

    pub fn at(family: u8, address: u128, len: u8) -> Row {
        Row { family, hi: (address >> 64) as u64, lo: address as u64, len }
    }

    pub fn address(&self) -> u128 {
        (self.hi as u128) << 64 | self.lo as u128
    }

    pub fn net(&self) -> IpNet {
        let addr = if self.family == 4 { IpAddr::V4(Ipv4Addr::from(self.lo as u32)) } else { IpAddr::V6(Ipv6Addr::from(self.address())) };
        IpNet { prefix_len: self.len, addr }
    }
}

impl<A: Into<IpAddr>> From<A> for IpNet {
    fn from(addr: A) -> IpNet {
        let addr = addr.into();
        IpNet { prefix_len: width(if addr.is_ipv4() { 4 } else { 6 }), addr }
    }
}

impl FromStr for IpNet {
    type Err = Refusal;
    fn from_str(line: &str) -> Result<IpNet, Refusal> {
        IpNet::read_line(line.as_bytes()).map(|(net, _)| net)
    }
}

/// The form of which there is one for each network.
impl fmt::Display for IpNet {
    fn fmt(&self, f: &mut fmt::Formatter) -> fmt::Result {
        let mut line = [0; LINE];
        let written = self.write_line(&mut line).map_err(|_| fmt::Error)?;
        f.pad(std::str::from_utf8(written).map_err(|_| fmt::Error)?)
    }
}

impl fmt::Debug for IpNet {
    fn fmt(&self, f: &mut fmt::Formatter) -> fmt::Result {
        fmt::Display::fmt(self, f)
    }
}

#[cfg(test)]
mod tests {
    use super::*;

    #[test]
    fn bits_past_the_length_are_cleared() {
        for len in 0..=128 {
            let kept = if len == 0 { 0 } else { u128::MAX << (128 - len) };
            let net = IpNet::new(Ipv6Addr::from(u128::MAX), len).unwrap();
            assert_eq!((net.addr(), net.broadcast()), (Ipv6Addr::from(kept).into(), Ipv6Addr::from(u128::MAX).into()));
        }
        for len in 0..=32 {
            let kept = if len == 0 { 0 } else { u32::MAX << (32 - len) };
            let net = IpNet::new(Ipv4Addr::BROADCAST, len).unwrap();
            assert_eq!((net.addr(), net.broadcast()), (Ipv4Addr::from(kept).into(), Ipv4Addr::BROADCAST.into()));
        }
        assert_eq!((IpNet::new(Ipv4Addr::BROADCAST, 33), IpNet::new(Ipv6Addr::LOCALHOST, 129)), (Err(Refusal::BadNetwork), Err(Refusal::BadNetwork)));
    }

    #[test]
    fn halves_and_what_lies_in_a_network() {
        let net = |line: &str| line.parse::<IpNet>().unwrap();
        assert_eq!(net("10.0.0.0/8").halves(), Some([net("10.0.0.0/9"), net("10.128.0.0/9")]));
        assert_eq!(net("1.2.3.4/31").halves(), Some([net("1.2.3.4/32"), net("1.2.3.5/32")]));
        assert_eq!((net("1.2.3.4/32").halves(), IpNet::from(Ipv6Addr::LOCALHOST).halves()), (None, None));
        let [low, high] = IpNet::all(6).halves().unwrap();
        assert_eq!((low, high), (IpNet::new(Ipv6Addr::UNSPECIFIED, 1).unwrap(), IpNet::new(Ipv6Addr::from(1 << 127), 1).unwrap()));
        assert!(low.contains(Ipv6Addr::LOCALHOST.into()) && !high.contains(Ipv6Addr::LOCALHOST.into()) && IpNet::all(6).contains(low));
        assert!(net("10.0.0.0/8").contains(net("10.0.0.0/8")) && !net("10.0.0.0/9").contains(net("10.0.0.0/8")) && !IpNet::all(4).contains(low));
    }

    #[test]
    fn networks_are_in_the_order_of_a_list() {
        let [a, b, c] = ["9.0.0.0/8", "10.0.0.0/8", "1.0.0.0/9"].map(|line| line.parse::<IpNet>().unwrap());
        assert!(a < b && b < c);
        assert_eq!(IpNet::from(Ipv4Addr::LOCALHOST).to_string(), "127.0.0.1/32");
    }
}
