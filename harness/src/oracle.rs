//! The Rust crate iprange beside the model: one IpRange for each set, changed by each granted call.
use crate::layout::State;
use crate::files::{read_file, read_lines};
use crate::lists::{past, width, List, Member};
use crate::many::last;
use crate::model::address;
use crate::runs::cut;
use crate::salvage::entries;
use crate::text4::read_either;
use crate::wire::*;
use ipnet::{Ipv4Net, Ipv4Subnets, Ipv6Net, Ipv6Subnets};
use iprange::{IpNet, IpRange};

/// A network of one family, to and from length and address.
pub trait Numbers: IpNet {
    fn of(m: Member) -> Self;
    fn member(&self) -> Member;
    /// The fewest networks from the first address to the last, which are not all, by ipnet. Later versions of it take one address less for all where no least
    /// length is given.
    fn between(first: Member, last: Member) -> Vec<Self>;
}

impl Numbers for Ipv4Net {
    fn of(m: Member) -> Self {
        Ipv4Net::new((m.1 as u32).into(), m.0).unwrap()
    }
    fn member(&self) -> Member {
        (self.prefix_len(), u32::from(self.addr()) as u128)
    }
    fn between(first: Member, last: Member) -> Vec<Self> {
        Ipv4Subnets::new(Self::of(first).addr(), Self::of(last).addr(), 1).collect()
    }
}

impl Numbers for Ipv6Net {
    fn of(m: Member) -> Self {
        Ipv6Net::new(m.1.into(), m.0).unwrap()
    }
    fn member(&self) -> Member {
        (self.prefix_len(), u128::from(self.addr()))
    }
    fn between(first: Member, last: Member) -> Vec<Self> {
        Ipv6Subnets::new(Self::of(first).addr(), Self::of(last).addr(), 1).collect()
    }
}

/// What ipnet says of a line, where that is another than what was read. It reads numbers with a leading zero too: only there it may read more.
pub fn reading(line: &[u8], read: Option<Net>) -> Option<String> {
    let ipnet = std::str::from_utf8(line).ok().and_then(|s| s.parse::<Ipv4Net>().ok()).map(|n| n.member());
    let ours = read.map(|n| (n.len, address(&n)));
    let zeros = line.split(|b| !b.is_ascii_digit()).any(|n| n.len() > 1 && n[0] == b'0');
    (ours != ipnet && !(ours.is_none() && zeros)).then(|| format!("ipnet reads {ipnet:?}"))
}

/// The members one after the other; `collect` would simplify.
pub fn ranges<N: Numbers + Clone>(l: &List) -> IpRange<N> {
    let mut r = IpRange::new();
    l.iter().for_each(|&m| {
        r.add(N::of(m));
    });
    r
}

/// What iprange says of two files that were compared, where that is another than the answer: whether they are equal simplified, whether the second is left by that, and which holds the address.
pub fn sides(c: &Call, a: &Answer) -> Option<String> {
    fn wrong<N: Numbers + Clone + PartialEq>(l: &List, m: &List, a: &Answer) -> bool {
        let (x, y) = (ranges::<N>(l), ranges::<N>(m));
        let (mut u, mut v) = (x.clone(), y.clone());
        u.simplify();
        v.simplify();
        let n = || N::of((a.net.len, address(&a.net)));
        match a.x {
            1 | 2 => u == v || x.contains(&n()) != (a.x == 1) || y.contains(&n()) != (a.x == 2),
            _ => u != v || (y == v) != (a.x == 4),
        }
    }
    let (first, second) = c.tail.split_at(cut(c));
    let ((f, l), (g, m)) = (read_file(first)?, read_file(second)?);
    let differs = f == g && if f == 4 { wrong::<Ipv4Net>(&l, &m, a) } else { wrong::<Ipv6Net>(&l, &m, a) };
    differs.then(|| "iprange says otherwise".to_string())
}

/// What iprange has of the entries of a wreck, added one by one, where that is another list than the one that was written.
pub fn left(c: &Call, a: &Answer) -> Option<String> {
    fn same<N: Numbers>(all: &[Member], l: &List) -> bool {
        let mut r = IpRange::new();
        all.iter().for_each(|&m| {
            r.add(N::of(m));
        });
        r.iter().map(|m: N| m.member()).eq(l.iter().copied())
    }
    let (f, mut all) = entries(&c.tail).filter(|_| a.no == 0)?;
    all.retain(|m| m.0 <= width(f));
    let right = read_file(&a.tail[..a.x as usize]).is_some_and(|(g, l)| f == g && if f == 4 { same::<Ipv4Net>(&all, &l) } else { same::<Ipv6Net>(&all, &l) });
    (!right).then(|| "iprange has another list".to_string())
}

/// The networks of a range. Of all addresses ipnet would give the two halves.
fn between<N: Numbers>(c: &Call) -> Vec<N> {
    let (w, a, b) = (width(c.net.family), address(&c.net), address(&last(c)));
    if (a, b) == (0, past(w, 0)) { vec![N::of((0, 0))] } else { N::between((w, a), (w, b)) }
}

pub struct Ranges<N: Numbers>(Vec<IpRange<N>>);

pub enum Oracle {
    Four(Ranges<Ipv4Net>),
    Six(Ranges<Ipv6Net>),
}

impl Oracle {
    pub fn new(family: u8, sets: usize) -> Oracle {
        if family == 4 { Oracle::Four(Ranges::new(sets)) } else { Oracle::Six(Ranges::new(sets)) }
    }

    /// Follows a granted call, and the lines that were added before one was refused; what it says beside the answer, where the two differ.
    pub fn follow(&mut self, c: &Call, a: &Answer) -> Option<String> {
        match self {
            Oracle::Four(r) => r.follow(c, a),
            Oracle::Six(r) => r.follow(c, a),
        }
    }

    /// Where a list of the state is another than that of the IpRange.
    pub fn differs(&self, s: &State) -> Option<String> {
        match self {
            Oracle::Four(r) => r.differs(s),
            Oracle::Six(r) => r.differs(s),
        }
    }
}

impl<N: Numbers + Clone> Ranges<N> {
    fn new(sets: usize) -> Self {
        Ranges((0..sets).map(|_| IpRange::new()).collect())
    }

    fn follow(&mut self, c: &Call, a: &Answer) -> Option<String> {
        let (i, j, k) = (c.a as usize, c.b as usize, c.c as usize);
        let n = || N::of((c.net.len, address(&c.net)));
        let said = |b: bool| (b as u8 != a.flag).then(|| format!("iprange says {b}"));
        // by ipnet's trunc
        let cut = || (n().to_network().member() != n().member()) as u32;
        if matches!(c.code, CONTAINS | SUPERNET | ADD | REMOVE) && cut() != a.y {
            return Some(format!("ipnet cuts a bit: {}", cut()));
        }
        match c.code {
            ADD => {
                self.0[i].add(n());
            }
            REMOVE => {
                self.0[i].remove(n());
            }
            SIMPLIFY => self.0[i].simplify(),
            MERGE => self.0[i] = self.0[j].merge(&self.0[k]),
            INTERSECT => self.0[i] = self.0[j].intersect(&self.0[k]),
            EXCLUDE_APART => self.0[i] = self.0[j].exclude(&self.0[k]),
            EXCLUDE => {
                self.0[i] = self.0[j].exclude(&self.0[k]);
                self.0[i].simplify();
            }
            LOAD => self.0[i] = ranges(&read_file(&c.tail).unwrap().1),
            // one by one from the last, as the model begins with the first
            ADD_FILE => read_file(&c.tail).unwrap().1.into_iter().rev().for_each(|m| _ = self.0[i].add(N::of(m))),
            REMOVE_FILE => read_file(&c.tail).unwrap().1.into_iter().rev().for_each(|m| _ = self.0[i].remove(N::of(m))),
            ADD_RANGE => between::<N>(c).into_iter().rev().for_each(|n| _ = self.0[i].add(n)),
            LINES => {
                for line in &read_lines(&c.tail)[..a.x as usize - 1] {
                    let m = read_either(line).unwrap();
                    self.0[0].add(N::of((m.len, address(&m))));
                }
            }
            CONTAINS => return said(self.0[i].contains(&n())),
            IS_EMPTY => return said(self.0[i].is_empty()),
            EQUAL => return said(self.0[i] == self.0[j]),
            SUPERNET => {
                let m = self.0[i].supernet(&n()).map(|m| m.member());
                let b = (a.flag == 1).then(|| (a.net.len, address(&a.net)));
                return (m != b).then(|| format!("iprange says {m:?}"));
            }
            _ => {}
        }
        None
    }

    fn differs(&self, s: &State) -> Option<String> {
        for (k, set) in s.sets.iter().enumerate() {
            let order: Vec<Member> = self.0[k].iter().map(|m| m.member()).collect();
            let list: List = order.iter().copied().collect();
            if list != set.list || !order.iter().eq(set.list.iter()) {
                return Some(format!("set {k}: iprange lists {order:?}"));
            }
        }
        None
    }
}
