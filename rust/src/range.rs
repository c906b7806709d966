use crate::room::{one_set, usual_nodes, with_room, FEW};
use crate::{entries, Form, IpNet, Plan, Pool, Refusal};
use std::fmt;
use std::net::IpAddr;

/// One set of networks of one family, in a pool of its own that grows as it needs to, with the names of the crate iprange.
///
/// ```
/// use marlbrace::{IpNet, IpRange};
///
/// # fn main() -> Result<(), marlbrace::Refusal> {
/// let guests: IpRange = ["192.168.1.0/24", "10.9.8.7/8", "192.168.0.0/24"].iter().map(|line| line.parse::<IpNet>()).collect::<Result<_, _>>()?;
/// let closed: IpRange = ["10.0.0.0/9".parse::<IpNet>()?].into_iter().collect();
/// let open = guests.exclude(&closed)?;
/// let lines: Vec<String> = open.iter().map(|net| net.to_string()).collect();
/// assert_eq!(lines, ["10.128.0.0/9", "192.168.0.0/23"]);
/// assert!(open.contains("192.168.1.7/32".parse()?));
/// # Ok(())
/// # }
/// ```
///
/// A set has at most 2,097,152 networks, whatever they are. It begins in the first form and goes on in the second, which is slower, where it would have more
/// than 4,194,304 nodes in the first ([`IpRange::form`], [`IpRange::nodes`]): about 280,000 single addresses far apart, or 2,097,152 networks side by side, are
/// still in the first. What would have more networks is refused with [`Refusal::OverLimit`] or [`Refusal::NoRoom`], and nothing has changed. `collect` and
/// `extend` have no way to say so and panic; [`IpRange::try_from_iter`] and [`IpRange::try_extend`] answer it.
///
/// An empty set has either family: it takes that of the first network. Where two families meet the call is refused with [`Refusal::WrongFamily`].
#[derive(Clone)]
pub struct IpRange {
    pool: Pool,
}

impl IpRange {
    /// An empty set.
    pub fn new() -> IpRange {
        IpRange { pool: one_set(Form::First, 4, FEW).expect("a layout within the rules") }
    }

    /// Adds a network: where no member contains it, the members inside it go and it joins. Each call checks the whole set; many networks are better added by
    /// [`IpRange::try_extend`], all at once.
    pub fn add(&mut self, net: IpNet) -> Result<(), Refusal> {
        if net.family() != self.family() && self.is_empty() {
            self.pool = one_set(Form::First, net.family(), FEW)?;
        }
        self.change(0, |pool| pool.set_mut(0).add(net))
    }

    /// Adds the addresses from the first to the last: the fewest networks that have exactly these.
    ///
    /// ```
    /// # use marlbrace::{IpRange, Refusal};
    /// # fn main() -> Result<(), Box<dyn std::error::Error>> {
    /// let mut set = IpRange::new();
    /// set.add_range("10.0.0.0".parse()?, "10.0.2.255".parse()?)?;
    /// set.add("10.0.3.0/24".parse()?)?;
    /// let lines: Vec<String> = set.iter().map(|net| net.to_string()).collect();
    /// assert_eq!(lines, ["10.0.0.0/23", "10.0.2.0/24", "10.0.3.0/24"]);
    /// assert_eq!(set.ranges(), [("10.0.0.0".parse()?, "10.0.3.255".parse()?)]);
    /// assert_eq!(set.add_range("10.0.0.2".parse()?, "10.0.0.1".parse()?), Err(Refusal::BadRange));
    /// # Ok(())
    /// # }
    /// ```
    pub fn add_range(&mut self, first: IpAddr, last: IpAddr) -> Result<(), Refusal> {
        let one = IpNet::from(first);
        // two ways down to its ends, and a block beside each of their nodes
        let nodes = 4 * one.max_prefix_len() as u32;
        if one.family() == self.family() || !self.is_empty() {
            return self.change(nodes as u64, |pool| pool.set_mut(0).add_range(first, last));
        }
        let mut other = IpRange { pool: one_set(Form::First, one.family(), nodes)? };
        other.add_range(first, last)?;
        *self = other;
        Ok(())
    }

    /// Removes a network: the members inside it go, and one that contains it gives way to the blocks beside it.
    ///
    /// ```
    /// # use marlbrace::IpRange;
    /// # fn main() -> Result<(), marlbrace::Refusal> {
    /// let mut all = IpRange::new();
    /// all.add("0.0.0.0/0".parse()?)?;
    /// all.remove("0.0.0.0/1".parse()?)?;
    /// assert_eq!(all.iter().next(), Some("128.0.0.0/1".parse()?));
    /// # Ok(())
    /// # }
    /// ```
    pub fn remove(&mut self, net: IpNet) -> Result<(), Refusal> {
        if net.family() != self.family() && self.is_empty() {
            return Ok(());
        }
        self.change(0, |pool| pool.set_mut(0).remove(net))
    }

    /// Joins the halves of each block: afterwards the set has the shortest list of the same addresses.
    pub fn simplify(&mut self) {
        self.pool.set_mut(0).simplify().expect(SOUND);
    }

    /// Whether a member contains the whole network. Two halves do not contain their block until they are simplified.
    pub fn contains(&self, net: IpNet) -> bool {
        net.family() == self.family() && self.pool.set(0).contains(net).expect(SOUND)
    }

    /// The same of many networks, which is faster than asking for each. One of another family is in no member.
    ///
    /// ```
    /// # use marlbrace::{IpNet, IpRange};
    /// # fn main() -> Result<(), marlbrace::Refusal> {
    /// let set: IpRange = ["10.0.0.0/8".parse::<IpNet>()?].into_iter().collect();
    /// assert_eq!(set.contains_all(&["10.1.2.3/32".parse()?, "::1/128".parse()?, "11.0.0.0/8".parse()?]), [true, false, false]);
    /// # Ok(())
    /// # }
    /// ```
    pub fn contains_all(&self, nets: &[IpNet]) -> Vec<bool> {
        let ours = |net: &IpNet| net.family() == self.family();
        let asked: Vec<IpNet> = nets.iter().copied().filter(ours).collect();
        let mut answers = self.pool.set(0).contains_all(&asked).expect(SOUND).into_iter();
        nets.iter().map(|net| ours(net) && answers.next() == Some(true)).collect()
    }

    /// The member that contains the whole network.
    pub fn supernet(&self, net: IpNet) -> Option<IpNet> {
        if net.family() != self.family() {
            return None;
        }
        self.pool.set(0).supernet(net).expect(SOUND)
    }

    /// What either set has, simplified.
    pub fn merge(&self, other: &IpRange) -> Result<IpRange, Refusal> {
        if self.is_empty() || other.is_empty() {
            return Ok(if self.is_empty() { other } else { self }.clone().simplified());
        }
        self.combine_parts(other, IpNet::all(self.family()), |pool| pool.merge(0, 1, 2))
    }

    /// What both sets have, simplified.
    pub fn intersect(&self, other: &IpRange) -> Result<IpRange, Refusal> {
        self.combine_parts(other, IpNet::all(self.family()), |pool| pool.intersect(0, 1, 2))
    }

    /// What this set has and the other has not, simplified.
    pub fn exclude(&self, other: &IpRange) -> Result<IpRange, Refusal> {
        self.combine_parts(other, IpNet::all(self.family()), |pool| pool.exclude(0, 1, 2))
    }

    /// The same with the members left apart, as iprange's `exclude` does. Here both sets and the result have to fit in one pool, of 4,194,304 nodes, in the
    /// second form where they do not fit in the first.
    pub fn exclude_apart(&self, other: &IpRange) -> Result<IpRange, Refusal> {
        self.combine(other, |pool| pool.exclude_apart(0, 1, 2))
    }

    /// Its networks, the shorter lengths first, then by address.
    pub fn iter(&self) -> std::vec::IntoIter<IpNet> {
        self.pool.set(0).iter().expect(SOUND)
    }

    /// The fewest ranges of its addresses, each as first and last address: ascending, and no two of them meet or touch.
    pub fn ranges(&self) -> Vec<(IpAddr, IpAddr)> {
        self.pool.set(0).ranges().expect(SOUND)
    }

    /// Whether it has no network.
    pub fn is_empty(&self) -> bool {
        self.pool.set(0).is_empty().expect(SOUND)
    }

    /// How many networks it has.
    pub fn len(&self) -> u32 {
        self.pool.set(0).len().expect(SOUND)
    }

    /// The form that it is kept in: the first, or the second since it once did not fit in the first.
    pub fn form(&self) -> Form {
        self.pool.form()
    }

    /// How many nodes its list takes in the form that it has: in the first the different strings of leading bits of its networks, in the second one less than
    /// twice its networks, and none where it is empty.
    pub fn nodes(&self) -> u32 {
        self.pool.set(0).nodes().expect(SOUND)
    }

    /// 4 or 6. That of an empty set may change.
    pub fn family(&self) -> u8 {
        self.pool.family()
    }

    /// Its set file.
    pub fn to_vec(&self) -> Vec<u8> {
        self.pool.set(0).to_vec().expect(SOUND)
    }

    /// The set of a set file. The file is judged whole: bytes that break a rule are refused.
    pub fn from_bytes(file: &[u8]) -> Result<IpRange, Refusal> {
        let family = if file.get(3) == Some(&6) { 6 } else { 4 };
        with_room(Form::First, usual_nodes(family, entries::count(family, file)), |form, nodes| {
            let mut pool = one_set(form, family, nodes)?;
            pool.set_mut(0).from_bytes(file)?;
            Ok(IpRange { pool })
        })
    }

    /// The set of networks in any order, built at once and simplified, as iprange's `collect` does. An empty set that is extended takes them as they are.
    pub fn try_from_iter(nets: impl IntoIterator<Item = IpNet>) -> Result<IpRange, Refusal> {
        let mut set = IpRange::new();
        set.try_extend(nets)?;
        Ok(set.simplified())
    }

    /// Adds networks in any order, all or none: the list that adding them one by one gives, built at once.
    pub fn try_extend(&mut self, nets: impl IntoIterator<Item = IpNet>) -> Result<(), Refusal> {
        let mut nets = nets.into_iter().peekable();
        let Some(first) = nets.peek() else { return Ok(()) };
        let family = if self.is_empty() { first.family() } else { self.family() };
        self.add_file(&entries::file_of(family, nets)?)
    }

    /// Removes networks in any order, all or none: the list that removing them one by one gives, made at once.
    ///
    /// ```
    /// # use marlbrace::{IpNet, IpRange};
    /// # fn main() -> Result<(), marlbrace::Refusal> {
    /// let mut open: IpRange = ["10.0.0.0/8".parse::<IpNet>()?].into_iter().collect();
    /// open.remove_all(["10.128.0.0/9".parse()?, "10.0.0.0/10".parse()?])?;
    /// assert_eq!(open.iter().collect::<Vec<_>>(), ["10.64.0.0/10".parse()?]);
    /// # Ok(())
    /// # }
    /// ```
    pub fn remove_all(&mut self, nets: impl IntoIterator<Item = IpNet>) -> Result<(), Refusal> {
        if self.is_empty() {
            return Ok(());
        }
        self.remove_file(&entries::file_of(self.family(), nets)?)
    }

    /// Adds the networks of a set file, all or none.
    pub fn add_file(&mut self, file: &[u8]) -> Result<(), Refusal> {
        if self.is_empty() {
            *self = IpRange::from_bytes(file)?;
            return Ok(());
        }
        self.change(usual_nodes(self.family(), entries::count(self.family(), file)), |pool| pool.set_mut(0).add_file(file))
    }

    /// Removes the networks of a set file, all or none.
    pub fn remove_file(&mut self, file: &[u8]) -> Result<(), Refusal> {
        if self.is_empty() {
            return IpRange::from_bytes(file).map(|_| ());
        }
        self.change(usual_nodes(self.family(), entries::count(self.family(), file)), |pool| pool.set_mut(0).remove_file(file))
    }

    fn simplified(mut self) -> IpRange {
        self.simplify();
        self
    }

    /// Does a change, in a larger pool where it is refused for its nodes: with twice as many, or as many more as are asked for. In the second form it stays.
    fn change(&mut self, more: u64, call: impl Fn(&mut Pool) -> Result<u32, Refusal>) -> Result<(), Refusal> {
        match call(&mut self.pool) {
            Err(Refusal::OverLimit) => {
                let (family, file) = (self.family(), self.to_vec());
                self.pool = with_room(self.form(), self.nodes() as u64 + more.max(self.nodes() as u64), |form, nodes| {
                    let mut pool = one_set(form, family, nodes)?;
                    pool.set_mut(0).from_bytes(&file)?;
                    call(&mut pool)?;
                    Ok(pool)
                })?;
                Ok(())
            }
            done => done.map(|_| ()),
        }
    }

    /// Combines what the sets have in a block. Where that and the result are too much for one pool it is done for the halves of the block, and simplifying
    /// joins what they give.
    fn combine_parts(&self, other: &IpRange, block: IpNet, call: Call) -> Result<IpRange, Refusal> {
        match (self.combine(other, call), block.halves()) {
            (Err(Refusal::OverLimit | Refusal::NoRoom), Some(halves)) => {
                let mut nets = Vec::new();
                for half in halves {
                    nets.extend(&self.inside(half)?.combine_parts(&other.inside(half)?, half, call)?);
                }
                Ok(IpRange::from_bytes(&entries::apart(block.family(), nets))?.simplified())
            }
            (done, _) => done,
        }
    }

    /// What it has in a block.
    fn inside(&self, block: IpNet) -> Result<IpRange, Refusal> {
        let part = |net: IpNet| if net.contains(block) { Some(block) } else { block.contains(net).then_some(net) };
        IpRange::from_bytes(&entries::apart(block.family(), self.iter().filter_map(part).collect()))
    }

    /// Combines this set, number 1 of a pool, and the other, number 2, into number 0; in the second form from the start where one of them is in it.
    fn combine(&self, other: &IpRange, call: Call) -> Result<IpRange, Refusal> {
        let family = if self.is_empty() { other.family() } else { self.family() };
        let files = [self, other].map(|set| if set.is_empty() { entries::apart(family, vec![]) } else { set.to_vec() });
        let form = if self.form() == Form::First { other.form() } else { Form::Second };
        let nodes = 2 * self.nodes() as u64 + 3 * other.nodes() as u64;
        let result = with_room(form, nodes, |form, nodes| {
            let mut pool = Pool::new_in_form(form, family, nodes, &[Plan::new(0, nodes); 3])?;
            pool.set_mut(1).from_bytes(&files[0])?;
            pool.set_mut(2).from_bytes(&files[1])?;
            call(&mut pool)?;
            pool.set(0).to_vec()
        })?;
        IpRange::from_bytes(&result)
    }
}

/// A call that combines two sets of a pool.
type Call = fn(&mut Pool) -> Result<u32, Refusal>;

/// Why a call cannot be refused: no one else has the words of the pool.
const SOUND: &str = "the pool is sound and has this set";

impl Default for IpRange {
    fn default() -> IpRange {
        IpRange::new()
    }
}

/// Two sets are equal where their lists are. Of the same addresses there are several lists, but only one that is simplified.
impl PartialEq for IpRange {
    fn eq(&self, other: &IpRange) -> bool {
        self.is_empty() && other.is_empty() || self.to_vec() == other.to_vec()
    }
}

impl Eq for IpRange {}

/// Simplifies, as iprange does. Panics where the networks are of two families or more than fit; see [`IpRange::try_from_iter`].
impl FromIterator<IpNet> for IpRange {
    fn from_iter<I: IntoIterator<Item = IpNet>>(nets: I) -> IpRange {
        IpRange::try_from_iter(nets).unwrap_or_else(|no| panic!("IpRange: {no}"))
    }
}

/// Does not simplify. Panics where the networks are of two families or more than fit; see [`IpRange::try_extend`].
impl Extend<IpNet> for IpRange {
    fn extend<I: IntoIterator<Item = IpNet>>(&mut self, nets: I) {
        self.try_extend(nets).unwrap_or_else(|no| panic!("IpRange: {no}"))
    }
}

impl IntoIterator for &IpRange {
    type Item = IpNet;
    type IntoIter = std::vec::IntoIter<IpNet>;
    fn into_iter(self) -> Self::IntoIter {
        self.iter()
    }
}

impl fmt::Debug for IpRange {
    fn fmt(&self, f: &mut fmt::Formatter) -> fmt::Result {
        f.debug_list().entries(self).finish()
    }
}

#[cfg(test)]
mod tests;
