use crate::{entries, ffi, IpNet, Plan, Refusal};
use std::net::IpAddr;

/// A set of a pool, to be read. A lookup reads its own path alone; the other calls check the whole pool first.
#[derive(Clone, Copy)]
pub struct Set<'a> {
    pub(crate) words: &'a [u32],
    pub(crate) number: u32,
}

impl<'a> Set<'a> {
    /// Whether a member contains the whole network.
    pub fn contains(&self, net: IpNet) -> Result<bool, Refusal> {
        ffi::contains(self.words, self.number, &net.row()).map(|a| a.yes())
    }

    /// The same of many networks in one call, which is faster than asking for each: several walks are in flight at once. Refused WrongFamily where one of them
    /// is not of the pool's family.
    ///
    /// ```
    /// # fn main() -> Result<(), Box<dyn std::error::Error>> {
    /// let mut pool = marlbrace::Pool::new(4, 100, &[marlbrace::Plan::new(100, 100)])?;
    /// pool.set_mut(0).add("10.0.0.0/8".parse()?)?;
    /// let asked = ["10.1.2.3/32".parse()?, "11.0.0.0/8".parse()?, "10.0.0.0/7".parse()?];
    /// assert_eq!(pool.set(0).contains_all(&asked)?, [true, false, false]);
    /// # Ok(())
    /// # }
    /// ```
    pub fn contains_all(&self, nets: &[IpNet]) -> Result<Vec<bool>, Refusal> {
        // where there is another family than the pool's the call is to refuse it
        let ours = ffi::family(self.words);
        let family = nets.iter().map(|net| net.family()).find(|&other| other != ours).unwrap_or(ours);
        let rows: Vec<_> = nets.iter().map(|net| net.row()).collect();
        Ok(ffi::contains_all(self.words, self.number, family, &rows)?.iter().map(|a| a.yes()).collect())
    }

    /// The member that contains the whole network.
    pub fn supernet(&self, net: IpNet) -> Result<Option<IpNet>, Refusal> {
        ffi::supernet(self.words, self.number, &net.row())
    }

    /// Whether it has no network.
    pub fn is_empty(&self) -> Result<bool, Refusal> {
        ffi::is_empty(self.words, self.number).map(|a| a.yes())
    }

    /// How many networks it has.
    pub fn len(&self) -> Result<u32, Refusal> {
        ffi::networks(self.words, self.number).map(|a| a.value())
    }

    /// How many nodes its list takes.
    pub fn nodes(&self) -> Result<u32, Refusal> {
        ffi::held(self.words, self.number).map(|a| a.value())
    }

    /// Its share and its limit.
    pub fn plan(&self) -> Result<Plan, Refusal> {
        Ok(Plan { share: ffi::share(self.words, self.number)?.value(), limit: ffi::limit(self.words, self.number)?.value() })
    }

    /// Its networks, the shorter lengths first, then by address. They are listed in one pass, so the iterator is cheap.
    pub fn iter(&self) -> Result<std::vec::IntoIter<IpNet>, Refusal> {
        Ok(ffi::list(self.words, self.number)?.into_iter())
    }

    /// The first network of its list, without listing the others.
    pub fn first(&self) -> Result<Option<IpNet>, Refusal> {
        ffi::first(self.words, self.number)
    }

    /// The first network of its list behind another, which need not be in it. Each call checks the whole pool, so this is for going on after a change;
    /// [`Set::iter`] has all of them.
    ///
    /// ```
    /// # fn main() -> Result<(), marlbrace::Refusal> {
    /// let mut pool = marlbrace::Pool::new(4, 100, &[marlbrace::Plan::new(100, 100)])?;
    /// let lines = ["9.0.0.0/8", "10.0.0.0/8", "11.0.0.0/16"];
    /// lines.iter().try_for_each(|line| pool.set_mut(0).add(line.parse()?).map(|_| ()))?;
    /// let set = pool.set(0);
    /// assert_eq!((set.first()?, set.last()?), (Some(lines[0].parse()?), Some(lines[2].parse()?)));
    /// assert_eq!((set.after("9.0.0.0/8".parse()?)?, set.nth(1)?), (Some(lines[1].parse()?), Some(lines[1].parse()?)));
    /// assert_eq!((set.after(lines[2].parse()?)?, set.nth(3)?), (None, None));
    /// # Ok(())
    /// # }
    /// ```
    pub fn after(&self, net: IpNet) -> Result<Option<IpNet>, Refusal> {
        ffi::next(self.words, self.number, &net.row())
    }

    /// The network at a place of its list, counted from 0.
    pub fn nth(&self, place: u32) -> Result<Option<IpNet>, Refusal> {
        ffi::nth(self.words, self.number, place)
    }

    /// The last network of its list.
    pub fn last(&self) -> Result<Option<IpNet>, Refusal> {
        ffi::last(self.words, self.number)
    }

    /// The fewest ranges of its addresses, each as first and last address: ascending, and no two of them meet or touch.
    ///
    /// ```
    /// # fn main() -> Result<(), Box<dyn std::error::Error>> {
    /// let mut pool = marlbrace::Pool::new(4, 100, &[marlbrace::Plan::new(100, 100)])?;
    /// pool.set_mut(0).add_range("10.0.0.1".parse()?, "10.0.0.6".parse()?)?;
    /// assert_eq!(pool.set(0).len()?, 4); // 10.0.0.2/31, 10.0.0.4/31, 10.0.0.1/32, 10.0.0.6/32
    /// assert_eq!(pool.set(0).ranges()?, [("10.0.0.1".parse()?, "10.0.0.6".parse()?)]);
    /// # Ok(())
    /// # }
    /// ```
    pub fn ranges(&self) -> Result<Vec<(IpAddr, IpAddr)>, Refusal> {
        Ok(ffi::ranges(self.words, self.number)?.iter().map(|(first, last)| (first.net().addr(), last.net().addr())).collect())
    }

    /// Its set file.
    pub fn to_vec(&self) -> Result<Vec<u8>, Refusal> {
        ffi::save(self.words, self.number)
    }
}

/// A set of a pool, to be changed. Each change answers the nodes of the set.
pub struct SetMut<'a> {
    pub(crate) words: &'a mut [u32],
    pub(crate) number: u32,
}

impl SetMut<'_> {
    /// The same set, to be read.
    pub fn as_set(&self) -> Set<'_> {
        Set { words: self.words, number: self.number }
    }

    /// Adds a network: where no member contains it, the members inside it go and it joins.
    pub fn add(&mut self, net: IpNet) -> Result<u32, Refusal> {
        ffi::add(self.words, self.number, &net.row()).map(|a| a.value())
    }

    /// Removes a network: the members inside it go, and one that contains it gives way to the blocks beside it.
    pub fn remove(&mut self, net: IpNet) -> Result<u32, Refusal> {
        ffi::remove(self.words, self.number, &net.row()).map(|a| a.value())
    }

    /// Joins the halves of each block: afterwards the set has the shortest list of the same addresses.
    pub fn simplify(&mut self) -> Result<u32, Refusal> {
        ffi::simplify(self.words, self.number).map(|a| a.value())
    }

    /// Gives the set, which must be empty, the list of a set file.
    pub fn from_bytes(&mut self, file: &[u8]) -> Result<u32, Refusal> {
        ffi::load(self.words, self.number, file).map(|a| a.value())
    }

    /// Adds the networks of a set file, as adding them one by one would, but as one change: the pool is checked once, and all are added or none.
    ///
    /// ```
    /// # use marlbrace::{IpRange, Plan, Pool};
    /// # fn main() -> Result<(), marlbrace::Refusal> {
    /// let more: IpRange = ["10.0.0.0/8", "192.168.0.0/16"].iter().map(|n| n.parse().unwrap()).collect();
    /// let mut pool = Pool::new(4, 100, &[Plan { share: 100, limit: 100 }])?;
    /// pool.set_mut(0).add("172.16.0.0/12".parse()?)?;
    /// pool.set_mut(0).add_file(&more.to_vec())?;
    /// assert_eq!(pool.set(0).len()?, 3);
    /// pool.set_mut(0).remove_file(&more.to_vec())?;
    /// assert_eq!(pool.set(0).len()?, 1);
    /// # Ok(())
    /// # }
    /// ```
    pub fn add_file(&mut self, file: &[u8]) -> Result<u32, Refusal> {
        ffi::add_file(self.words, self.number, file).map(|a| a.value())
    }

    /// Removes the networks of a set file, as removing them one by one would, but as one change.
    pub fn remove_file(&mut self, file: &[u8]) -> Result<u32, Refusal> {
        ffi::remove_file(self.words, self.number, file).map(|a| a.value())
    }

    /// Adds networks in any order, as adding them one by one would, but as one change.
    ///
    /// ```
    /// # use marlbrace::{IpNet, Plan, Pool};
    /// # fn main() -> Result<(), marlbrace::Refusal> {
    /// let nets = ["192.168.0.0/16", "10.1.0.0/16", "10.0.0.0/8"].iter().map(|n| n.parse()).collect::<Result<Vec<IpNet>, _>>()?;
    /// let mut pool = Pool::new(4, 100, &[Plan::new(100, 100)])?;
    /// pool.set_mut(0).try_extend(nets.iter().copied())?;
    /// assert_eq!(pool.set(0).len()?, 2);
    /// pool.set_mut(0).remove_all(nets)?;
    /// assert!(pool.set(0).is_empty()?);
    /// # Ok(())
    /// # }
    /// ```
    pub fn try_extend(&mut self, nets: impl IntoIterator<Item = IpNet>) -> Result<u32, Refusal> {
        let file = self.file_of(nets)?;
        self.add_file(&file)
    }

    /// Removes networks in any order, as removing them one by one would, but as one change.
    pub fn remove_all(&mut self, nets: impl IntoIterator<Item = IpNet>) -> Result<u32, Refusal> {
        let file = self.file_of(nets)?;
        self.remove_file(&file)
    }

    /// The set file of networks in any order, of the pool's family; whether there is such a set is asked first.
    fn file_of(&self, nets: impl IntoIterator<Item = IpNet>) -> Result<Vec<u8>, Refusal> {
        self.as_set().nodes()?;
        entries::file_of(ffi::family(self.words), nets)
    }

    /// Adds the addresses from the first to the last: the fewest networks that have exactly these, as one change. Refused BadRange where the first is above the
    /// last.
    pub fn add_range(&mut self, first: IpAddr, last: IpAddr) -> Result<u32, Refusal> {
        let (first, last) = (IpNet::from(first).row(), IpNet::from(last).row());
        if first.family != last.family {
            return Err(Refusal::WrongFamily);
        }
        ffi::add_range(self.words, self.number, &first, &last).map(|a| a.value())
    }

    /// Makes the set, which must be empty, public-only for good: what would overlap an inner network (private, shared, loopback and the like) is then refused
    /// NotPublic.
    ///
    /// ```
    /// # use marlbrace::{Plan, Pool, Refusal};
    /// # fn main() -> Result<(), Refusal> {
    /// let mut pool = Pool::new(4, 100, &[Plan::new(100, 100)])?;
    /// pool.set_mut(0).make_public()?;
    /// assert_eq!(pool.set_mut(0).add("10.0.0.0/8".parse()?), Err(Refusal::NotPublic));
    /// assert_eq!(pool.set_mut(0).add("8.8.8.0/24".parse()?), Ok(25));
    /// # Ok(())
    /// # }
    /// ```
    pub fn make_public(&mut self) -> Result<(), Refusal> {
        ffi::make_public(self.words, self.number).map(|_| ())
    }

    /// Another share and limit, in place.
    pub fn replan(&mut self, plan: Plan) -> Result<u32, Refusal> {
        ffi::replan(self.words, self.number, plan.share, plan.limit).map(|a| a.value())
    }
}
