use crate::{ffi, Refusal, Set, SetMut};

/// The share and the limit of a set, in nodes: what it is sure of, and what it may not pass.
#[derive(Clone, Copy, Debug, PartialEq, Eq)]
pub struct Plan {
    /// The nodes that are kept for it.
    pub share: u32,
    /// The most nodes that it may hold.
    pub limit: u32,
}

impl Plan {
    /// A share and a limit.
    pub fn new(share: u32, limit: u32) -> Plan {
        Plan { share, limit }
    }
}

/// How a pool keeps its lists. What [`Form::First`] grants, [`Form::Second`] grants too, with the same lists and lookups; only nodes are counted otherwise.
#[derive(Clone, Copy, Debug, PartialEq, Eq)]
pub enum Form {
    /// A node for each different string of leading bits of a set's networks. Sets of such a pool alone can be indexed.
    First,
    /// A node for each member, and for each branch point, where a string of leading bits goes on by 0 in one member and by 1 in another: a list of m members
    /// takes 2 m - 1 nodes, and an empty one none.
    Second,
}

/// A pool of sets over words that it owns (`Vec<u32>`) or borrows (`&mut [u32]`).
///
/// ```
/// # use marlbrace::{Plan, Pool, Refusal};
/// # fn main() -> Result<(), Refusal> {
/// let mut words = [0; 64 + 8 * 2 + 8 * 100];
/// let mut pool = Pool::layout(&mut words[..], 6, 100, &[Plan::new(40, 60), Plan::new(30, 80)])?;
/// assert_eq!(pool.set_mut(1).add("2001:db8::/48".parse()?)?, 49); // its nodes, of which 30 were kept for it
/// assert_eq!(pool.set_mut(0).add("2001:db8::/59".parse()?), Err(Refusal::NoRoom)); // 60, but there are 51
/// assert_eq!((pool.free()?, pool.set(1).plan()?.limit), (51, 80));
/// # Ok(())
/// # }
/// ```
#[derive(Clone, Debug)]
pub struct Pool<W = Vec<u32>> {
    words: W,
}

/// How many sets these are the plans of, as a layout takes it.
fn sets_of(plans: &[Plan]) -> Result<u32, Refusal> {
    u32::try_from(plans.len()).map_err(|_| Refusal::BadSetup)
}

fn shares_and_limits(plans: &[Plan]) -> (Vec<u32>, Vec<u32>) {
    plans.iter().map(|plan| (plan.share, plan.limit)).unzip()
}

/// Bit s for set s. Whether there are these sets the layout says.
fn marks_of(sets: &[u32]) -> Result<u64, Refusal> {
    sets.iter().try_fold(0, |marks, &set| Ok(marks | 1u64.checked_shl(set).ok_or(Refusal::BadSetup)?))
}

impl Pool<Vec<u32>> {
    /// A pool of empty sets in words of its own.
    pub fn new(family: u8, nodes: u32, plans: &[Plan]) -> Result<Pool, Refusal> {
        Pool::layout(vec![0; ffi::words(sets_of(plans)?, nodes)?], family, nodes, plans)
    }

    /// The same, with the sets of these numbers indexed for good. An indexed set takes 256 words more, one for each way that the first eight bits of a network
    /// can be: its lookups of networks of eight bits or more begin there and not at the root. They answer what they answer without an index.
    ///
    /// ```
    /// # use marlbrace::{Plan, Pool, Refusal};
    /// # fn main() -> Result<(), Refusal> {
    /// let mut pool = Pool::new_indexed(4, 100, &[Plan::new(60, 100), Plan::new(20, 40)], &[0])?; // the first of two
    /// pool.set_mut(0).add("10.0.0.0/12".parse()?)?;
    /// assert!(pool.set(0).contains("10.1.2.3/32".parse()?)?);
    /// assert!(!pool.set(0).contains("11.0.0.0/8".parse()?)?);
    /// assert_eq!(pool.into_words().len(), Pool::words_needed(2, 100)? + 256);
    /// # Ok(())
    /// # }
    /// ```
    pub fn new_indexed(family: u8, nodes: u32, plans: &[Plan], indexed: &[u32]) -> Result<Pool, Refusal> {
        let words = Pool::words_needed_indexed(sets_of(plans)?, nodes, marks_of(indexed)?.count_ones())?;
        Pool::layout_indexed(vec![0; words], family, nodes, plans, indexed)
    }

    /// A pool of empty sets in this form.
    ///
    /// ```
    /// # use marlbrace::{Form, Plan, Pool, Refusal};
    /// # fn main() -> Result<(), Refusal> {
    /// for (form, nodes) in [(Form::First, 27), (Form::Second, 3)] { // in the second both members, and where they part
    ///     let mut pool = Pool::new_in_form(form, 4, 100, &[Plan::new(100, 100)])?;
    ///     pool.set_mut(0).add("10.0.0.0/25".parse()?)?;
    ///     assert_eq!(pool.set_mut(0).add("10.0.0.128/25".parse()?)?, nodes);
    ///     assert_eq!((pool.set(0).len()?, pool.set_mut(0).simplify()?), (2, nodes - 2));
    /// }
    /// # Ok(())
    /// # }
    /// ```
    pub fn new_in_form(form: Form, family: u8, nodes: u32, plans: &[Plan]) -> Result<Pool, Refusal> {
        Pool::layout_in_form(vec![0; ffi::words(sets_of(plans)?, nodes)?], form, family, nodes, plans)
    }

    /// How many words a pool of so many sets and nodes needs, in either form.
    pub fn words_needed(sets: u32, nodes: u32) -> Result<usize, Refusal> {
        ffi::words(sets, nodes)
    }

    /// The same where so many of the sets are indexed.
    pub fn words_needed_indexed(sets: u32, nodes: u32, indexed: u32) -> Result<usize, Refusal> {
        ffi::words_indexed(sets, nodes, indexed)
    }
}

impl<W: AsMut<[u32]> + AsRef<[u32]>> Pool<W> {
    /// Lays out a pool of empty sets in these words; those that it does not need stay as they are.
    pub fn layout(mut words: W, family: u8, nodes: u32, plans: &[Plan]) -> Result<Pool<W>, Refusal> {
        let (shares, limits) = shares_and_limits(plans);
        ffi::layout(words.as_mut(), family, nodes, &shares, &limits)?;
        Ok(Pool { words })
    }

    /// The same, with the sets of these numbers indexed, as [`Pool::new_indexed`] says.
    pub fn layout_indexed(mut words: W, family: u8, nodes: u32, plans: &[Plan], indexed: &[u32]) -> Result<Pool<W>, Refusal> {
        let (shares, limits) = shares_and_limits(plans);
        ffi::layout_indexed(words.as_mut(), family, nodes, &shares, &limits, marks_of(indexed)?)?;
        Ok(Pool { words })
    }

    /// The same in this form.
    pub fn layout_in_form(mut words: W, form: Form, family: u8, nodes: u32, plans: &[Plan]) -> Result<Pool<W>, Refusal> {
        let (shares, limits) = shares_and_limits(plans);
        ffi::layout_form(words.as_mut(), family, form as u32, nodes, &shares, &limits)?;
        Ok(Pool { words })
    }

    /// The pool that stands in these words, which may come from anywhere: refused where it is no sound one.
    pub fn open(words: W) -> Result<Pool<W>, Refusal> {
        ffi::free(words.as_ref())?;
        Ok(Pool { words })
    }

    /// The words, to be stored or sent.
    pub fn into_words(self) -> W {
        self.words
    }

    /// The family of all its sets, 4 or 6.
    pub fn family(&self) -> u8 {
        ffi::family(self.words.as_ref())
    }

    /// The form that it was laid out in.
    pub fn form(&self) -> Form {
        match ffi::form(self.words.as_ref()) {
            0 => Form::First,
            _ => Form::Second,
        }
    }

    /// The free nodes.
    pub fn free(&self) -> Result<u32, Refusal> {
        ffi::free(self.words.as_ref()).map(|a| a.value())
    }

    /// A set to read. That there is one shows when it is asked.
    pub fn set(&self, number: u32) -> Set<'_> {
        Set { words: self.words.as_ref(), number }
    }

    /// A set to change.
    pub fn set_mut(&mut self, number: u32) -> SetMut<'_> {
        SetMut { words: self.words.as_mut(), number }
    }

    /// Whether two sets have the same list.
    pub fn equal(&self, first: u32, second: u32) -> Result<bool, Refusal> {
        ffi::equal(self.words.as_ref(), first, second).map(|a| a.yes())
    }

    /// Writes what either set has, simplified, into the empty set `to`; answers its nodes.
    pub fn merge(&mut self, to: u32, first: u32, second: u32) -> Result<u32, Refusal> {
        ffi::merge(self.words.as_mut(), to, first, second).map(|a| a.value())
    }

    /// Writes what both sets have, simplified, into the empty set `to`; answers its nodes.
    pub fn intersect(&mut self, to: u32, first: u32, second: u32) -> Result<u32, Refusal> {
        ffi::intersect(self.words.as_mut(), to, first, second).map(|a| a.value())
    }

    /// Writes what the first set has and the second has not, simplified, into the empty set `to`; answers its nodes.
    pub fn exclude(&mut self, to: u32, first: u32, second: u32) -> Result<u32, Refusal> {
        ffi::exclude(self.words.as_mut(), to, first, second).map(|a| a.value())
    }

    /// The same with the members left apart, as iprange's `exclude` does. With an empty second set it copies the first.
    pub fn exclude_apart(&mut self, to: u32, first: u32, second: u32) -> Result<u32, Refusal> {
        ffi::exclude_apart(self.words.as_mut(), to, first, second).map(|a| a.value())
    }

    /// Adds the networks of lines of text to set 0, up to the first line that is refused: answers how many lines had a bit cut, or the number of that line and
    /// why. The lines before it stay added.
    ///
    /// ```
    /// # use marlbrace::{Plan, Pool, Refusal};
    /// let mut pool = Pool::new(4, 100, &[Plan::new(100, 100)]).unwrap();
    /// assert_eq!(pool.lines(b"10.9.8.7/8\n192.168.0.0/24\n"), Ok(1));
    /// assert_eq!(pool.lines(b"192.168.1.0/24\n192.168.2.0\n"), Err((2, Refusal::BadText)));
    /// assert_eq!(pool.set(0).len(), Ok(3));
    /// ```
    pub fn lines(&mut self, text: &[u8]) -> Result<u64, (u64, Refusal)> {
        ffi::lines(self.words.as_mut(), text)
    }
}
