//! IpRange: that it grows, that building at once gives what adding one by one gives, and what it does where it cannot go on.
use marlbrace::{Form, IpNet, IpRange, Refusal};
use std::collections::BTreeSet;
use std::net::{Ipv4Addr, Ipv6Addr};

type Done = Result<(), Refusal>;

fn net(line: &str) -> IpNet {
    line.parse().unwrap()
}

/// Numbers that look random (SplitMix64).
struct Random(u64);

impl Random {
    fn next(&mut self) -> u64 {
        self.0 = self.0.wrapping_add(0x9e3779b97f4a7c15);
        let mixed = (self.0 ^ self.0 >> 30).wrapping_mul(0xbf58476d1ce4e5b9);
        let mixed = (mixed ^ mixed >> 27).wrapping_mul(0x94d049bb133111eb);
        mixed ^ mixed >> 31
    }

    /// A network of the family, of any length, most of them close together.
    fn net(&mut self, family: u8) -> IpNet {
        let (bits, len) = (self.next(), self.next());
        match family {
            4 => IpNet::new(Ipv4Addr::from(bits as u32 & 0xe00000ff), (len % 33) as u8),
            _ => IpNet::new(Ipv6Addr::from((bits as u128 & 7) << 125 | bits as u128 >> 56), (len % 129) as u8),
        }
        .unwrap()
    }
}

#[test]
fn extending_is_adding_one_by_one_and_collecting_simplifies() -> Done {
    let mut random = Random(1);
    for (family, count) in [(4, 1), (6, 2), (4, 40), (6, 40), (4, 400), (6, 400)] {
        let nets: Vec<IpNet> = (0..count).map(|_| random.net(family)).filter(|net| net.prefix_len() > 2).collect();
        let mut added = IpRange::new();
        for &net in &nets {
            added.add(net)?;
        }
        let mut extended = IpRange::new();
        extended.extend(nets.iter().copied().take(count / 3));
        extended.extend(nets.iter().copied().skip(count / 3));
        assert_eq!(extended, added);
        added.simplify();
        assert_eq!(nets.iter().copied().collect::<IpRange>(), added);
    }
    Ok(())
}

#[test]
fn removing_all_is_removing_one_by_one() -> Done {
    let mut random = Random(4);
    for (family, count) in [(4, 1), (6, 1), (4, 40), (6, 40), (4, 400), (6, 400)] {
        let mut one_by_one = IpRange::try_from_iter((0..count).map(|_| random.net(family)).filter(|net| net.prefix_len() > 2))?;
        let mut at_once = one_by_one.clone();
        let nets: Vec<IpNet> = (0..count).map(|_| random.net(family)).filter(|net| net.prefix_len() > 4).collect();
        nets.iter().try_for_each(|&net| one_by_one.remove(net))?;
        at_once.remove_all(nets.iter().copied())?;
        assert_eq!(at_once, one_by_one);
        assert_eq!(at_once.contains_all(&nets), vec![false; nets.len()]);
    }
    let mut empty = IpRange::new();
    empty.remove_all([Ipv6Addr::LOCALHOST.into()])?;
    let mut one = IpRange::try_from_iter([net("10.0.0.0/8")])?;
    assert_eq!((empty.is_empty(), one.remove_all([Ipv6Addr::LOCALHOST.into()]), one.len()), (true, Err(Refusal::WrongFamily), 1));
    Ok(())
}

/// By addresses, over the 256 of one block.
#[test]
fn combinations_are_those_of_the_addresses() -> Done {
    let mut random = Random(2);
    let mut some =
        || -> Vec<IpNet> { (0..12).map(|_| IpNet::new(Ipv4Addr::from(random.next() as u32 & 255), 26 + (random.next() % 7) as u8).unwrap()).collect() };
    for _ in 0..50 {
        let (a, b): (IpRange, IpRange) = (some().into_iter().collect(), some().into_iter().collect());
        let (x, y) = (addresses(&a), addresses(&b));
        assert_eq!(addresses(&a.merge(&b)?), &x | &y);
        assert_eq!(addresses(&a.intersect(&b)?), &x & &y);
        assert_eq!(addresses(&a.exclude(&b)?), &x - &y);
        assert_eq!(addresses(&a.exclude_apart(&b)?), &x - &y);
    }
    Ok(())
}

fn addresses(set: &IpRange) -> BTreeSet<u32> {
    (0..256).filter(|&address| set.contains(Ipv4Addr::from(address).into())).collect()
}

#[test]
fn it_grows_as_it_needs_to() -> Done {
    let mut set = IpRange::new();
    for k in 0..300u32 {
        set.add(IpNet::new(Ipv4Addr::from(k << 23), 32)?)?;
    }
    assert_eq!(set.len(), 300);
    let mut all = IpRange::new();
    all.add(net("0.0.0.0/0"))?;
    (0..9u32).try_for_each(|k| all.remove(Ipv4Addr::from(k << 28).into()))?;
    assert_eq!(all.nodes(), all.iter().collect::<IpRange>().nodes());
    Ok(())
}

#[test]
fn where_the_first_form_has_no_room_it_goes_on_in_the_second() -> Done {
    // 112 nodes of its own for each in the first form
    let many = |count: u128| (0..count).map(|k| Ipv6Addr::from(k << 112 | 1).into());
    let mut set = IpRange::try_from_iter(many(30_000))?;
    assert_eq!((set.form(), set.len()), (Form::First, 30_000));
    set.try_extend(many(40_000))?;
    assert_eq!((set.form(), set.len(), set.nodes()), (Form::Second, 40_000, 79_999));
    assert!(set.iter().eq(many(40_000)) && set.contains_all(&many(40_001).collect::<Vec<_>>()).ends_with(&[true, false]));
    let both = set.merge(&IpRange::try_from_iter([net("::/1")])?)?;
    assert_eq!((both.form(), both.len(), set.exclude(&both)?), (Form::First, 7_233, IpRange::new()));
    Ok(())
}

#[test]
fn beyond_the_most_networks_it_is_refused_and_stays() -> Done {
    // 11 nodes of its own for each in the first form
    let many = |count: u32| (0..count).map(|k| Ipv4Addr::from(k << 11).into());
    let mut set = IpRange::try_from_iter(many(2_097_152))?;
    assert_eq!((set.form(), set.len(), set.nodes()), (Form::Second, 2_097_152, 4_194_303));
    assert_eq!(set.add(net("0.0.0.2/32")), Err(Refusal::OverLimit));
    assert!(set.iter().eq(many(2_097_152)));
    let mut one = IpRange::try_from_iter([net("0.0.0.2/32")])?;
    assert_eq!((one.try_extend(many(2_097_152)), one.len()), (Err(Refusal::OverLimit), 1));
    set.add(net("0.0.0.0/31"))?;
    assert_eq!(set.len(), 2_097_152);
    Ok(())
}

#[test]
fn more_lines_than_a_file_has_are_taken_in_turns() -> Done {
    let mut set = IpRange::new();
    set.try_extend((0..2_200_000u32).map(|k| Ipv4Addr::from(k & 0xfff).into()))?;
    assert_eq!(set.len(), 4096);
    Ok(())
}

#[test]
fn an_empty_set_takes_either_family() -> Done {
    let mut set = IpRange::new();
    set.add(Ipv6Addr::LOCALHOST.into())?;
    assert_eq!((set.family(), set.add(net("10.0.0.0/8"))), (6, Err(Refusal::WrongFamily)));
    assert!(!set.contains(net("0.0.0.0/32")) && set.supernet(net("0.0.0.0/32")).is_none());
    set.remove(IpNet::new(Ipv6Addr::UNSPECIFIED, 0)?)?;
    assert_eq!(set, IpRange::new());
    set.add(net("10.0.0.0/8"))?;
    assert_eq!(set.intersect(&IpRange::new())?, IpRange::new());
    assert_eq!((IpRange::new().merge(&set)?, set.merge(&IpRange::new())?), (set.clone(), set.clone()));
    let six = IpRange::try_from_iter([Ipv6Addr::LOCALHOST.into()])?;
    assert_eq!((IpRange::new().merge(&six)?, six.merge(&IpRange::new())?, six.merge(&set)), (six.clone(), six.clone(), Err(Refusal::WrongFamily)));
    let mut filled = IpRange::new();
    filled.remove_file(&six.to_vec())?;
    filled.add_file(&six.to_vec())?;
    assert_eq!((filled.add_file(&set.to_vec()), filled.add_file(&[])), (Err(Refusal::WrongFamily), Err(Refusal::BadFile)));
    assert_eq!(filled, six);
    filled.remove_file(&six.to_vec())?;
    assert_eq!((filled.is_empty(), filled.remove_file(&[])), (true, Err(Refusal::BadFile)));
    assert_eq!(IpRange::try_from_iter([net("10.0.0.0/8"), Ipv6Addr::LOCALHOST.into()]).err(), Some(Refusal::WrongFamily));
    Ok(())
}

/// Each range alone, and again from what is left of a set that is simplified.
#[test]
fn ranges_cover_the_addresses() -> Done {
    let mut random = Random(3);
    for _ in 0..50 {
        let (mut set, mut expected) = (IpRange::new(), BTreeSet::new());
        for _ in 0..6 {
            let (a, b) = (random.next() as u32 & 255, random.next() as u32 & 255);
            set.add_range(Ipv4Addr::from(a.min(b)).into(), Ipv4Addr::from(a.max(b)).into())?;
            expected.extend(a.min(b)..=a.max(b));
        }
        set.simplify();
        assert_eq!(addresses(&set), expected);
        let mut again = IpRange::new();
        for (first, last) in set.ranges() {
            again.add_range(first, last)?;
        }
        assert_eq!((again.ranges(), again.iter().collect::<IpRange>()), (set.ranges(), set));
    }
    Ok(())
}

#[test]
fn a_range_has_either_family_and_makes_it_grow() -> Done {
    let (first, last) = (Ipv6Addr::from(1), Ipv6Addr::from(u128::MAX - 1));
    let mut set = IpRange::new();
    assert_eq!(set.add_range(last.into(), first.into()), Err(Refusal::BadRange));
    assert_eq!((set.family(), set.is_empty()), (4, true));
    set.add_range(first.into(), last.into())?;
    assert_eq!((set.family(), set.len(), set.ranges()), (6, 254, vec![(first.into(), last.into())]));
    assert_eq!(set.add_range(Ipv4Addr::LOCALHOST.into(), Ipv4Addr::LOCALHOST.into()), Err(Refusal::WrongFamily));
    let mut four = IpRange::new();
    four.add_range(Ipv4Addr::from(1).into(), Ipv4Addr::from(u32::MAX - 1).into())?;
    assert_eq!(four.len(), 62);
    Ok(())
}

#[test]
fn it_is_walked_like_any_collection() {
    let set: IpRange = ["10.0.0.0/8", "10.1.0.0/16", "9.0.0.0/8"].into_iter().map(net).collect();
    let mut seen = Vec::new();
    for net in &set {
        seen.push(net.to_string());
    }
    assert_eq!(seen, ["9.0.0.0/8", "10.0.0.0/8"]);
    assert_eq!(format!("{set:?}"), "[9.0.0.0/8, 10.0.0.0/8]");
    assert_eq!(set.iter().len() as u32, set.len());
}

#[test]
#[should_panic(expected = "the family")]
fn collecting_two_families_panics() {
    let _: IpRange = [net("10.0.0.0/8"), Ipv6Addr::LOCALHOST.into()].into_iter().collect();
}
