//! What shows only where sets outgrow the first form, or one pool. [`MOST`] is 4,096 here: about 170 single addresses far apart in the first form, or 35 of
//! IPv6, and 2,048 networks in the second.
use super::*;
use crate::net::Row;
use crate::room::MOST;
use std::collections::BTreeSet;
use std::net::{Ipv4Addr, Ipv6Addr};

/// The members, in the order of a list, changed one by one as the words of `add`, `remove` and `simplify` say it.
#[derive(Clone, Default)]
struct Model(BTreeSet<IpNet>);

impl Model {
    fn of(nets: &[IpNet]) -> Model {
        let mut model = Model::default();
        nets.iter().for_each(|&net| model.add(net));
        model
    }

    fn contains(&self, net: IpNet) -> bool {
        self.0.iter().any(|member| member.contains(net))
    }

    fn add(&mut self, net: IpNet) {
        if !self.contains(net) {
            self.0.retain(|&member| !net.contains(member));
            self.0.insert(net);
        }
    }

    fn remove(&mut self, net: IpNet) {
        let around = self.0.iter().copied().find(|member| member.contains(net));
        self.0.retain(|&member| !net.contains(member));
        let Some(mut block) = around.filter(|&member| member != net) else { return };
        self.0.remove(&block);
        while block != net {
            let [low, high] = block.halves().unwrap();
            let (inner, beside) = if low.contains(net) { (low, high) } else { (high, low) };
            self.0.insert(beside);
            block = inner;
        }
    }

    fn simplified(&self) -> Model {
        let mut nets = self.0.clone();
        for net in (0..128).rev().flat_map(|len| self.0.iter().filter_map(move |net| IpNet::new(net.addr(), len).ok())) {
            let halves = net.halves().unwrap_or([net; 2]);
            if halves[0] != net && halves.iter().all(|half| nets.contains(half)) {
                halves.iter().for_each(|half| _ = nets.remove(half));
                nets.insert(net);
            }
        }
        Model(nets)
    }

    fn without(&self, other: &Model) -> Model {
        let mut left = self.clone();
        other.0.iter().for_each(|&net| left.remove(net));
        left
    }

    fn and(&self, other: &Model) -> Model {
        let both = self.0.iter().filter(|&&net| other.contains(net)).chain(other.0.iter().filter(|&&net| self.contains(net)));
        Model(both.copied().collect())
    }

    fn list(&self) -> Vec<IpNet> {
        self.0.iter().copied().collect()
    }
}

/// As many networks of a family that look random, of the last 5 lengths; every other one lies in a block of 1,024 addresses, where some touch or meet.
fn nets(family: u8, count: u64, seed: u64) -> Vec<IpNet> {
    let width = if family == 4 { 32 } else { 128 };
    let one = |k: u64| {
        let mixed = (k + seed * 1_000_003).wrapping_mul(0x9e37_79b9_7f4a_7c15);
        let mixed = (mixed ^ mixed >> 29).wrapping_mul(0xbf58_476d_1ce4_e5b9);
        let mixed = mixed ^ mixed >> 32;
        let far = (mixed as u128 * 0x94d0_49bb_1331_11eb_94d0_49bb_1331_11eb) >> (128 - width);
        let address = if k % 2 == 0 { far } else { mixed as u128 & 1023 };
        IpNet::new(Row::at(family, address, width as u8).net().addr(), (width - (mixed >> 40) as u32 % 5) as u8).unwrap()
    };
    (0..count).map(one).collect()
}

fn set(nets: &[IpNet]) -> IpRange {
    let mut set = IpRange::new();
    set.extend(nets.iter().copied());
    set
}

/// That it has the list and answers of the model, in this form.
fn same(set: &IpRange, model: &Model, form: Form, asked: &[IpNet]) {
    assert_eq!((set.form(), set.iter().collect::<Vec<_>>()), (form, model.list()));
    assert_eq!((set.len() as usize, set.is_empty()), (model.0.len(), model.0.is_empty()));
    if form == Form::Second {
        assert_eq!(set.nodes(), (2 * set.len()).saturating_sub(1));
    }
    let expected: Vec<bool> = asked.iter().map(|&net| model.contains(net)).collect();
    assert_eq!((set.contains_all(asked), asked.iter().map(|&net| set.contains(net)).collect()), (expected.clone(), expected));
    assert_eq!(IpRange::from_bytes(&set.to_vec()).as_ref(), Ok(set));
}

#[test]
fn one_by_one_into_the_second_form() {
    for (family, few) in [(4, 20), (6, 3)] {
        let nets = nets(family, 640, 1);
        let (mut range, mut model, mut forms) = (IpRange::new(), Model::default(), vec![Form::First]);
        for (k, &net) in nets[..600].iter().enumerate() {
            range.add(net).unwrap();
            model.add(net);
            if range.form() != forms[forms.len() - 1] {
                forms.push(range.form());
            }
            if k % 50 == few {
                same(&range, &model, range.form(), &nets[..k + 40]);
            }
        }
        assert_eq!(forms, [Form::First, Form::Second]);
        let shortest = model.simplified();
        range.simplify();
        assert!(shortest.0.len() < model.0.len());
        same(&range, &shortest, Form::Second, &nets);
        let mut model = shortest;
        for &net in nets.iter().step_by(3) {
            range.remove(net).unwrap();
            model.remove(net);
        }
        same(&range, &model, Form::Second, &nets);
        range.remove(IpNet::all(family)).unwrap();
        same(&range, &Model::default(), Form::Second, &nets);
        range.add(nets[0]).unwrap();
        same(&range, &Model::of(&nets[..1]), Form::Second, &nets);
    }
}

#[test]
fn all_at_once_into_the_second_form() {
    for (family, few) in [(4, 60), (6, 10)] {
        let nets = nets(family, 1200, 2);
        let model = Model::of(&nets);
        same(&set(&nets), &model, Form::Second, &nets);
        same(&nets.iter().copied().collect(), &model.simplified(), Form::Second, &nets);
        let mut grown = set(&nets[..few]);
        same(&grown, &Model::of(&nets[..few]), Form::First, &nets);
        grown.try_extend(nets[few..].iter().copied()).unwrap();
        same(&grown, &model, Form::Second, &nets);
        grown.remove_all(nets.iter().copied().step_by(2)).unwrap();
        same(&grown, &model.without(&Model::of(&nets.iter().copied().step_by(2).collect::<Vec<_>>())), Form::Second, &nets);
        grown.add_file(&set(&nets).to_vec()).unwrap();
        assert_eq!(grown.ranges(), set(&nets).ranges());
        grown.remove_file(&set(&nets).to_vec()).unwrap();
        assert!(grown.is_empty());
    }
}

/// By hand: 40 addresses of IPv6 that part in their first 8 bits have 120 nodes of their own each in the first form.
#[test]
fn forty_addresses_far_apart() {
    let lines = |numbers: &mut dyn Iterator<Item = u128>| -> Vec<IpNet> { numbers.map(|k| Ipv6Addr::from(k << 120 | 1).into()).collect() };
    let mut range = set(&lines(&mut (0..30)));
    assert_eq!((range.form(), range.len()), (Form::First, 30));
    lines(&mut (30..40)).into_iter().for_each(|net| range.add(net).unwrap());
    assert_eq!((range.form(), range.len(), range.nodes()), (Form::Second, 40, 79));
    assert!(range.contains("2700::1/128".parse().unwrap()) && !range.contains("2700::/127".parse().unwrap()));
    assert_eq!(range.supernet("2800::1/128".parse().unwrap()), None);
    range.remove("1000::/4".parse().unwrap()).unwrap();
    assert_eq!((range.iter().collect(), range.nodes()), (lines(&mut (0..16).chain(32..40)), 47));
    range.add_range(Ipv6Addr::from(0).into(), Ipv6Addr::from(0).into()).unwrap();
    range.simplify();
    assert_eq!((range.iter().next(), range.len()), (Some("::/127".parse().unwrap()), 24));
}

/// Two sets that fit in the first form each, but not both in one pool of it; one of each form; two of the second; and two that fit in no pool together.
#[test]
fn combined_in_either_form_and_in_parts() {
    for (family, counts) in [(4, [[180, 170], [600, 90], [700, 500], [1700, 1500]]), (6, [[40, 38], [500, 20], [700, 500], [1700, 1500]])] {
        let pairs = counts.map(|[some, others]| {
            let x = nets(family, some, 3);
            let y = [&x[..10], &nets(family, others, 4)[10..]].concat();
            combined(&x, &y)
        });
        assert_eq!(
            pairs,
            [(Form::First, Form::First, true), (Form::Second, Form::First, true), (Form::Second, Form::Second, true), (Form::Second, Form::Second, false)]
        );
    }
}

/// Combines the sets of these networks in every way, as the model does. Answers their forms, and whether one pool has room for both and their difference.
fn combined(x: &[IpNet], y: &[IpNet]) -> (Form, Form, bool) {
    let (a, b, x, y) = (set(x), set(y), Model::of(x), Model::of(y));
    let list = |got: Result<IpRange, Refusal>| got.map(|set| set.iter().collect::<Vec<_>>());
    assert_eq!(list(a.merge(&b)), Ok(Model::of(&[x.list(), y.list()].concat()).simplified().list()));
    assert_eq!(list(a.intersect(&b)), Ok(x.and(&y).simplified().list()));
    assert_eq!(list(a.exclude(&b)), Ok(x.without(&y).simplified().list()));
    assert_eq!(list(b.exclude(&a)), Ok(y.without(&x).simplified().list()));
    let apart = list(a.exclude_apart(&b));
    assert!(apart == Ok(x.without(&y).list()) || apart == Err(Refusal::NoRoom));
    // in one pool of the first form they would not be together
    assert!(a.form() == Form::Second || a.nodes() + b.nodes() > MOST);
    (a.form(), b.form(), apart.is_ok())
}

/// A fourth of 4,096 addresses: two such sets do not fit in one pool, in either form.
#[test]
fn in_parts_as_by_addresses() {
    let some = |seed: u32| -> BTreeSet<u32> { (0..4096).filter(|k| (k * k * 7 + k * seed + k / 5) % 1009 < 252).map(|k| 0xc0a8_0000 + k).collect() };
    let set = |addresses: &BTreeSet<u32>| set(&addresses.iter().map(|&address| Ipv4Addr::from(address).into()).collect::<Vec<_>>());
    let (x, y) = (some(3), some(17));
    let (a, b) = (set(&x), set(&y));
    assert!(2 * (a.len() + b.len()) > MOST - 512 && a.exclude_apart(&b).is_err());
    let both = a.merge(&b).unwrap();
    assert_eq!((0..4096).map(|k| 0xc0a8_0000 + k).filter(|&k| both.contains(Ipv4Addr::from(k).into())).collect::<BTreeSet<u32>>(), &x | &y);
    assert_eq!((both.clone().simplified(), both.exclude(&a).unwrap().exclude(&b)), (both, Ok(IpRange::new())));
    assert_eq!(a.intersect(&b), Ok(set(&(&x & &y)).iter().collect()));
    assert_eq!(a.exclude(&b), Ok(set(&(&x - &y)).iter().collect()));
    let mut all = IpRange::new();
    all.add(IpNet::all(4)).unwrap();
    assert_eq!(all.intersect(&a), Ok(a.iter().collect()));
    assert_eq!(all.exclude(&a).unwrap().exclude(&all), Ok(IpRange::new()));
}

/// An address of either family, all of them far apart.
fn far(family: u8, k: u32) -> IpNet {
    if family == 4 {
        Ipv4Addr::from(k << 20 | 1).into()
    } else {
        Ipv6Addr::from((k as u128) << 112 | 1).into()
    }
}

#[test]
fn nothing_changes_where_the_second_form_has_no_more_nodes() {
    for family in [4, 6] {
        let most = MOST / 2;
        let mut full = IpRange::new();
        let added = (0..4096).take_while(|&k| full.add(far(family, k)).is_ok()).count() as u32;
        assert_eq!((added, full.len(), full.nodes(), full.form()), (most, most, MOST - 1, Form::Second));
        let (before, more) = (full.clone(), far(family, most));
        let other = set(&[more]);
        assert_eq!(
            (full.add(more), full.try_extend([more]), full.add_file(&other.to_vec())),
            (Err(Refusal::OverLimit), Err(Refusal::OverLimit), Err(Refusal::OverLimit))
        );
        assert_eq!(full.merge(&other), Err(Refusal::OverLimit));
        assert_eq!(IpRange::from_bytes(&entries::apart(family, (0..=most).map(|k| far(family, k)).collect())), Err(Refusal::OverLimit));
        assert_eq!((&full, full.intersect(&full).as_ref(), full.exclude(&other).as_ref()), (&before, Ok(&before), Ok(&before)));
        full.remove(far(family, 7)).unwrap();
        full.add(more).unwrap();
        assert_eq!((full.len(), full.contains(more), full.exclude(&before)), (most, true, Ok(other)));
    }
}

#[test]
fn a_result_of_more_networks_than_a_set_has() {
    let mut all = IpRange::new();
    all.add(IpNet::all(6)).unwrap();
    let before = all.clone();
    let holes: Vec<IpNet> = (0..40).map(|k| far(6, k << 10)).collect();
    assert_eq!((all.exclude(&set(&holes)), all.remove_all(holes.iter().copied())), (Err(Refusal::OverLimit), Err(Refusal::OverLimit)));
    assert_eq!(all, before);
    // 16 holes that part in their first 4 bits leave a block beside each of 124 bits below
    all.remove_all((0..16).map(|k| far(6, k << 12))).unwrap();
    assert_eq!(all.len(), 16 * 124);
}
