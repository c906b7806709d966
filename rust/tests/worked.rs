//! The worked networks of the scope document, and every refusal that the crate can be given. Expected values are the document's.
use marlbrace::{compare, salvage, Compared, IpNet, IpRange, Plan, Pool, Refusal, LINE};
use std::net::{IpAddr, Ipv4Addr, Ipv6Addr};

type Done = Result<(), Refusal>;

fn net(line: &str) -> IpNet {
    line.parse().unwrap()
}

fn nets(lines: &[&str]) -> Vec<IpNet> {
    lines.iter().map(|line| net(line)).collect()
}

/// A set of these networks in a pool of 1,000 nodes, number 0 of three.
fn pool_of(lines: &[&str]) -> Pool {
    let mut pool = Pool::new(4, 1000, &[Plan::new(300, 1000); 3]).unwrap();
    for line in lines {
        pool.set_mut(0).add(net(line)).unwrap();
    }
    pool
}

fn list(pool: &Pool, set: u32) -> Vec<IpNet> {
    pool.set(set).iter().unwrap().collect()
}

const HALVES: [&str; 2] = ["192.168.0.0/24", "192.168.1.0/24"];

#[test]
fn an_empty_set_has_no_supernet() -> Done {
    assert_eq!(pool_of(&[]).set(0).supernet(net("0.0.0.0/0"))?, None);
    assert_eq!(IpRange::new().supernet(net("0.0.0.0/0")), None);
    Ok(())
}

#[test]
fn the_whole_space_keeps_others_out() -> Done {
    let pool = pool_of(&["0.0.0.0/0", "10.0.0.0/8"]);
    assert_eq!((list(&pool, 0), pool.set(0).nodes()?), (nets(&["0.0.0.0/0"]), 1));
    Ok(())
}

#[test]
fn removing_from_the_whole_space() -> Done {
    let mut pool = pool_of(&["0.0.0.0/0"]);
    assert_eq!(pool.set_mut(0).remove(net("0.0.0.0/1")), Ok(2));
    assert_eq!(list(&pool, 0), nets(&["128.0.0.0/1"]));
    let mut pool = pool_of(&["0.0.0.0/0"]);
    assert_eq!(pool.set_mut(0).remove(net("255.255.255.255/32")), Ok(64));
    assert_eq!(pool.set(0).len(), Ok(32));
    let mut all = IpRange::new();
    all.add(IpNet::new(Ipv6Addr::UNSPECIFIED, 0)?)?;
    all.remove(Ipv6Addr::LOCALHOST.into())?;
    assert_eq!((all.len(), all.nodes()), (128, 256));
    Ok(())
}

#[test]
fn removing_a_half() -> Done {
    let mut pool = pool_of(&["192.168.0.0/23"]);
    assert_eq!(pool.set_mut(0).remove(net("192.168.0.0/24")), Ok(25));
    assert_eq!(list(&pool, 0), nets(&["192.168.1.0/24"]));
    Ok(())
}

#[test]
fn two_halves_are_no_block_until_simplified() -> Done {
    let mut pool = pool_of(&HALVES);
    assert_eq!((pool.set(0).nodes()?, pool.set(0).contains(net("192.168.0.0/23"))?), (26, false));
    assert_eq!(pool.set_mut(0).simplify(), Ok(24));
    assert_eq!((list(&pool, 0), pool.set(0).contains(net("192.168.0.0/23"))?), (nets(&["192.168.0.0/23"]), true));
    Ok(())
}

#[test]
fn excluding_nothing() -> Done {
    let mut pool = pool_of(&HALVES);
    pool.exclude_apart(2, 0, 1)?;
    assert_eq!((list(&pool, 2), pool.equal(0, 2)), (nets(&HALVES), Ok(true)));
    pool.exclude(1, 0, 1)?;
    assert_eq!(list(&pool, 1), nets(&["192.168.0.0/23"]));
    let mut halves = IpRange::new();
    halves.extend(nets(&HALVES));
    assert_eq!(halves.exclude_apart(&IpRange::new())?, halves);
    assert_eq!(halves.exclude(&IpRange::new())?.iter().collect::<Vec<_>>(), nets(&["192.168.0.0/23"]));
    Ok(())
}

#[test]
fn combining_the_halves_with_their_block() -> Done {
    let mut pool = pool_of(&HALVES);
    pool.set_mut(1).add(net("192.168.0.0/23"))?;
    assert_eq!(pool.intersect(2, 0, 1), Ok(24));
    assert_eq!(list(&pool, 2), nets(&["192.168.0.0/23"]));
    pool.set_mut(2).remove(net("0.0.0.0/0"))?;
    assert_eq!(pool.merge(2, 0, 1), Ok(24));
    pool.set_mut(0).remove(net("0.0.0.0/0"))?;
    assert_eq!((pool.set(0).is_empty(), pool.set(0).nodes(), list(&pool, 0)), (Ok(true), Ok(0), vec![]));
    Ok(())
}

#[test]
fn shares_and_limits() -> Done {
    let mut words = [0; 880];
    assert_eq!(Pool::words_needed(2, 100), Ok(words.len()));
    let mut pool = Pool::layout(&mut words[..], 6, 100, &[Plan::new(40, 60), Plan::new(30, 80)])?;
    let long = |len| IpNet::new(Ipv6Addr::LOCALHOST, len);
    assert_eq!(pool.set_mut(1).add(long(60)?), Err(Refusal::NoRoom));
    assert_eq!(pool.set_mut(1).add(long(79)?), Err(Refusal::NoRoom));
    assert_eq!(pool.set_mut(1).add(long(80)?), Err(Refusal::OverLimit));
    assert_eq!(pool.set_mut(1).add(long(59)?), Ok(60));
    assert_eq!(pool.set_mut(0).add(long(40)?), Err(Refusal::NoRoom));
    assert_eq!(pool.set_mut(0).add(long(39)?), Ok(40));
    assert_eq!((pool.free(), pool.set(1).plan()), (Ok(0), Ok(Plan::new(30, 80))));
    assert_eq!(Pool::open(&mut words[..])?.set(1).nodes(), Ok(60));
    Ok(())
}

/// Lookups and changes answer the same, and an indexed set has 256 words more.
#[test]
fn indexed_sets() -> Done {
    let plans = [Plan::new(300, 1000); 3];
    let mut indexed = Pool::new_indexed(4, 1000, &plans, &[2, 0])?;
    let mut plain = Pool::new(4, 1000, &plans)?;
    let queries = nets(&["0.0.0.0/0", "0.0.0.0/7", "10.0.0.0/8", "10.9.8.7/32", "11.0.0.0/8", "192.168.1.0/24", "192.168.0.0/23", "193.0.0.0/9"]);
    for line in ["10.0.0.0/8", "192.168.0.0/24", "192.168.1.0/24", "192.0.0.0/7", "0.0.0.0/0"] {
        assert_eq!(indexed.set_mut(0).add(net(line)), plain.set_mut(0).add(net(line)));
        for &query in &queries {
            assert_eq!(indexed.set(0).supernet(query), plain.set(0).supernet(query));
        }
        assert_eq!(indexed.set(0).contains_all(&queries), plain.set(0).contains_all(&queries));
    }
    assert_eq!(indexed.exclude(2, 0, 1), plain.exclude(2, 0, 1));
    assert_eq!(indexed.set(2).supernet(queries[3]), plain.set(2).supernet(queries[3]));
    assert_eq!(indexed.into_words().len(), plain.into_words().len() + 512);
    Ok(())
}

#[test]
fn which_sets_may_be_indexed() -> Done {
    let plans = [Plan::new(1, 10); 2];
    for indexed in [&[2][..], &[0, 63], &[64], &[u32::MAX]] {
        assert_eq!(Pool::new_indexed(4, 100, &plans, indexed).err(), Some(Refusal::BadSetup));
    }
    assert_eq!(Pool::new_indexed(4, 100, &plans, &[])?.into_words(), Pool::new(4, 100, &plans)?.into_words());
    assert_eq!(Pool::words_needed_indexed(2, 100, 2), Ok(Pool::words_needed(2, 100)? + 512));
    assert_eq!(Pool::words_needed_indexed(2, 100, 3), Err(Refusal::BadSetup));
    let mut words = vec![7; 880 + 256];
    assert_eq!(Pool::layout_indexed(&mut words[..1135], 4, 100, &plans, &[1]).err(), Some(Refusal::BadSetup));
    assert_eq!(words, [7; 880 + 256]);
    Pool::layout_indexed(&mut words[..], 4, 100, &plans, &[1, 1])?;
    assert!(Pool::open(&mut words[..]).is_ok());
    words[880 + 10] ^= 1; // where a walk by the byte 10 stands
    assert_eq!(Pool::open(&mut words[..]).err(), Some(Refusal::Damaged));
    Ok(())
}

#[test]
fn every_refusal() -> Done {
    let mut pool = pool_of(&HALVES);
    let file = pool.set(0).to_vec()?;
    let before = pool.clone().into_words();
    assert_eq!(Pool::new(5, 100, &[Plan::new(1, 1)]).err(), Some(Refusal::BadSetup));
    assert_eq!(Pool::new(4, 100, &[]).err(), Some(Refusal::BadSetup));
    assert_eq!(Pool::open(vec![0; 1000]).err(), Some(Refusal::Damaged));
    assert_eq!(pool.set_mut(3).add(net("10.0.0.0/8")), Err(Refusal::NoSet));
    assert_eq!("10.0.0.0".parse::<IpNet>(), Err(Refusal::BadText));
    assert_eq!(pool.set_mut(1).from_bytes(&file[1..]), Err(Refusal::BadFile));
    assert_eq!(pool.set(0).contains(Ipv6Addr::LOCALHOST.into()), Err(Refusal::WrongFamily));
    assert_eq!(IpNet::new(Ipv4Addr::LOCALHOST, 33), Err(Refusal::BadNetwork));
    assert_eq!(pool.set_mut(0).from_bytes(&file), Err(Refusal::Occupied));
    assert_eq!(pool.merge(0, 0, 1), Err(Refusal::Occupied));
    assert_eq!(net("10.0.0.0/8").write_line(&mut [0; 9]), Err(Refusal::ShortBuffer));
    assert_eq!(pool.set_mut(0).add_range(Ipv4Addr::LOCALHOST.into(), Ipv4Addr::UNSPECIFIED.into()), Err(Refusal::BadRange));
    assert_eq!(pool.set_mut(0).replan(Plan::new(2, 1)), Err(Refusal::BadShare));
    assert_eq!(pool.set_mut(0).make_public(), Err(Refusal::Occupied));
    assert_eq!(pool.into_words(), before);
    let mut pool = pool_of(&[]);
    pool.set_mut(0).make_public()?;
    assert_eq!(pool.set_mut(0).add(net("10.0.0.0/8")), Err(Refusal::NotPublic));
    Ok(())
}

/// The set is looked for before the networks are: a wrong set is refused 3, whatever the networks are, and damaged words 2.
#[test]
fn what_is_refused_first() -> Done {
    let (mixed, six) = (nets(&["10.0.0.0/8", "::1/128"]), nets(&["::1/128"]));
    let mut pool = pool_of(&HALVES);
    assert_eq!((pool.set(3).contains_all(&mixed), pool.set(3).contains_all(&six)), (Err(Refusal::NoSet), Err(Refusal::NoSet)));
    assert_eq!((pool.set_mut(3).try_extend(mixed.clone()), pool.set_mut(3).remove_all([])), (Err(Refusal::NoSet), Err(Refusal::NoSet)));
    assert_eq!((pool.set(0).contains_all(&mixed), pool.set(0).contains_all(&six)), (Err(Refusal::WrongFamily), Err(Refusal::WrongFamily)));
    assert_eq!((pool.set_mut(0).try_extend(mixed), pool.set_mut(0).remove_all(six)), (Err(Refusal::WrongFamily), Err(Refusal::WrongFamily)));
    assert_eq!((pool.set_mut(0).try_extend([]), pool.set_mut(0).remove_all([])), (Ok(26), Ok(26)));
    let mut words = pool.clone().into_words();
    for damaged in [0, 5, 260] {
        words[1] = damaged;
        assert_eq!(Pool::open(&mut words[..]).err(), Some(Refusal::Damaged));
    }
    Ok(())
}

/// By hand: the list is 10.0.0.0/8 and then the halves.
#[test]
fn places_in_a_list() -> Done {
    let pool = pool_of(&["192.168.1.0/24", "10.0.0.0/8", "192.168.0.0/24"]);
    let (set, all) = (pool.set(0), list(&pool, 0));
    assert_eq!((set.first()?, set.last()?), (Some(net("10.0.0.0/8")), Some(net("192.168.1.0/24"))));
    for place in 0..4 {
        assert_eq!(set.nth(place)?, all.get(place as usize).copied());
    }
    assert_eq!((set.after(all[0])?, set.after(all[1])?, set.after(all[2])?), (Some(all[1]), Some(all[2]), None));
    assert_eq!(set.after(net("192.168.0.128/24"))?, Some(all[2]));
    assert_eq!((set.after(net("11.0.0.0/8"))?, pool.set(1).first()?, pool.set(1).last()?), (Some(all[1]), None, None));
    assert_eq!((set.after(net("::/0")), pool.set(3).nth(0)), (Err(Refusal::WrongFamily), Err(Refusal::NoSet)));
    Ok(())
}

#[test]
fn lines_into_the_first_set() -> Done {
    let mut pool = pool_of(&[]);
    assert_eq!(pool.lines(b"192.168.0.0/24\n192.168.1.7/24\n10.9.8.7/8"), Ok(2));
    assert_eq!(list(&pool, 0), nets(&["10.0.0.0/8", "192.168.0.0/24", "192.168.1.0/24"]));
    assert_eq!((pool.lines(b""), pool.lines(b"11.0.0.0/8\n\n12.0.0.0/8\n")), (Ok(0), Err((2, Refusal::BadText))));
    assert_eq!((pool.set(0).len(), pool.lines(b"::1/128\n")), (Ok(4), Err((1, Refusal::WrongFamily))));
    Ok(())
}

#[test]
fn set_files_without_a_pool() -> Done {
    let file = |lines: &[&str]| pool_of(lines).set(0).to_vec();
    let (halves, block) = (file(&HALVES)?, file(&["192.168.0.0/23"])?);
    assert_eq!((compare(&halves, &block), compare(&block, &halves)), (Ok(Compared::Shortest), Ok(Compared::Same)));
    let [first, second]: [IpAddr; 2] = [[192, 168, 1, 0].into(), [10, 0, 0, 0].into()];
    assert_eq!(compare(&block, &file(&HALVES[..1])?), Ok(Compared::First(first)));
    assert_eq!(compare(&block, &file(&["192.168.0.0/23", "10.0.0.0/8"])?), Ok(Compared::Second(second)));
    let six = IpRange::try_from_iter(nets(&["2001:db8::/32"]))?.to_vec();
    let smaller = IpRange::try_from_iter(nets(&["2001:db8::/33"]))?.to_vec();
    assert_eq!(compare(&six, &smaller), Ok(Compared::First(Ipv6Addr::from(0x2001_0db8_8000_u128 << 80).into())));
    assert_eq!(
        (compare(&six, &block), compare(&[], &[]), compare(&block[..20], &block)),
        (Err(Refusal::WrongFamily), Err(Refusal::BadFile), Err(Refusal::BadFile))
    );
    let kept = salvage(&[&halves[..], &[1, 2, 3, 4, 33], &[192, 168, 1, 9, 32], &[9]].concat())?;
    assert_eq!((kept.read, kept.trimmed, kept.long, kept.covered), (4, 0, 1, 1));
    assert_eq!((kept.file, salvage(&[]).err()), (halves, Some(Refusal::BadFile)));
    Ok(())
}

#[test]
fn set_files_go_back_and_forth() -> Done {
    let mut pool = pool_of(&["10.0.0.0/8", "192.168.0.0/23"]);
    let file = pool.set(0).to_vec()?;
    assert_eq!(file, [0, 0, 0, 4, 0, 0, 0, 2, 0, 0, 0, 16, 0, 0, 0, 26, 10, 0, 0, 0, 8, 192, 168, 0, 0, 23]);
    assert_eq!(pool.set_mut(1).from_bytes(&file), Ok(32));
    assert_eq!(IpRange::from_bytes(&file)?.to_vec(), file);
    Ok(())
}

#[test]
fn plans_change_in_place() -> Done {
    let mut pool = pool_of(&HALVES);
    assert_eq!(pool.set_mut(0).replan(Plan::new(26, 26)), Ok(26));
    assert_eq!(pool.set_mut(0).add(net("10.0.0.0/8")), Err(Refusal::OverLimit));
    assert_eq!(pool.set_mut(0).as_set().plan(), Ok(Plan::new(26, 26)));
    Ok(())
}

#[test]
fn lines_are_read_and_written() -> Done {
    assert_eq!(IpNet::read_line(b"10.9.8.7/8")?, (net("10.0.0.0/8"), true));
    assert_eq!(IpNet::read_line(b"10.0.0.0/8")?, (IpNet::new(Ipv4Addr::new(10, 9, 8, 7), 8)?, false));
    let mut line = [0; LINE];
    assert_eq!(net("192.168.0.0/23").write_line(&mut line)?, b"192.168.0.0/23");
    assert_eq!(format!("[{:>12}]", net("10.0.0.0/8")), "[  10.0.0.0/8]");
    Ok(())
}

/// Counted by hand: four and four queries and one more, each as contains answers it; the members of the second half are asked for beside their block.
#[test]
fn many_queries_in_one_call() -> Done {
    let pool = pool_of(&["192.168.0.0/24", "192.168.1.0/24", "10.0.0.0/8"]);
    let asked =
        ["10.0.0.0/8", "10.255.0.1/32", "11.0.0.0/8", "192.168.0.0/23", "192.168.1.0/24", "192.168.2.0/24", "0.0.0.0/0", "192.168.0.255/32", "10.0.0.0/7"];
    let yes = [true, true, false, false, true, false, false, true, false];
    for n in 0..=asked.len() {
        assert_eq!(pool.set(0).contains_all(&nets(&asked[..n]))?, yes[..n]);
    }
    assert_eq!(pool.set(1).contains_all(&nets(&asked))?, [false; 9]);
    assert_eq!(pool.set(3).contains_all(&[]), Err(Refusal::NoSet));
    assert_eq!(pool.set(0).contains_all(&nets(&["10.0.0.0/8", "::1/128"])), Err(Refusal::WrongFamily));
    Ok(())
}

/// Judged by the final list, and counted by hand: 10.0.0.0/8 beside the halves would take 34 nodes, but 192.168.0.0/16 takes the halves' place. One block less
/// would leave two others, and two less leave one.
#[test]
fn files_are_added_and_removed_as_one_change() -> Done {
    let file = |lines: &[&str]| {
        let mut set = IpRange::new();
        set.extend(nets(lines));
        set.to_vec()
    };
    let mut pool = pool_of(&HALVES);
    pool.set_mut(0).replan(Plan::new(26, 27))?;
    assert_eq!(pool.set_mut(0).add(net("10.0.0.0/8")), Err(Refusal::OverLimit));
    assert_eq!(pool.set_mut(0).add_file(&file(&["10.0.0.0/8", "192.168.0.0/16"])), Ok(25));
    assert_eq!(list(&pool, 0), nets(&["10.0.0.0/8", "192.168.0.0/16"]));
    assert_eq!(pool.set_mut(0).remove(net("192.168.128.0/18")), Err(Refusal::OverLimit));
    assert_eq!(pool.set_mut(0).remove_file(&file(&["192.168.0.0/17", "192.168.128.0/18"])), Ok(27));
    assert_eq!(list(&pool, 0), nets(&["10.0.0.0/8", "192.168.192.0/18"]));
    let before = pool.clone().into_words();
    assert_eq!(pool.set_mut(0).add_file(&file(&["11.0.0.0/8"])[1..]), Err(Refusal::BadFile));
    assert_eq!(pool.set_mut(0).remove_file(&file(&["2001:db8::/32"])), Err(Refusal::WrongFamily));
    assert_eq!(pool.set_mut(3).add_file(&file(&["11.0.0.0/8"])), Err(Refusal::NoSet));
    assert_eq!(pool.set_mut(0).add_file(&file(&["11.0.0.0/8", "12.0.0.0/8"])), Err(Refusal::OverLimit));
    assert_eq!(pool.into_words(), before);
    Ok(())
}

/// The nodes by hand: 30 down to 10.0.0.0/29, then 2, 4 and 2.
#[test]
fn ranges_in_and_out() -> Done {
    let address = |text: &str| -> IpAddr { text.parse().unwrap() };
    let mut pool = pool_of(&[]);
    assert_eq!(pool.set_mut(0).add_range(address("10.0.0.1"), address("10.0.0.6")), Ok(38));
    assert_eq!(list(&pool, 0), nets(&["10.0.0.2/31", "10.0.0.4/31", "10.0.0.1/32", "10.0.0.6/32"]));
    assert_eq!(pool.set_mut(0).add_range(address("10.0.0.6"), address("10.0.0.5")), Err(Refusal::BadRange));
    assert_eq!(pool.set_mut(0).add_range(address("10.0.0.6"), address("::1")), Err(Refusal::WrongFamily));
    assert_eq!(pool.set_mut(0).add_range(address("::1"), address("::1")), Err(Refusal::WrongFamily));
    assert_eq!(pool.set_mut(3).add_range(address("1.1.1.1"), address("1.1.1.1")), Err(Refusal::NoSet));
    // the last address of all is not beside the first
    let (first, last) = (address("0.0.0.0"), address("255.255.255.255"));
    pool.set_mut(0).add_range(last, last)?;
    pool.set_mut(0).add_range(first, first)?;
    assert_eq!(pool.set(0).ranges()?, [(first, first), (address("10.0.0.1"), address("10.0.0.6")), (last, last)]);
    assert_eq!(pool.set_mut(0).add_range(first, last), Ok(1));
    assert_eq!((pool.set(0).ranges()?, pool.set(1).ranges()?), (vec![(first, last)], vec![]));
    assert_eq!(pool_of(&HALVES).set(0).ranges()?, [(address("192.168.0.0"), address("192.168.1.255"))]);
    Ok(())
}

#[test]
fn lines_of_ranges() {
    let read = |line: &str| IpNet::read_range(line.as_bytes()).map(|(first, last)| format!("{first} {last}"));
    assert_eq!(read("10.0.0.1-10.0.0.6"), Ok("10.0.0.1 10.0.0.6".to_string()));
    assert_eq!(read("2001:db8::-2001:db8::ffff"), Ok("2001:db8:: 2001:db8::ffff".to_string()));
    assert_eq!(read("1.2.3.4-1.2.3.4"), Ok("1.2.3.4 1.2.3.4".to_string()));
    assert_eq!((read("10.0.0.6-10.0.0.1"), read("10.0.0.1-::1")), (Err(Refusal::BadRange), Err(Refusal::WrongFamily)));
    for line in ["", "-", "10.0.0.1", "10.0.0.1-", "-10.0.0.1", "10.0.0.1-10.0.0.6-", "10.0.0.0/8-11.0.0.0/8", "10.0.0.1 - 10.0.0.6", "010.0.0.1-10.0.0.6"] {
        assert_eq!(read(line), Err(Refusal::BadText), "{line}");
    }
}
