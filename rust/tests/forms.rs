//! A pool in each form: the same calls leave the same lists and answer the same lookups, and only the nodes differ.
use marlbrace::{Form, IpNet, Plan, Pool, Refusal};

type Done = Result<(), Refusal>;

fn net(line: &str) -> IpNet {
    line.parse().unwrap()
}

/// A pool of three sets and 2,000 nodes.
fn pool_in(form: Form, family: u8) -> Pool {
    Pool::new_in_form(form, family, 2000, &[Plan::new(100, 2000); 3]).unwrap()
}

#[test]
fn all_addresses_but_one() -> Done {
    for (family, all, one, len) in [(4, "0.0.0.0/0", "255.255.255.255/32", 32), (6, "::/0", "::1/128", 128)] {
        for (form, nodes) in [(Form::First, 2 * len), (Form::Second, 2 * len - 1)] {
            let mut pool = pool_in(form, family);
            assert_eq!(pool.set_mut(0).add(net(all)), Ok(1));
            assert_eq!((pool.set_mut(0).remove(net(one)), pool.set(0).len()), (Ok(nodes), Ok(len)));
            assert_eq!((pool.set(0).nodes(), pool.free()), (Ok(nodes), Ok(2000 - nodes)));
        }
    }
    Ok(())
}

/// What a reader can see of three sets, nodes aside.
fn seen(pool: &Pool, asked: &[IpNet]) -> Result<String, Refusal> {
    let mut all = String::new();
    for k in 0..3 {
        let set = pool.set(k);
        let listed: Vec<IpNet> = set.iter()?.collect();
        let single = (set.first()?, set.last()?, set.nth(1)?, set.after(asked[0])?, set.is_empty()?, pool.equal(0, k)?);
        let above = asked.iter().map(|&n| Ok((set.contains(n)?, set.supernet(n)?))).collect::<Result<Vec<_>, Refusal>>()?;
        all += &format!("{listed:?} {single:?} {above:?} {:?} {:?} {:?}\n", set.contains_all(asked)?, set.ranges()?, set.to_vec()?);
    }
    Ok(all)
}

/// Makes a call in a pool of each form: nothing but nodes may differ, and m members have 2 m - 1 of them in the second.
fn alike(pools: &mut [Pool; 2], asked: &[IpNet], call: impl Fn(&mut Pool) -> Result<u32, Refusal>) {
    let nodes = pools.each_mut().map(|pool| call(pool).unwrap());
    assert!(nodes[1] <= nodes[0]);
    let [first, second] = pools;
    assert_eq!(seen(first, asked).unwrap(), seen(second, asked).unwrap());
    for k in 0..3 {
        assert_eq!(second.set(k).nodes().unwrap(), (2 * second.set(k).len().unwrap()).saturating_sub(1));
    }
}

/// Calls of every kind, with networks of which the first two are the halves of a block and the last is apart from the others.
fn history(lines: [&str; 6], all: &str) {
    let nets = lines.map(net);
    let mut pools = [Form::First, Form::Second].map(|form| pool_in(form, nets[0].family()));
    let mut call = |call: &dyn Fn(&mut Pool) -> Result<u32, Refusal>| alike(&mut pools, &nets, call);
    call(&|pool| pool.set_mut(0).add(nets[0]));
    call(&|pool| pool.set_mut(0).add(nets[1]));
    call(&|pool| pool.set_mut(1).try_extend(nets[2..].iter().copied()));
    call(&|pool| pool.set_mut(0).remove(nets[4]));
    call(&|pool| pool.merge(2, 0, 1));
    call(&|pool| pool.set_mut(2).remove_all([nets[2], nets[5]]));
    call(&|pool| pool.set_mut(0).add(nets[4]));
    call(&|pool| pool.set_mut(0).simplify());
    call(&|pool| pool.set_mut(1).add_range(nets[0].addr(), nets[3].addr()));
    for combine in [Pool::intersect, Pool::exclude, Pool::exclude_apart] {
        call(&|pool| pool.set_mut(2).remove(net(all)));
        call(&|pool| combine(pool, 2, 1, 0));
    }
    let file = pools[0].set(1).to_vec().unwrap();
    alike(&mut pools, &nets, |pool| pool.set_mut(0).remove(net(all)));
    alike(&mut pools, &nets, |pool| pool.set_mut(0).from_bytes(&file));
}

#[test]
fn the_same_calls_leave_the_same_lists() {
    history(["10.0.0.0/25", "10.0.0.128/25", "10.0.0.0/30", "10.0.1.5/32", "10.0.0.64/27", "192.168.0.0/16"], "0.0.0.0/0");
    history(["2001:db8::/49", "2001:db8:0:8000::/49", "2001:db8::/64", "2001:db8:1::5/128", "2001:db8:0:1::/64", "fd00::/8"], "::/0");
}

#[test]
fn room_is_counted_in_the_nodes_of_the_form() -> Done {
    let plans = [Plan::new(0, 3)];
    let mut pool = Pool::new_in_form(Form::Second, 6, 3, &plans)?;
    assert_eq!((pool.set_mut(0).add(net("2001:db8::1/128")), pool.set_mut(0).add(net("fd00::1/128"))), (Ok(1), Ok(3)));
    assert_eq!(pool.set_mut(0).add(net("::1/128")), Err(Refusal::OverLimit));
    assert_eq!((pool.set(0).len(), pool.free()), (Ok(2), Ok(0)));
    assert_eq!(Pool::new(6, 3, &plans)?.set_mut(0).add(net("2001:db8::1/128")), Err(Refusal::OverLimit));
    Ok(())
}

#[test]
fn the_form_stands_in_the_words() -> Done {
    let plans = [Plan::new(10, 20), Plan::new(0, 30)];
    for (form, number) in [(Form::First, 0), (Form::Second, 1)] {
        let pool = Pool::new_in_form(form, 4, 100, &plans)?;
        assert_eq!(pool.form(), form);
        let mut words = pool.into_words();
        assert_eq!((words[5], words.len()), (number, Pool::words_needed(2, 100)?));
        let mut others = vec![7; words.len() + 1];
        Pool::layout_in_form(&mut others[..], form, 4, 100, &plans)?;
        assert_eq!((&others[..words.len()], others[words.len()]), (&words[..], 7));
        assert_eq!(Pool::open(&mut words[..])?.form(), form);
        words[5] = 2;
        assert_eq!(Pool::open(words).err(), Some(Refusal::Damaged));
    }
    assert_eq!(Pool::new_in_form(Form::First, 4, 100, &plans)?.into_words(), Pool::new(4, 100, &plans)?.into_words());
    assert_eq!(Pool::new_in_form(Form::Second, 5, 100, &plans).err(), Some(Refusal::BadSetup));
    Ok(())
}
