//! The texts, files and ranges that sequences of calls are fed with: right ones of a plan's networks, and those that are wrong.
use crate::files::{file, file_of};
use crate::layout::State;
use crate::lists::{self, cleared, width, List, Member};
use crate::plan::{Dice, Plan};
use crate::salvage;
use crate::text6::text6;
use crate::wire::*;

/// Six lines with a leading zero, and four without one.
const ZEROS: [&str; 10] = [
    "010.0.0.0/8",
    "10.0.0.00/8",
    "10.0.0.0/08",
    "10.0.0.0/00",
    "000.0.0.0/0",
    "1.2.3.04/32",
    "0.0.0.0/0",
    "10.0.0.0/8",
    "255.255.255.255/32",
    "100.200.0.9/10",
];

/// IPv6 lines: the forms of RFC 4291 section 2.2 and 2.3, and near misses.
const FORMS: [&str; 24] = [
    "2001:DB8:0:0:8:800:200C:417A/64",
    "2001:db8::8:800:200c:417a/64",
    "::1/128",
    "::/0",
    "1::/16",
    "::ffff:129.144.52.38/96",
    "1:2:3:4:5:6:1.2.3.4/128",
    "1:2:3:4:5:6:7::/112",
    "::2:3:4:5:6:7:8/0",
    "2001:0DB8::CD30:0:0:0:0/60",
    "ffff:ffff:ffff:ffff:ffff:ffff:255.255.255.255/128",
    "1:2:3:4:5:6:7::8/64",
    "1::2::3/64",
    "1:2:3:4:5:6:7:8:9/64",
    "12345::/64",
    "::1.2.3.4:5/64",
    "1.2.3.4::/64",
    "fe80::1%1/64",
    "[::]/0",
    ":::/0",
    "1:/16",
    ":1/16",
    "1:2:3:4:5:6:7:1.2.3.4/64",
    "::01.2.3.4/96",
];

impl Plan {
    pub(crate) fn line(&self, d: &mut Dice) -> Vec<u8> {
        if d.one_in(3) {
            return d.pick(&ZEROS).into();
        }
        let n = |d: &mut Dice| d.pick(&[0u64, 1, 9, 10, 99, 100, 199, 255, 256, 300, 1000]);
        let mut numbers = [n(d), n(d), n(d), n(d), d.below(40)].map(|n| n.to_string());
        if d.one_in(2) {
            numbers = [256, 256, 256, 256, 33].map(|k| d.below(k).to_string());
        }
        if d.one_in(3) {
            // leading zeros in one of the numbers, the length among them
            let k = d.below(5) as usize;
            numbers[k] = format!("{}{}", d.pick(&["0", "0", "00"]), numbers[k]);
        }
        let [a, b, c, e, len] = numbers;
        let mut s = format!("{a}.{b}.{c}.{e}/{len}").into_bytes();
        if d.one_in(6) {
            let at = d.below(s.len() as u64) as usize;
            s[at] = d.pick(b"0/. \r\n-+9x\xff");
        }
        if d.one_in(10) {
            s.insert(d.below(s.len() as u64) as usize, d.pick(b"0./1"));
        }
        if d.one_in(10) {
            s.truncate(d.below(s.len() as u64 + 1) as usize);
        }
        s
    }

    /// A line of an IPv6 network in one of its forms, most often broken in one place.
    pub(crate) fn line6(&self, d: &mut Dice) -> Vec<u8> {
        if d.one_in(4) {
            return d.pick(&FORMS).into();
        }
        let mut s = String::new();
        let (count, gap) = (d.below(9), d.below(12));
        for k in 0..count {
            if k == gap {
                s.push_str(if k == 0 { "::" } else { ":" });
            }
            let g = d.pick(&[0u64, 0, 1, 0xf, 0x10, 0xdb8, 0xffff, 0x10000]).min(d.below(0x10002));
            let piece = match d.below(12) {
                0 => format!("{g:04X}"),
                1 => format!("0{g:x}"),
                2 if k + 1 >= count => format!("{}.{}.{}.{}", d.below(257), d.below(256), d.below(300), d.below(256)),
                _ => format!("{g:x}"),
            };
            s.push_str(&piece);
            if k + 1 < count {
                s.push(':');
            }
        }
        if gap == count {
            s.push_str("::");
        }
        let mut s = format!("{s}/{}", d.pick(&["0", "00", "064", "64", "128", "129", "48", "", "1"])).into_bytes();
        if d.one_in(6) {
            let at = d.below(s.len() as u64) as usize;
            s[at] = d.pick(b"0/.: %[]g\nF\xff");
        }
        if d.one_in(10) {
            s.insert(d.below(s.len() as u64) as usize, d.pick(b"0.:/1"));
        }
        s
    }

    /// The file of a list of the pool, or of another one; most are broken in one place.
    pub(crate) fn file(&self, d: &mut Dice, s: &State) -> Vec<u8> {
        let family = if d.one_in(20) { 10 - self.family } else { self.family };
        let mut l = s.sets[d.below(s.sets.len() as u64) as usize].list.clone();
        if d.one_in(2) || family != self.family {
            l = (0..d.below(12)).fold(List::new(), |l, _| lists::add(width(family), &l, Plan { family, ..self.clone() }.member(d)));
        }
        let mut f = file(family, &l);
        match d.below(8) {
            0 => {
                let at = d.below(f.len() as u64) as usize;
                f[at] ^= 1 << d.below(8);
            }
            1 => {
                let at = d.below(16) as usize;
                f[at] = d.pick(&[0, 1, 4, 6, 16, 64, 255]);
            }
            2 => f.truncate(d.below(f.len() as u64) as usize),
            3 => f.push(d.below(256) as u8),
            4 => {
                // one entry more, anywhere: most often out of order or inside another
                let mut m: Vec<Member> = l.iter().copied().collect();
                let more = if m.is_empty() || d.one_in(2) { self.member(d) } else { d.pick(&m) };
                m.insert(d.below(m.len() as u64 + 1) as usize, (more.0.min(width(family)), more.1));
                f = file_of(family, m.into_iter());
            }
            _ => {}
        }
        f
    }

    /// The file of some networks, most of them listed, beside those listed or inside them; of none at times.
    pub(crate) fn nets(&self, d: &mut Dice, s: &State) -> Vec<u8> {
        let w = width(self.family);
        let deeper = |d: &mut Dice, m: Member| {
            let len = d.pick(&[m.0, m.0, w.min(m.0 + 3)]);
            (len, m.1 | cleared(w, len, d.roll() as u128 & lists::past(w, m.0)))
        };
        let some = (0..d.below(7)).fold(List::new(), |l, _| {
            let m = self.near(d, s);
            lists::add(w, &l, deeper(d, m))
        });
        file(self.family, &some)
    }

    /// The first and the last address of a range: inside a member, over one or from one to another, all or from an end, one address less, one alone; some go
    /// backward.
    pub(crate) fn range(&self, d: &mut Dice, s: &State) -> (u128, u128) {
        let (w, m, n) = (width(self.family), self.near(d, s), self.near(d, s));
        let (all, end) = (lists::past(w, 0), |m: Member| m.1 | lists::past(w, m.0));
        let (a, b) = (m.1.min(n.1), end(m).max(end(n)));
        match d.below(16) {
            0 => (0, all),
            1 => (0, b),
            2 => (a, all),
            3 => (a, a),
            4 => (b, b),
            5 => (m.1, m.1 | end(m) >> 1 & lists::past(w, m.0)),
            6 => (a.saturating_add(1).min(b), b),
            7 => (a, b.saturating_sub(1).max(a)),
            8 => (b, a),
            9 => (a, a.saturating_sub(1)),
            10..=12 => (m.1, end(m)),
            _ => (a, b),
        }
    }

    /// A list and one that is said to be equal: the same, simplified, with a member cut, halved or gone, with an address flipped, or another; in either order. Some files are broken.
    pub(crate) fn pair(&self, d: &mut Dice, s: &State) -> (Vec<u8>, Vec<u8>) {
        if d.one_in(6) {
            return (self.file(d, s), self.file(d, s));
        }
        let w = width(self.family);
        let mut l = s.sets[d.below(s.sets.len() as u64) as usize].list.clone();
        if d.one_in(2) {
            l = (0..d.below(8)).fold(List::new(), |l, _| lists::add(w, &l, self.member(d)));
        }
        let any = if l.is_empty() { self.member(d) } else { *l.iter().nth(d.below(l.len() as u64) as usize).unwrap() };
        let half = |b: u128| (any.0 + 1, any.1 | b << (w - any.0 - 1));
        let address = (w, any.1 | d.pick(&[0, 1, u128::MAX]) & lists::past(w, any.0));
        let mut m = l.clone();
        match d.below(6) {
            0 => m = lists::simplify(w, &l),
            1 if any.0 < w => m = lists::remove(w, &l, half(d.below(2) as u128)),
            2 if any.0 < w && m.remove(&any) => m.extend([half(0), half(1)]),
            3 if lists::supernet(w, &l, address).is_some() => m = lists::remove(w, &l, address),
            3 => m = lists::add(w, &l, address),
            4 => {
                m.remove(&any);
            }
            _ => {}
        }
        let (first, second) = (file(self.family, &l), file(self.family, &m));
        if d.one_in(2) { (second, first) } else { (first, second) }
    }

    /// A salvage of a wreck: of a list of the pool or of another one, or a file that is broken in one place.
    pub(crate) fn salvage(&self, d: &mut Dice, s: &State) -> Call {
        if d.one_in(4) {
            let f = self.file(d, s);
            return salvage::call(d, f);
        }
        let list = if d.one_in(2) { s.sets[d.below(s.sets.len() as u64) as usize].list.iter().copied().collect() } else { (0..d.below(12)).map(|_| self.member(d)).collect() };
        let f = salvage::wreck(d, self.family, list, |d| self.member(d));
        salvage::call(d, f)
    }

    /// Some lines, most of them networks of the plan.
    pub(crate) fn lines(&self, d: &mut Dice) -> Vec<u8> {
        let mut s = vec![];
        for _ in 0..d.below(6) {
            if d.one_in(5) {
                s.extend(if d.one_in(2) { self.line(d) } else { self.line6(d) });
            } else if self.family == 6 {
                let m = self.member(d);
                s.extend(format!("{}/{}", text6(m.1), m.0).bytes());
            } else {
                let m = self.member(d);
                s.extend(format!("{}.{}.{}.{}/{}", m.1 >> 24 & 255, m.1 >> 16 & 255, m.1 >> 8 & 255, m.1 & 255, m.0.min(32)).bytes());
            }
            s.push(b'\n');
        }
        if d.one_in(3) {
            s.pop();
        }
        s
    }
}
