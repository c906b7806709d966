//! What the path of a lookup shows, on any words: document 01, requests M-107, M-108 and M-111, and docs/LAYOUT.md.
use crate::kept;
use crate::layout::{header, least, Form, Header};
use crate::lists::{cleared, width};
use crate::model::{address, in_pool};
use crate::wire::Net;

/// The number of the root of a set, once the header is right and the set is there.
pub fn root(w: &[u32], set: u32) -> Result<(Header, u64), u8> {
    let h = header(w).ok_or(2)?;
    if set as usize >= h.sets {
        return Err(3);
    }
    Ok((h, w[64 + 8 * set as usize] as u64))
}

/// What a path shows: the length of the member met on the way down, if there is one, and how many nodes were read.
pub type Shown = (Option<u8>, u32);

/// Where a path begins: at a node that is so many bits down, or it shows all there is.
enum Begin {
    At(u64, u8),
    Shows(Shown),
}

/// At the root of a set.
fn at_root(root: u64, nodes: u64) -> Result<Begin, u8> {
    match root {
        0 => Ok(Begin::Shows((None, 0))),
        root if root > nodes => Err(2),
        root => Ok(Begin::At(root, 0)),
    }
}

/// At a word of an index, by M-108: 16 more than the depth of an absence, or a node's depth and 32 times how far behind the root it is. One of less than eight
/// bits is a member, which has to be a leaf.
fn at_index(w: &[u32], base: usize, nodes: u64, root: u64, x: u64) -> Result<Begin, u8> {
    if (16..=24).contains(&x) {
        return Ok(Begin::Shows((None, x as u32 - 16)));
    }
    let (i, depth) = (root + x / 32, (x % 32) as u8);
    if !(1..=nodes).contains(&i) || depth > 8 {
        return Err(2);
    }
    match depth {
        8 => Ok(Begin::At(i, depth)),
        _ if w[base + (i - 1) as usize] == 0 => Ok(Begin::Shows((Some(depth), depth as u32 + 1))),
        _ => Err(2),
    }
}

/// At the index where the set has one and the query is of eight bits or more. The tag of a set says which of the indexes is its own, counted from 1.
fn begin(w: &[u32], set: u32, nodes: u64, root: u64, n: &Net) -> Result<Begin, u8> {
    let (tag, indexes) = (w[68 + 8 * set as usize], w[4]);
    if tag == 0 || n.len < 8 {
        return at_root(root, nodes);
    }
    if tag > indexes {
        return Err(2);
    }
    let byte = (address(n) >> (width(n.family) - 8)) as usize;
    let index = least(w[2] as u64, nodes, tag as u64 - 1) as usize;
    at_index(w, 64 + 8 * w[2] as usize, nodes, root, w[index + byte] as u64)
}

/// Down the first form: at each node both children's numbers are read.
fn down(w: &[u32], h: &Header, n: &Net, from: u64, above: u8) -> Result<Shown, u8> {
    let (wide, a, nodes) = (width(h.family), address(n), h.nodes as u64);
    let mut i = from;
    for depth in above.. {
        let x = w[h.base() + (i - 1) as usize] as u64;
        if x == 0 {
            return Ok((Some(depth), depth as u32 + 1));
        }
        if i + x % 2 > nodes || i + x / 2 > nodes {
            return Err(2);
        }
        if depth == n.len {
            return Ok((None, depth as u32 + 1));
        }
        let step = if a >> (wide - 1 - depth) & 1 == 1 { x / 2 } else { x % 2 };
        if step == 0 {
            return Ok((None, depth as u32 + 1));
        }
        i += step;
    }
    unreachable!()
}

/// Down the second form: lengths have to grow, and the nodes read are counted whose strings lead the query.
fn down_kept(w: &[u32], h: &Header, n: &Net, from: u64) -> Result<Shown, u8> {
    let (wide, a) = (width(h.family), address(n));
    let (mut i, mut above, mut read) = (from, None, 0);
    loop {
        let x = kept::node(w, h.family, h.base(), i);
        if i + x.distance > h.nodes as u64 || above.is_some_and(|len| x.len <= len) {
            return Err(2);
        }
        if x.len > n.len || cleared(wide, x.len, x.address ^ a) != 0 {
            return Ok((None, read));
        }
        read += 1;
        if x.distance == 0 {
            return Ok((Some(x.len), read));
        }
        if x.len == n.len {
            return Ok((None, read));
        }
        i += if a >> (wide - 1 - x.len) & 1 == 1 { 1 } else { x.distance };
        above = Some(x.len);
    }
}

/// A lookup reads its own path, and nothing else.
pub fn path(w: &[u32], set: u32, n: &Net) -> Result<Shown, u8> {
    let (h, root) = root(w, set)?;
    match in_pool(h.family, n) {
        0 => {}
        no => return Err(no),
    }
    let begun = match h.form {
        Form::First => begin(w, set, h.nodes as u64, root, n)?,
        Form::Second => at_root(root, h.nodes as u64)?,
    };
    match (begun, h.form) {
        (Begin::Shows(all), _) => Ok(all),
        (Begin::At(i, depth), Form::First) => down(w, &h, n, i, depth),
        (Begin::At(i, _), Form::Second) => down_kept(w, &h, n, i),
    }
}
