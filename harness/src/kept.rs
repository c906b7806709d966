//! The second form of docs/LAYOUT.md: the words of members and branch points, and what arbitrary words hold.
use crate::layout::{Form, Reading};
use crate::lists::{cleared, holds, width, List, Member};

/// A node as its words have it.
pub struct Node {
    pub len: u8,
    /// To its first child; 0 of a member.
    pub distance: u64,
    pub address: u128,
}

/// Node i of those that stand from `base` on.
pub fn node(w: &[u32], family: u8, base: usize, i: u64) -> Node {
    let stride = Form::Second.stride(family);
    let own = &w[base + stride * (i - 1) as usize..][..stride];
    Node { len: (own[0] % 256) as u8, distance: (own[0] / 256) as u64, address: own[1..].iter().fold(0, |a, &x| a << 32 | x as u128) }
}

/// The trie at node i, whose strings have to begin with the bits of `front`; gives the number behind it.
pub fn trie(r: &Reading, i: u64, front: Member, list: &mut List) -> Option<u64> {
    if i > r.nodes {
        return None;
    }
    let x = node(r.words, r.family, r.base, i);
    let right = x.len <= r.width && cleared(r.width, x.len, x.address) == x.address && holds(r.width, front, (x.len, x.address));
    if !right {
        return None;
    }
    if x.distance == 0 {
        list.insert((x.len, x.address));
        return Some(i + 1);
    }
    if x.len == r.width {
        return None;
    }
    let middle = trie(r, i + 1, (x.len + 1, x.address | 1u128 << (r.width - 1 - x.len)), list)?;
    if middle != i + x.distance {
        return None;
    }
    trie(r, middle, (x.len + 1, x.address), list)
}

/// The words of members, which stand in address order: that of their common bits, then those that go on with 1, then those that go on with 0.
pub fn encode(family: u8, members: &[(u128, u8)], out: &mut Vec<u32>) {
    let (w, at, first) = (width(family), out.len(), members[0]);
    let mut push = |len: u8, address: u128| {
        out.push(len as u32);
        out.extend((0..width(family) / 32).rev().map(|k| (address >> (32 * k)) as u32));
    };
    if members.len() == 1 {
        return push(first.1, first.0);
    }
    let len = ((first.0 ^ members[members.len() - 1].0).leading_zeros() - (128 - w as u32)) as u8;
    push(len, cleared(w, len, first.0));
    let middle = members.partition_point(|m| m.0 >> (w - 1 - len) & 1 == 0);
    encode(family, &members[middle..], out);
    out[at] += 256 * ((out.len() - at) / Form::Second.stride(family)) as u32;
    encode(family, &members[..middle], out);
}
