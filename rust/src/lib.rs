//! Sets of IP networks, up to 64 of them in one pool of words that you own or lend, each with a share and a limit of the pool's nodes. The work is done by
//! calls that are proved for every input, damaged memory included (docs/PROOFS.md); this crate gives them Rust's types.
//!
//! ```
//! use marlbrace::{IpNet, Plan, Pool};
//!
//! # fn main() -> Result<(), marlbrace::Refusal> {
//! let mut pool = Pool::new(4, 100, &[Plan::new(40, 60), Plan::new(30, 80)])?;
//! let mut guest = pool.set_mut(0);
//! guest.add("192.168.0.0/24".parse()?)?;
//! guest.add("192.168.1.0/24".parse()?)?;
//! guest.simplify()?;
//! assert!(pool.set(0).contains("192.168.1.7/32".parse()?)?);
//! let listed: Vec<IpNet> = pool.set(0).iter()?.collect();
//! assert_eq!(listed, ["192.168.0.0/23".parse()?]);
//! # Ok(())
//! # }
//! ```
//!
//! A refused call says why ([`Refusal`]) and changes nothing. For one set that grows as it needs to, with the names of the crate iprange, there is
//! [`IpRange`].
#![deny(unsafe_code, missing_docs)]

#[allow(unsafe_code)]
mod ffi;

mod entries;
mod files;
mod net;
mod pool;
mod range;
mod refusal;
mod room;
mod set;

pub use files::{compare, salvage, Compared, Salvaged};
pub use net::{IpNet, LINE};
pub use pool::{Form, Plan, Pool};
pub use range::IpRange;
pub use refusal::Refusal;
pub use set::{Set, SetMut};
