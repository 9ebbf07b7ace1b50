//! The proved coordinate cache for a gateway in Rust.
//!
//! A mesh gateway remembers routes to its branches: for each node, the path to the root of its tree. This crate has the calls of
//! `CoordCache` in jmcorgan/fips, by their names and parameters, over a library in which each is proved to do what the rules say
//! (`crates/` of this repository). The crate itself is a thin layer that is not proved: it owns the memory, and turns numbers into
//! Rust's types.
//!
//! ```
//! use coordcache::{CoordCache, HintOutcome, NodeAddr, TreeCoordinate};
//!
//! let [branch, root, elsewhere] = [1, 2, 3].map(|n| NodeAddr::from_bytes([n; 16]));
//! let mut cache: CoordCache = CoordCache::new(8, 300_000)?;
//!
//! // a lookup whose proof was checked: no hint displaces it for VERIFIED_TTL_MS
//! cache.insert_verified(branch, TreeCoordinate::from_addrs(vec![branch, root])?, 1_000)?;
//! let placed = cache.insert(branch, TreeCoordinate::root(elsewhere), 1_000)?;
//! assert_eq!(placed.outcome, HintOutcome::Rejected);
//!
//! // routing by what is remembered; the path is a part of the cache's memory, nothing is copied
//! let path = cache.get_and_touch(&branch, 2_000).expect("it is remembered");
//! assert_eq!(path.root_id(), &root);
//! # Ok::<(), Box<dyn std::error::Error>>(())
//! ```
//!
//! # Where it takes the original's place
//!
//! Change the import; the compiler then shows what else there is to do:
//!
//! - [`CoordCache::new`] and the inserts return a `Result`: memory has an end here, and a call that would pass it is [`Refused`].
//!   A cache has at most 1,024 rows, so `max_entries` at most 993, and a path at most 32 elements.
//! - [`insert`](CoordCache::insert) and [`insert_with_ttl`](CoordCache::insert_with_ttl) answer a whole [`Placed`], of which the
//!   original gives the outcome; a verified insert answers its weight.
//! - Lookups hand out a [`Path`], which has the names of a [`TreeCoordinate`]; [`to_coordinate`](Path::to_coordinate) is a copy.
//! - [`demote`](CoordCache::demote) returns a `Result`, since it may need a sequence number.
//!
//! `docs/DIFFERENCES.md` has the differences in what the calls do, with their reasons, and what this crate leaves out.
//!
//! # What it is linked with
//!
//! `build.rs` links `libcoordcache.a`: from the folder that the variable `COORDCACHE_LIB_DIR` names, else it has
//! `tests/staticlib coordcache` prove and build it, which takes some minutes the first time.

#![deny(unsafe_code)]
#![warn(missing_docs)]

#[cfg(not(all(target_arch = "x86_64", target_os = "linux")))]
compile_error!("libcoordcache.a is built for x86-64 Linux alone: this crate needs a target such as x86_64-unknown-linux-gnu");

mod answers;
mod cache;
mod coord;
mod entry;
mod node_addr;
mod packing;
mod path;
mod refused;
#[allow(unsafe_code, reason = "the calls of the library; everything else of this crate is safe Rust")]
mod sys;

pub use answers::{CacheStats, Funding, HintOutcome, Placed, Segment, VerifiedInsert};
pub use cache::CoordCache;
pub use coord::{CoordEntry, CoordError, TreeCoordinate};
pub use entry::{CacheEntry, CoordSource};
pub use node_addr::{AddrLength, NodeAddr};
pub use packing::{ADDRS_PER_ENTRY, MAX_PATH, MAX_ROWS, PROBATION_SHARE_DIVISOR, VERIFIED_TTL_MS};
pub use path::Path;
pub use refused::Refused;
