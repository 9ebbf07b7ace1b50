//! A node's place in the tree, as a gateway makes it.

use std::error::Error;
use std::fmt;
use std::mem::{offset_of, size_of};
use std::ops::Deref;

use crate::node_addr::NodeAddr;
use crate::packing::{ELEMENT, SEQUENCE, TIMESTAMP};
use crate::path::Path;
use crate::sys;

/// One element of a path: a node, and the sequence and timestamp of its declaration.
///
/// The cache only stores and compares the two numbers: paths that differ in one of them are different paths.
///
/// ```
/// use coordcache::{CoordEntry, NodeAddr};
///
/// let element = CoordEntry { node_addr: NodeAddr::from_bytes([1; 16]), sequence: 7, timestamp: 1_700_000_000 };
/// assert_eq!(element.sequence, 7);
/// ```
#[derive(Clone, Copy, Debug, PartialEq, Eq)]
#[repr(C)]
pub struct CoordEntry {
    /// The node.
    pub node_addr: NodeAddr,
    /// The sequence of its declaration.
    pub sequence: u64,
    /// The time of its declaration.
    pub timestamp: u64,
}

// a `CoordEntry` is an element of a path as it stands in the memory; `sys::elements` rests on this
const _: () = assert!(
    size_of::<CoordEntry>() == ELEMENT
        && offset_of!(CoordEntry, node_addr) == 0
        && offset_of!(CoordEntry, sequence) == SEQUENCE
        && offset_of!(CoordEntry, timestamp) == TIMESTAMP
        && cfg!(target_endian = "little")
);

impl CoordEntry {
    /// An element with the numbers of its declaration.
    ///
    /// ```
    /// # use coordcache::{CoordEntry, NodeAddr};
    /// assert_eq!(CoordEntry::new(NodeAddr::from_bytes([1; 16]), 7, 9).timestamp, 9);
    /// ```
    #[inline]
    pub const fn new(node_addr: NodeAddr, sequence: u64, timestamp: u64) -> Self {
        Self { node_addr, sequence, timestamp }
    }

    /// An element of which only the address matters: both numbers are 0.
    ///
    /// ```
    /// # use coordcache::{CoordEntry, NodeAddr};
    /// let addr = NodeAddr::from_bytes([1; 16]);
    /// assert_eq!(CoordEntry::addr_only(addr), CoordEntry::new(addr, 0, 0));
    /// ```
    #[inline]
    pub const fn addr_only(node_addr: NodeAddr) -> Self {
        Self::new(node_addr, 0, 0)
    }
}

/// The path from a node to its root, the node first: at least one element.
///
/// It may be longer than a cache takes ([`MAX_PATH`](crate::MAX_PATH)); an insert then refuses it by 2. What can be asked of it,
/// it has from [`Path`], the same type as a lookup hands out.
///
/// ```
/// use coordcache::{NodeAddr, TreeCoordinate};
///
/// let [node, root] = [1, 2].map(|n| NodeAddr::from_bytes([n; 16]));
/// let coords = TreeCoordinate::from_addrs(vec![node, root])?;
/// assert_eq!((coords.node_addr(), coords.root_id(), coords.depth()), (&node, &root, 1));
/// # Ok::<(), coordcache::CoordError>(())
/// ```
#[derive(Clone, PartialEq, Eq)]
pub struct TreeCoordinate(Vec<CoordEntry>);

impl TreeCoordinate {
    /// A path of these elements, the node first and the root last.
    ///
    /// ```
    /// # use coordcache::{CoordEntry, CoordError, NodeAddr, TreeCoordinate};
    /// let element = CoordEntry::new(NodeAddr::from_bytes([1; 16]), 7, 9);
    /// assert_eq!(TreeCoordinate::new(vec![element])?.entries(), [element]);
    /// assert_eq!(TreeCoordinate::new(vec![]), Err(CoordError::EmptyCoordinate));
    /// # Ok::<(), CoordError>(())
    /// ```
    pub fn new(path: Vec<CoordEntry>) -> Result<Self, CoordError> {
        if path.is_empty() { Err(CoordError::EmptyCoordinate) } else { Ok(Self(path)) }
    }

    /// A path of these addresses, with 0 for every sequence and timestamp.
    ///
    /// ```
    /// # use coordcache::{CoordError, NodeAddr, TreeCoordinate};
    /// let addrs = vec![NodeAddr::from_bytes([1; 16]), NodeAddr::from_bytes([2; 16])];
    /// assert!(TreeCoordinate::from_addrs(addrs.clone())?.node_addrs().eq(&addrs));
    /// # Ok::<(), CoordError>(())
    /// ```
    pub fn from_addrs(addrs: Vec<NodeAddr>) -> Result<Self, CoordError> {
        Self::new(addrs.into_iter().map(CoordEntry::addr_only).collect())
    }

    /// The path of a root: one element.
    ///
    /// ```
    /// # use coordcache::{NodeAddr, TreeCoordinate};
    /// assert!(TreeCoordinate::root(NodeAddr::from_bytes([1; 16])).is_root());
    /// ```
    pub fn root(node_addr: NodeAddr) -> Self {
        Self::root_with_meta(node_addr, 0, 0)
    }

    /// The path of a root with the numbers of its declaration.
    ///
    /// ```
    /// # use coordcache::{NodeAddr, TreeCoordinate};
    /// assert_eq!(TreeCoordinate::root_with_meta(NodeAddr::from_bytes([1; 16]), 7, 9).entries()[0].sequence, 7);
    /// ```
    pub fn root_with_meta(node_addr: NodeAddr, sequence: u64, timestamp: u64) -> Self {
        Self(vec![CoordEntry::new(node_addr, sequence, timestamp)])
    }

    /// The elements.
    ///
    /// ```
    /// # use coordcache::{NodeAddr, TreeCoordinate};
    /// assert_eq!(TreeCoordinate::root(NodeAddr::from_bytes([1; 16])).entries().len(), 1);
    /// ```
    #[inline]
    pub fn entries(&self) -> &[CoordEntry] {
        &self.0
    }
}

impl Deref for TreeCoordinate {
    type Target = Path;

    #[inline]
    fn deref(&self) -> &Path {
        Path::of(sys::elements(&self.0))
    }
}

impl AsRef<Path> for TreeCoordinate {
    #[inline]
    fn as_ref(&self) -> &Path {
        self
    }
}

impl PartialEq<Path> for TreeCoordinate {
    fn eq(&self, other: &Path) -> bool {
        **self == *other
    }
}

impl fmt::Debug for TreeCoordinate {
    fn fmt(&self, f: &mut fmt::Formatter<'_>) -> fmt::Result {
        fmt::Debug::fmt(&**self, f)
    }
}

/// Why elements make no path.
///
/// ```
/// # use coordcache::CoordError;
/// assert_eq!(CoordError::EmptyCoordinate.to_string(), "a path has at least one element");
/// ```
#[derive(Clone, Copy, Debug, PartialEq, Eq)]
pub enum CoordError {
    /// There are none.
    EmptyCoordinate,
}

impl fmt::Display for CoordError {
    fn fmt(&self, f: &mut fmt::Formatter<'_>) -> fmt::Result {
        match self {
            CoordError::EmptyCoordinate => write!(f, "a path has at least one element"),
        }
    }
}

impl Error for CoordError {}
