//! A path as it stands in memory, a cache's or a gateway's.

use std::fmt;

use crate::coord::{CoordEntry, TreeCoordinate};
use crate::node_addr::NodeAddr;
use crate::packing::{ELEMENT, SEQUENCE, TIMESTAMP, number};
use crate::sys;

/// The path from a node to its root, the node first: borrowed, as `str` is of `String`.
///
/// A lookup hands out the stored path as a part of the cache's own memory, where elements stand one behind the other at any
/// alignment. So a `Path` is their bytes, and nothing is copied or allocated to look at one; [`to_coordinate`](Path::to_coordinate)
/// makes a copy to keep. It has at least one element.
///
/// ```
/// use coordcache::{CoordCache, NodeAddr, Path, TreeCoordinate};
///
/// let [node, root] = [1, 2].map(|n| NodeAddr::from_bytes([n; 16]));
/// let mut cache: CoordCache = CoordCache::new(8, 300_000)?;
/// cache.insert_verified(node, TreeCoordinate::from_addrs(vec![node, root])?, 0)?;
/// let stored: &Path = cache.get(&node, 0).unwrap();
/// assert_eq!(stored.root_id(), &root);
/// # Ok::<(), Box<dyn std::error::Error>>(())
/// ```
#[derive(PartialEq, Eq)]
#[repr(transparent)]
pub struct Path([u8]);

#[allow(clippy::len_without_is_empty, reason = "no path is empty")]
impl Path {
    /// A path of bytes that are whole elements, at least one.
    #[inline]
    pub(crate) fn of(bytes: &[u8]) -> &Self {
        debug_assert!(!bytes.is_empty() && bytes.len().is_multiple_of(ELEMENT));
        sys::path(bytes)
    }

    #[inline]
    fn elements(&self) -> &[[u8; ELEMENT]] {
        self.0.as_chunks().0
    }

    /// The node that the path leads from: its first address.
    ///
    /// ```
    /// # use coordcache::{NodeAddr, TreeCoordinate};
    /// # let [node, parent, root] = [1, 2, 3].map(|n| NodeAddr::from_bytes([n; 16]));
    /// # let path = TreeCoordinate::from_addrs(vec![node, parent, root]).unwrap();
    /// assert_eq!(path.node_addr(), &node);
    /// ```
    #[inline]
    pub fn node_addr(&self) -> &NodeAddr {
        addr_of(&self.elements()[0])
    }

    /// The root that the path leads to: its last address.
    ///
    /// ```
    /// # use coordcache::{NodeAddr, TreeCoordinate};
    /// # let [node, parent, root] = [1, 2, 3].map(|n| NodeAddr::from_bytes([n; 16]));
    /// # let path = TreeCoordinate::from_addrs(vec![node, parent, root]).unwrap();
    /// assert_eq!(path.root_id(), &root);
    /// ```
    #[inline]
    pub fn root_id(&self) -> &NodeAddr {
        addr_of(&self.elements()[self.depth()])
    }

    /// The node's parent: the second address. A root is its own parent.
    ///
    /// ```
    /// # use coordcache::{NodeAddr, TreeCoordinate};
    /// # let [node, parent, root] = [1, 2, 3].map(|n| NodeAddr::from_bytes([n; 16]));
    /// # let path = TreeCoordinate::from_addrs(vec![node, parent, root]).unwrap();
    /// assert_eq!(path.parent_id(), &parent);
    /// assert_eq!(TreeCoordinate::root(root).parent_id(), &root);
    /// ```
    #[inline]
    pub fn parent_id(&self) -> &NodeAddr {
        addr_of(&self.elements()[self.depth().min(1)])
    }

    /// Steps from the node to the root; 0 for a root.
    ///
    /// ```
    /// # use coordcache::{NodeAddr, TreeCoordinate};
    /// # let [node, parent, root] = [1, 2, 3].map(|n| NodeAddr::from_bytes([n; 16]));
    /// # let path = TreeCoordinate::from_addrs(vec![node, parent, root]).unwrap();
    /// assert_eq!(path.depth(), 2);
    /// ```
    #[inline]
    pub fn depth(&self) -> usize {
        self.len() - 1
    }

    /// How many elements the path has.
    ///
    /// ```
    /// # use coordcache::{NodeAddr, TreeCoordinate};
    /// # let [node, parent, root] = [1, 2, 3].map(|n| NodeAddr::from_bytes([n; 16]));
    /// # let path = TreeCoordinate::from_addrs(vec![node, parent, root]).unwrap();
    /// assert_eq!(path.len(), 3);
    /// ```
    #[inline]
    pub fn len(&self) -> usize {
        self.elements().len()
    }

    /// Whether the node is itself the root.
    ///
    /// ```
    /// # use coordcache::{NodeAddr, TreeCoordinate};
    /// # let [node, parent, root] = [1, 2, 3].map(|n| NodeAddr::from_bytes([n; 16]));
    /// # let path = TreeCoordinate::from_addrs(vec![node, parent, root]).unwrap();
    /// assert!(!path.is_root());
    /// assert!(TreeCoordinate::root(root).is_root());
    /// ```
    #[inline]
    pub fn is_root(&self) -> bool {
        self.depth() == 0
    }

    /// Whether the path passes this node; its own node and root count.
    ///
    /// ```
    /// # use coordcache::{NodeAddr, TreeCoordinate};
    /// # let [node, parent, root] = [1, 2, 3].map(|n| NodeAddr::from_bytes([n; 16]));
    /// # let path = TreeCoordinate::from_addrs(vec![node, parent, root]).unwrap();
    /// assert!(path.contains(&parent));
    /// assert!(!path.contains(&NodeAddr::from_bytes([9; 16])));
    /// ```
    pub fn contains(&self, other: &NodeAddr) -> bool {
        self.node_addrs().any(|addr| addr == other)
    }

    /// The addresses, from the node to the root.
    ///
    /// ```
    /// # use coordcache::{NodeAddr, TreeCoordinate};
    /// # let [node, parent, root] = [1, 2, 3].map(|n| NodeAddr::from_bytes([n; 16]));
    /// # let path = TreeCoordinate::from_addrs(vec![node, parent, root]).unwrap();
    /// assert!(path.node_addrs().rev().eq([&root, &parent, &node]));
    /// ```
    pub fn node_addrs(&self) -> impl DoubleEndedIterator<Item = &NodeAddr> + ExactSizeIterator {
        self.elements().iter().map(addr_of)
    }

    /// The elements, from the node to the root. They come by value, since stored ones stand at any alignment.
    ///
    /// ```
    /// # use coordcache::{CoordEntry, NodeAddr, Path, TreeCoordinate};
    /// let coords = TreeCoordinate::root_with_meta(NodeAddr::from_bytes([1; 16]), 7, 9);
    /// let path: &Path = &coords;
    /// assert!(path.entries().eq([CoordEntry::new(*coords.node_addr(), 7, 9)]));
    /// ```
    pub fn entries(&self) -> impl DoubleEndedIterator<Item = CoordEntry> + ExactSizeIterator {
        self.elements().iter().map(|e| CoordEntry::new(*addr_of(e), number(e, SEQUENCE), number(e, TIMESTAMP)))
    }

    /// The bytes: 32 for each element, which are the address, the sequence and the timestamp, little-endian.
    ///
    /// ```
    /// # use coordcache::{NodeAddr, TreeCoordinate};
    /// let coords = TreeCoordinate::root_with_meta(NodeAddr::from_bytes([0xaa; 16]), 7, 9);
    /// assert_eq!(coords.as_bytes().len(), 32);
    /// assert_eq!(coords.as_bytes()[16..24], 7u64.to_le_bytes());
    /// ```
    #[inline]
    pub fn as_bytes(&self) -> &[u8] {
        &self.0
    }

    /// A copy that outlives the cache's next change.
    ///
    /// ```
    /// # use coordcache::{CoordCache, NodeAddr, TreeCoordinate};
    /// # let node = NodeAddr::from_bytes([1; 16]);
    /// # let mut cache: CoordCache = CoordCache::new(8, 300_000)?;
    /// cache.insert_verified(node, TreeCoordinate::root(node), 0)?;
    /// let kept = cache.get(&node, 0).unwrap().to_coordinate();
    /// cache.clear();
    /// assert_eq!(kept, TreeCoordinate::root(node));
    /// # Ok::<(), coordcache::Refused>(())
    /// ```
    pub fn to_coordinate(&self) -> TreeCoordinate {
        TreeCoordinate::new(self.entries().collect()).expect("no path is empty")
    }
}

/// The address with which an element begins.
#[inline]
fn addr_of(element: &[u8; ELEMENT]) -> &NodeAddr {
    NodeAddr::within(element.first_chunk().expect("an element begins with an address"))
}

impl AsRef<Path> for Path {
    #[inline]
    fn as_ref(&self) -> &Path {
        self
    }
}

impl PartialEq<TreeCoordinate> for Path {
    fn eq(&self, other: &TreeCoordinate) -> bool {
        *self == **other
    }
}

impl fmt::Debug for Path {
    fn fmt(&self, f: &mut fmt::Formatter<'_>) -> fmt::Result {
        f.debug_list().entries(self.entries()).finish()
    }
}
