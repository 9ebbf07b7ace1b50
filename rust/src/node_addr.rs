//! The address of a node.

use std::error::Error;
use std::fmt;

use crate::packing::ADDRESS;
use crate::sys;

/// The address of a node: 16 bytes, ordered byte by byte.
///
/// ```
/// use coordcache::NodeAddr;
///
/// let addr = NodeAddr::from_bytes([0xaa; 16]);
/// assert_eq!(addr.to_string(), "aaaaaaaaaaaaaaaaaaaaaaaaaaaaaaaa");
/// assert!(addr < NodeAddr::from_bytes([0xab; 16]));
/// ```
#[derive(Clone, Copy, PartialEq, Eq, PartialOrd, Ord, Hash)]
#[repr(transparent)]
pub struct NodeAddr([u8; ADDRESS]);

impl NodeAddr {
    /// The address of these bytes.
    ///
    /// ```
    /// # use coordcache::NodeAddr;
    /// assert_eq!(NodeAddr::from_bytes([7; 16]).as_bytes(), &[7; 16]);
    /// ```
    #[inline]
    pub const fn from_bytes(bytes: [u8; ADDRESS]) -> Self {
        Self(bytes)
    }

    /// The address of a slice that has 16 bytes.
    ///
    /// ```
    /// # use coordcache::NodeAddr;
    /// let packet = [7; 40];
    /// assert_eq!(NodeAddr::from_slice(&packet[..16]), Ok(NodeAddr::from_bytes([7; 16])));
    /// assert_eq!(NodeAddr::from_slice(&packet).unwrap_err().to_string(), "a node address has 16 bytes, not 40");
    /// ```
    #[inline]
    pub fn from_slice(slice: &[u8]) -> Result<Self, AddrLength> {
        slice.try_into().map(Self).map_err(|_| AddrLength(slice.len()))
    }

    /// The bytes.
    ///
    /// ```
    /// # use coordcache::NodeAddr;
    /// assert_eq!(NodeAddr::from_bytes([7; 16]).as_bytes()[0], 7);
    /// ```
    #[inline]
    pub const fn as_bytes(&self) -> &[u8; ADDRESS] {
        &self.0
    }

    /// The bytes as a slice.
    ///
    /// ```
    /// # use coordcache::NodeAddr;
    /// assert_eq!(NodeAddr::from_bytes([7; 16]).as_slice().len(), 16);
    /// ```
    #[inline]
    pub const fn as_slice(&self) -> &[u8] {
        &self.0
    }

    /// An address where it stands among other bytes.
    #[inline]
    pub(crate) fn within(bytes: &[u8; ADDRESS]) -> &Self {
        sys::addr(bytes)
    }
}

impl AsRef<[u8]> for NodeAddr {
    #[inline]
    fn as_ref(&self) -> &[u8] {
        &self.0
    }
}

impl fmt::Display for NodeAddr {
    fn fmt(&self, f: &mut fmt::Formatter<'_>) -> fmt::Result {
        self.0.iter().try_for_each(|byte| write!(f, "{byte:02x}"))
    }
}

impl fmt::Debug for NodeAddr {
    fn fmt(&self, f: &mut fmt::Formatter<'_>) -> fmt::Result {
        write!(f, "NodeAddr({self})")
    }
}

/// A slice of this length is no address.
///
/// ```
/// # use coordcache::{AddrLength, NodeAddr};
/// assert_eq!(NodeAddr::from_slice(&[]), Err(AddrLength(0)));
/// ```
#[derive(Clone, Copy, Debug, PartialEq, Eq)]
pub struct AddrLength(pub usize);

impl fmt::Display for AddrLength {
    fn fmt(&self, f: &mut fmt::Formatter<'_>) -> fmt::Result {
        write!(f, "a node address has {ADDRESS} bytes, not {}", self.0)
    }
}

impl Error for AddrLength {}
