//! The crate around the original files: what they name under `crate::`, and the driver; with `--cfg stream`
//! the driver of tests/stream-against-rust beside it, which uses its parts; with `--cfg bench` the benchmark in their place.
#![allow(dead_code, unused_imports)]

extern crate alloc;

#[cfg(bench)]
mod bench;
mod cache;
#[cfg(not(bench))]
mod driver;
mod functions;
mod numbers;
#[cfg(stream)]
mod stream;

mod entropy {
    /// The host's random source.
    pub trait EntropySource {
        fn fill(bytes: &mut [u8]);
    }
}

mod identity {
    mod node_addr;
    pub use node_addr::NodeAddr;

    pub enum IdentityError {
        InvalidNodeAddrLength(usize),
    }

    pub struct NodePrefix([u8; 15]);

    impl NodePrefix {
        pub fn from_bytes(bytes: [u8; 15]) -> Self {
            Self(bytes)
        }

        pub fn as_bytes(&self) -> &[u8; 15] {
            &self.0
        }
    }

    pub struct PeerKey;

    impl PeerKey {
        pub fn from_xonly(_: &secp256k1::XOnlyPublicKey) -> Self {
            Self
        }

        pub fn addr(&self) -> NodeAddr {
            unreachable!("no address is derived from a public key here")
        }
    }

    pub fn hex_encode(bytes: &[u8]) -> String {
        bytes.iter().map(|b| format!("{b:02x}")).collect()
    }
}

mod proto {
    pub mod coord;

    pub mod stp {
        pub use super::coord::{CoordEntry, CoordError, TreeCoordinate};
    }

    #[derive(Debug)]
    pub enum Error {
        MessageTooShort { expected: usize, got: usize },
        Malformed(&'static str),
        BadCoord(coord::CoordError),
    }
}

mod utils {
    pub mod hash;
}

#[cfg(not(any(stream, bench)))]
fn main() -> std::process::ExitCode {
    driver::main()
}

#[cfg(stream)]
fn main() -> std::process::ExitCode {
    stream::main()
}

#[cfg(bench)]
fn main() -> std::process::ExitCode {
    bench::main()
}
