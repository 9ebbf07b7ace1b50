//! Stand-in for `secp256k1`: the cache names the type and never makes one.
pub struct XOnlyPublicKey;
