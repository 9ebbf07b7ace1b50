//! Stand-in for `siphasher`: SipHash-1-3 under two keys, so that the original takes the time that it takes with the crate.
pub mod sip {
    use std::hash::Hasher;

    #[derive(Clone, Copy)]
    struct State {
        v0: u64,
        v1: u64,
        v2: u64,
        v3: u64,
    }

    impl State {
        #[inline]
        fn round(&mut self) {
            self.v0 = self.v0.wrapping_add(self.v1);
            self.v2 = self.v2.wrapping_add(self.v3);
            self.v1 = self.v1.rotate_left(13) ^ self.v0;
            self.v3 = self.v3.rotate_left(16) ^ self.v2;
            self.v0 = self.v0.rotate_left(32);
            self.v2 = self.v2.wrapping_add(self.v1);
            self.v0 = self.v0.wrapping_add(self.v3);
            self.v1 = self.v1.rotate_left(17) ^ self.v2;
            self.v3 = self.v3.rotate_left(21) ^ self.v0;
            self.v2 = self.v2.rotate_left(32);
        }

        #[inline]
        fn word(&mut self, m: u64) {
            self.v3 ^= m;
            self.round();
            self.v0 ^= m;
        }
    }

    pub struct SipHasher13 {
        state: State,
        /// the bytes of a word that is not yet whole, lowest first, and how many bytes there were in all
        tail: u64,
        length: usize,
    }

    impl SipHasher13 {
        pub fn new_with_keys(k0: u64, k1: u64) -> Self {
            let state = State {
                v0: k0 ^ 0x736f_6d65_7073_6575,
                v1: k1 ^ 0x646f_7261_6e64_6f6d,
                v2: k0 ^ 0x6c79_6765_6e65_7261,
                v3: k1 ^ 0x7465_6462_7974_6573,
            };
            SipHasher13 { state, tail: 0, length: 0 }
        }
    }

    impl Hasher for SipHasher13 {
        #[inline]
        fn write(&mut self, mut bytes: &[u8]) {
            let filled = self.length % 8;
            self.length += bytes.len();
            if filled > 0 {
                let taken = bytes.len().min(8 - filled);
                for (i, b) in bytes[..taken].iter().enumerate() {
                    self.tail |= u64::from(*b) << (8 * (filled + i));
                }
                if filled + taken < 8 {
                    return;
                }
                self.state.word(self.tail);
                self.tail = 0;
                bytes = &bytes[taken..];
            }
            let (words, rest) = bytes.as_chunks::<8>();
            for word in words {
                self.state.word(u64::from_le_bytes(*word));
            }
            for (i, b) in rest.iter().enumerate() {
                self.tail |= u64::from(*b) << (8 * i);
            }
        }

        #[inline]
        fn finish(&self) -> u64 {
            let mut state = self.state;
            state.word((self.length as u64) << 56 | self.tail);
            state.v2 ^= 0xff;
            for _ in 0..3 {
                state.round();
            }
            state.v0 ^ state.v1 ^ state.v2 ^ state.v3
        }
    }
}
