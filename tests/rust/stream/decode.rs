//! Commands read from bytes, from the text of 01's command stream and from nothing else: the proved reading must meet this one.
use crate::cache::Funding;
use crate::driver::calls::{Addr, Elem};
pub use crate::numbers::code::operands;
use crate::numbers::{BYTE, UNCHARGED, UPTO, code};

/// A command that is known, whole, and of a legal funding kind.
pub enum Command {
    Fresh { max: u64, ttl: u64 },
    Element(Elem),
    Insert { key: Addr, time: u64 },
    InsertWithTtl { key: Addr, time: u64, ttl: u64 },
    InsertFunded { key: Addr, time: u64, funding: Funding },
    InsertStated { key: Addr, time: u64, funding: Funding },
    InsertVerified { key: Addr, time: u64 },
    InsertVerifiedWithPathMtu { key: Addr, time: u64, mtu: u16 },
    Get { key: Addr, time: u64 },
    GetAndTouch { key: Addr, time: u64 },
    Remove { key: Addr },
    Demote { key: Addr },
    ClearPathMtu { key: Addr },
    PurgeExpired { time: u64 },
    Clear,
    InvalidateViaNode { addr: Addr },
    InvalidateOtherRoots { addr: Addr },
    Stats { time: u64 },
    NextExpiry,
}

/// The bytes of a whole command, its code among them.
pub fn size(code: u8) -> Option<usize> {
    operands(code).map(|widths| BYTE + widths.iter().sum::<usize>())
}

/// Whether these bytes are the beginning of a command and no more.
pub fn cut(bytes: &[u8]) -> bool {
    bytes.first().is_some_and(|code| size(*code).is_some_and(|n| bytes.len() < n))
}

/// The codes that empty the pending path, refused or not: by 6 too.
pub fn empties_pending(code: u8) -> bool {
    code::INSERTS.contains(&code)
}

/// Operands taken from the front, little-endian.
struct Operands<'a>(&'a [u8]);

impl Operands<'_> {
    fn array<const N: usize>(&mut self) -> [u8; N] {
        let (front, rest) = self.0.split_first_chunk::<N>().expect("the size was asked before");
        self.0 = rest;
        *front
    }

    fn addr(&mut self) -> Addr {
        self.array()
    }

    fn number(&mut self) -> u64 {
        u64::from_le_bytes(self.array())
    }

    fn short(&mut self) -> u16 {
        u16::from_le_bytes(self.array())
    }

    fn funding(&mut self) -> Option<Funding> {
        let [kind] = self.array::<BYTE>();
        let amount = self.number();
        match kind {
            UNCHARGED => Some(Funding::Uncharged),
            UPTO => Some(Funding::Upto(amount)),
            _ => None,
        }
    }
}

/// The command at the front and its size, or nothing where it is refused by 6: unknown, cut, or of a funding kind over 1.
pub fn command(bytes: &[u8]) -> Option<(Command, usize)> {
    let (&code, rest) = bytes.split_first()?;
    let size = size(code)?;
    if bytes.len() < size {
        return None;
    }
    let mut o = Operands(rest);
    let command = match code {
        code::FRESH => Command::Fresh { max: o.short().into(), ttl: o.number() },
        code::ELEMENT => Command::Element(Elem { addr: o.addr(), sequence: o.number(), timestamp: o.number() }),
        code::INSERT => Command::Insert { key: o.addr(), time: o.number() },
        code::INSERT_WITH_TTL => Command::InsertWithTtl { key: o.addr(), time: o.number(), ttl: o.number() },
        code::INSERT_FUNDED => Command::InsertFunded { key: o.addr(), time: o.number(), funding: o.funding()? },
        code::INSERT_STATED => Command::InsertStated { key: o.addr(), time: o.number(), funding: o.funding()? },
        code::INSERT_VERIFIED => Command::InsertVerified { key: o.addr(), time: o.number() },
        code::INSERT_VERIFIED_WITH_PATH_MTU => {
            Command::InsertVerifiedWithPathMtu { key: o.addr(), time: o.number(), mtu: o.short() }
        }
        code::GET => Command::Get { key: o.addr(), time: o.number() },
        code::GET_AND_TOUCH => Command::GetAndTouch { key: o.addr(), time: o.number() },
        code::REMOVE => Command::Remove { key: o.addr() },
        code::DEMOTE => Command::Demote { key: o.addr() },
        code::CLEAR_PATH_MTU => Command::ClearPathMtu { key: o.addr() },
        code::PURGE_EXPIRED => Command::PurgeExpired { time: o.number() },
        code::CLEAR => Command::Clear,
        code::INVALIDATE_VIA_NODE => Command::InvalidateViaNode { addr: o.addr() },
        code::INVALIDATE_OTHER_ROOTS => Command::InvalidateOtherRoots { addr: o.addr() },
        code::STATS => Command::Stats { time: o.number() },
        code::NEXT_EXPIRY => Command::NextExpiry,
        _ => return None,
    };
    Some((command, size))
}

/// The bytes of one run as commands. A run stops after a 6, so what follows one is left out.
pub fn split(mut bytes: &[u8]) -> Vec<Vec<u8>> {
    let mut commands = Vec::new();
    while let Some(&code) = bytes.first() {
        let n = size(code).unwrap_or(1).min(bytes.len());
        commands.push(bytes[..n].to_vec());
        if command(bytes).is_none() {
            break;
        }
        bytes = &bytes[n..];
    }
    commands
}
