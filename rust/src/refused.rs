//! Why a call was not done.

use std::error::Error;
use std::fmt;

use crate::packing::{MAX_PATH, MAX_ROWS, MOST_ENTRIES, PROBATION_SHARE_DIVISOR, UNCHARGED, UPTO};

/// A call that was not done, by the number that every form of this cache gives it. The cache is then as it was before the call.
///
/// A hint that the cache decides not to store is no refusal: it is answered
/// [`HintOutcome::Rejected`](crate::HintOutcome::Rejected).
///
/// ```
/// use coordcache::{CoordCache, Refused};
///
/// let refused = CoordCache::<()>::with_rows(24, 24, 300_000).unwrap_err();
/// assert_eq!(refused, Refused::RowCount);
/// assert_eq!(refused.number(), 5);
/// ```
#[derive(Clone, Copy, Debug, PartialEq, Eq, Hash)]
#[non_exhaustive]
#[repr(u8)]
pub enum Refused {
    /// 1: the memory is not a sound cache. A [`CoordCache`](crate::CoordCache) owns its memory, so none of its calls gives this.
    NotSound = 1,
    /// 2: the path has over [`MAX_PATH`](crate::MAX_PATH) elements. (An empty one cannot be made here.)
    PathLength = 2,
    /// 3: the sequence numbers that order entries of one millisecond are used up; none may wrap round.
    SequenceUsedUp = 3,
    /// 4: a verified insert of a key that is not in main found every main row taken, and room could not be made, since too many of
    /// them are verified themselves.
    NoMainRow = 4,
    /// 5: too few rows for this `max_entries`, or over [`MAX_ROWS`](crate::MAX_ROWS).
    RowCount = 5,
    /// 6: an unknown kind of funding. [`Funding`](crate::Funding) has only known ones, so no call of this crate gives this.
    FundingKind = 6,
}

impl Refused {
    /// The number, as in `include/coordcache.h` and `docs/COMMANDS.md`.
    ///
    /// ```
    /// assert_eq!(coordcache::Refused::NoMainRow.number(), 4);
    /// ```
    #[inline]
    pub const fn number(self) -> u8 {
        self as u8
    }

    /// What the library returned: 0 if done.
    #[inline]
    pub(crate) fn check(number: u8) -> Result<(), Refused> {
        if number == 0 {
            return Ok(());
        }
        let known = Self::ALL.into_iter().find(|refused| refused.number() == number);
        Err(known.unwrap_or_else(|| unreachable!("the library refused by {number}, a number that its header does not have")))
    }

    const ALL: [Refused; 6] = [
        Refused::NotSound,
        Refused::PathLength,
        Refused::SequenceUsedUp,
        Refused::NoMainRow,
        Refused::RowCount,
        Refused::FundingKind,
    ];
}

impl fmt::Display for Refused {
    fn fmt(&self, f: &mut fmt::Formatter<'_>) -> fmt::Result {
        write!(f, "refused by {}: ", self.number())?;
        match self {
            Refused::NotSound => write!(f, "the memory is not a sound cache; make a new cache"),
            Refused::PathLength => write!(
                f,
                "the path has over {MAX_PATH} elements, or none; route by it without storing it: a row has {MAX_PATH} places"
            ),
            Refused::SequenceUsedUp => {
                write!(f, "the sequence numbers are used up; make a new cache: this one takes no more inserts, and no demote")
            }
            Refused::NoMainRow => write!(
                f,
                "all main rows are taken, and so many entries are still verified that none may leave; \
                 remove an entry, try again when verifications have lapsed, or make the cache with more rows"
            ),
            Refused::RowCount => write!(
                f,
                "the rows do not suit max_entries; \
                 take max_entries + max(max_entries / {PROBATION_SHARE_DIVISOR}, 1) rows or more, and at most {},{:03}; \
                 so max_entries is at most {MOST_ENTRIES}",
                MAX_ROWS / 1000,
                MAX_ROWS % 1000
            ),
            Refused::FundingKind => {
                write!(f, "the kind of funding is unknown; use kind {UNCHARGED} (uncharged) or {UPTO} (up to an amount)")
            }
        }
    }
}

impl Error for Refused {}
