//! The rows of docs/DIFFERENCES.md, each by the smallest input that it names.

mod common;

use common::numbers::{
    DEFAULT_TTL_MS, ELEMENT, HEAD, KEY, MAX_ENTRIES, MOST_ENTRIES, PATH_PLACES, PLACES, ROW, ROW_COUNT, SEQ, WEIGHT_LIMIT,
};
use common::{TTL, addr, fresh, number, z};
use coordcache::{CoordCache, CoordError, Funding, HintOutcome, MAX_PATH, MAX_ROWS, Placed, Refused, Segment, TreeCoordinate};

/// What the original answers to these two entries is a panic, or a mean of 0: their ages add up to 2^64.
#[test]
fn mean_age_is_exact() {
    let mut cache = fresh(2);
    for key in [1, 2] {
        assert_eq!(cache.insert(addr(key), z(1), 0).unwrap().outcome, HintOutcome::Inserted);
    }
    let stats = cache.stats(1 << 63);
    assert_eq!((stats.entries, stats.max_entries, stats.expired, stats.avg_age_ms), (2, 2, 2, 1 << 63));
}

/// Number 1 cannot be had here: the memory is the cache's own, and every call keeps it sound. Two rows of one key, which is the
/// table's input, cannot be made.
#[test]
fn refusal_1_has_no_input() {
    let mut cache = fresh(2);
    for _ in 0..2 {
        cache.insert_verified(addr(1), z(1), 0).unwrap();
        assert!(cache.is_sound());
    }
    assert_eq!(cache.len(), 1);
}

/// The table's input, an empty path, cannot be made as a type; a path that is too long can.
#[test]
fn refusal_2_of_a_path_that_is_too_long() {
    assert_eq!(TreeCoordinate::from_addrs(vec![]), Err(CoordError::EmptyCoordinate));
    assert_eq!(TreeCoordinate::new(vec![]), Err(CoordError::EmptyCoordinate));

    let mut cache = fresh(8);
    cache.insert_verified(addr(1), z(MAX_PATH), 0).unwrap();
    let before = cache.clone();
    for elements in [MAX_PATH + 1, 70] {
        let long = z(elements);
        for funding in [Funding::Uncharged, Funding::Upto(0), Funding::Upto(u64::MAX)] {
            assert_eq!(cache.insert_funded(addr(2), &long, 0, funding), Err(Refused::PathLength));
            assert_eq!(cache.insert_stated(addr(2), &long, 0, funding), Err(Refused::PathLength));
        }
        assert_eq!(cache.insert(addr(2), &long, 0), Err(Refused::PathLength));
        assert_eq!(cache.insert_with_ttl(addr(1), &long, 0, 10), Err(Refused::PathLength));
        assert_eq!(cache.insert_verified(addr(1), &long, 0), Err(Refused::PathLength));
        assert_eq!(cache.insert_verified_with_path_mtu(addr(1), &long, 0, 1280), Err(Refused::PathLength));
    }
    assert_eq!(cache.as_bytes(), before.as_bytes());
}

/// Number 3 comes at a `seq` over `LAST_SEQ`, which no program reaches by this crate's calls: a call draws fewer than `STAMPS_OF_CALL`
/// stamps. That `seq` counts up, and is kept by `clear`, is seen in the memory.
#[test]
fn refusal_3_is_out_of_reach_but_seq_counts_up() {
    let seq = |cache: &CoordCache| number(cache, SEQ);
    let mut cache = fresh(1);
    assert_eq!(seq(&cache), 0);
    cache.insert_verified(addr(1), z(1), 0).unwrap();
    assert_eq!(seq(&cache), 1);
    assert_eq!(cache.insert(addr(2), z(1), 0).unwrap().outcome, HintOutcome::Rejected); // it parks the verified entry
    assert_eq!(seq(&cache), 2);
    assert_eq!(cache.demote(&addr(1)), Ok(true)); // which is stamped again
    assert_eq!(seq(&cache), 3);
    cache.clear();
    assert_eq!(seq(&cache), 3);
    assert_eq!(Refused::SequenceUsedUp.number(), 3);
}

/// Where the original grows past its bound.
#[test]
fn refusal_4_of_a_verified_insert() {
    let mut cache: CoordCache = CoordCache::with_rows(2, 1, TTL).unwrap();
    cache.insert_verified(addr(1), z(1), 0).unwrap();
    let before = cache.clone();
    assert_eq!(cache.insert_verified(addr(2), z(1), 0), Err(Refused::NoMainRow));
    assert_eq!(cache.insert_verified_with_path_mtu(addr(2), z(1), 0, 1280), Err(Refused::NoMainRow));
    assert_eq!(cache.as_bytes(), before.as_bytes());

    // a key that is in main has its row; any key has one when the verification has lapsed
    cache.insert_verified(addr(1), z(2), 0).unwrap();
    cache.insert_verified(addr(2), z(1), 300_001).unwrap();
    assert!(!cache.contains(&addr(1), 0));
}

/// By all rows it comes when all but one of them are verified in one stretch of `VERIFIED_TTL_MS`.
#[test]
fn refusal_4_comes_late_with_all_rows() {
    let key = |n: usize| coordcache::NodeAddr::from_bytes((n as u128).to_be_bytes());
    let mut cache = fresh(1);
    for n in 0..MAX_ROWS - 1 {
        cache.insert_verified(key(n), z(1), 0).unwrap();
    }
    assert_eq!(cache.insert_verified(key(MAX_ROWS), z(1), 0), Err(Refused::NoMainRow));
    assert_eq!(cache.len(), MAX_ROWS - 1);
    assert!(cache.is_sound());
}

#[test]
fn refusal_5_of_rows_that_do_not_suit() {
    let refused = |rows, max| CoordCache::<()>::with_rows(rows, max, TTL).err();
    assert_eq!(refused(24, 24), Some(Refused::RowCount));
    assert_eq!(refused(24, 23), None);
    assert_eq!(refused(0, 0), Some(Refused::RowCount));
    assert_eq!(refused(MAX_ROWS + 1, 1), Some(Refused::RowCount));
    assert_eq!(refused(usize::MAX, 1), Some(Refused::RowCount)); // no memory was asked for
    assert_eq!(refused(MAX_ROWS, usize::MAX), Some(Refused::RowCount));
    let most = MOST_ENTRIES as usize;
    assert_eq!(CoordCache::<()>::new(most, TTL).err(), None);
    assert_eq!(CoordCache::<()>::new(most + 1, TTL).err(), Some(Refused::RowCount));
}

/// The memory is a head and rows, in the order of keys however they came.
#[test]
fn lent_memory_has_rows_in_key_order() {
    let mut cache = fresh(8);
    for key in [7, 3, 9, 1, 0xff] {
        cache.insert_verified(addr(key), z(1), 0).unwrap();
    }
    cache.remove(&addr(7));
    let memory = cache.as_bytes();
    assert_eq!(memory.len(), HEAD + MAX_ROWS * ROW);
    assert_eq!([MAX_ENTRIES, DEFAULT_TTL_MS, ROW_COUNT].map(|at| number(&cache, at)), [8, TTL, 4]);
    let keys: Vec<u8> = memory[HEAD..].chunks(ROW).take(4).map(|row| row[KEY]).collect();
    assert_eq!(keys, [1, 3, 9, 0xff]);
    assert!(memory[HEAD + 4 * ROW..].iter().all(|byte| *byte == 0));
}

#[test]
fn insert_and_insert_with_ttl_answer_a_whole_placed() {
    let mut cache = fresh(8);
    let new = Placed { outcome: HintOutcome::Inserted, added_weight: 16, segment: Segment::Main, unfunded: false, examined: 0 };
    assert_eq!(cache.insert(addr(1), z(1), 0), Ok(new));
    assert_eq!(cache.insert_with_ttl(addr(2), z(20), 0, 10), Ok(Placed { added_weight: 20, ..new }));
}

#[test]
fn examined_counts_the_keys_taken_up() {
    let mut cache = fresh(1);
    assert_eq!(cache.insert(addr(1), z(1), 0).unwrap().examined, 0);
    assert_eq!(cache.insert(addr(2), z(1), 1).unwrap().examined, 1); // addr(1) leaves
    assert!(cache.get_and_touch(&addr(2), 2).is_some());
    assert_eq!(cache.insert_verified(addr(3), z(1), 3).unwrap().examined, 2); // addr(2), restamped first
    assert_eq!(cache.len(), 1);
}

#[test]
fn insert_verified_answers_weight_and_examined() {
    let mut cache = fresh(8);
    let answers = [1, 16, 17, PLACES].map(|elements| cache.insert_verified(addr(1), z(elements), 0).unwrap());
    assert_eq!(answers.map(|answer| answer.weight), [16, 16, 17, WEIGHT_LIMIT]);
    assert_eq!(answers.map(|answer| answer.examined), [0; 4]);
    assert_eq!(cache.insert_verified_with_path_mtu(addr(1), z(20), 0, 1280).unwrap().weight, 20);
}

/// A lookup copies nothing: the path lies in the memory, from the first place of its row on.
#[test]
fn get_and_get_and_touch_hand_out_a_part_of_the_memory() {
    let mut cache = fresh(8);
    cache.insert_verified(addr(1), z(3), 0).unwrap();
    cache.insert_verified(addr(2), z(2), 0).unwrap();
    let inside =
        |path: &coordcache::Path, cache: &CoordCache| path.as_bytes().as_ptr() as usize - cache.as_bytes().as_ptr() as usize;
    let got = cache.get(&addr(1), 0).unwrap();
    assert_eq!((inside(got, &cache), got.as_bytes().len()), (HEAD + PATH_PLACES, 3 * ELEMENT));
    let second = cache.get(&addr(2), 0).unwrap();
    assert_eq!((inside(second, &cache), second.as_bytes().len()), (HEAD + ROW + PATH_PLACES, 2 * ELEMENT));
    let touched = cache.get_and_touch(&addr(2), 0).unwrap().as_bytes().as_ptr_range();
    let memory = cache.as_bytes().as_ptr_range();
    assert!(memory.start < touched.start && touched.end < memory.end);
    assert_eq!(touched, cache.get(&addr(2), 0).unwrap().as_bytes().as_ptr_range());
}

#[test]
fn next_expiry_is_the_smallest_expires_at() {
    let mut cache = fresh(8);
    assert_eq!(cache.next_expiry(), None);
    cache.insert_verified(addr(1), z(1), 7).unwrap();
    assert_eq!(cache.next_expiry(), Some(300_007));
    assert_eq!(cache.insert_with_ttl(addr(2), z(1), 7, 10).unwrap().outcome, HintOutcome::Inserted);
    assert_eq!(cache.next_expiry(), Some(17));
    assert_eq!(cache.purge_expired(18), 1);
    assert_eq!(cache.next_expiry(), Some(300_007));
    cache.clear();
    assert_eq!(cache.next_expiry(), None);
}

/// The proved code has no `Option`; here it is the original's again.
#[test]
fn remove_answers_the_mtu_as_an_option() {
    let mut cache = fresh(8);
    cache.insert_verified(addr(1), z(1), 0).unwrap();
    assert_eq!(cache.remove(&addr(1)).unwrap().path_mtu(), None);
    cache.insert_verified_with_path_mtu(addr(1), z(1), 0, 0).unwrap();
    assert_eq!(cache.remove(&addr(1)).unwrap().path_mtu(), Some(0)); // an MTU of 0 is one
    cache.insert_verified_with_path_mtu(addr(1), z(1), 0, u16::MAX).unwrap();
    cache.insert_verified(addr(1), z(2), 0).unwrap();
    assert_eq!(cache.remove(&addr(1)).unwrap().path_mtu(), Some(u16::MAX)); // kept by an update
}
