//! Table P of document 01, row by row; then the calls at their limits.

mod common;

use common::numbers::{ADDRESS, MOST_ENTRIES, PLACES, ROW_COUNT, WEIGHT_LIMIT};
use common::{TTL, addr, fresh, number, z};
use coordcache::{
    CacheStats, CoordCache, CoordEntry, CoordSource, Funding, HintOutcome, MAX_PATH, MAX_ROWS, NodeAddr, PROBATION_SHARE_DIVISOR,
    Path, Placed, Refused, Segment, TreeCoordinate, VERIFIED_TTL_MS,
};
use {Funding::*, HintOutcome::*, Segment::*};

const A: u8 = 1;
const B: u8 = 2;
const C: u8 = 3;

/// A funded insert of a path of so many elements.
fn funded(cache: &mut CoordCache, key: u8, elements: usize, time: u64, funding: Funding) -> Placed {
    cache.insert_funded(addr(key), z(elements), time, funding).unwrap()
}

/// Outcome, weight, segment, unfunded: an answer without the keys examined.
fn told(placed: Placed) -> (HintOutcome, u64, Segment, bool) {
    (placed.outcome, placed.added_weight, placed.segment, placed.unfunded)
}

// ---- Table P

#[test]
fn p1_lengths_1_16_17_weigh_16_16_17() {
    for (elements, weight) in [(1, 16), (16, 16), (17, 17)] {
        assert_eq!(told(funded(&mut fresh(2), A, elements, 0, Upto(17))), (Inserted, weight, Main, false));
        assert_eq!(fresh(2).insert_verified(addr(A), z(elements), 0).unwrap().weight, weight);
    }
}

#[test]
fn p2_probation_at_max_0_63_64_holds_1_1_2() {
    for (max, held) in [(0, 1), (63, 1), (64, 2)] {
        assert_eq!((max / PROBATION_SHARE_DIVISOR).max(1), held);
        let mut cache = fresh(max);
        for key in 1..=5 {
            assert_eq!(told(funded(&mut cache, key, 1, 0, Upto(15))), (Inserted, 0, Probation, true));
        }
        assert_eq!(cache.len(), held);
        // and so many rows it needs besides max
        assert!(CoordCache::<()>::with_rows(max + held, max, TTL).is_ok());
        assert_eq!(CoordCache::<()>::with_rows(max + held - 1, max, TTL).err(), Some(Refused::RowCount));
    }
}

#[test]
fn p3_ttl_10_set_at_5_is_read_at_15_and_gone_at_16() {
    let mut own = fresh(2);
    assert_eq!(own.insert_with_ttl(addr(A), z(1), 5, 10).unwrap().outcome, Inserted);
    let mut default: CoordCache = CoordCache::new(2, 10).unwrap();
    assert_eq!(default.insert(addr(A), z(1), 5).unwrap().outcome, Inserted);
    for mut cache in [own, default] {
        assert_eq!(cache.get(&addr(A), 15).unwrap(), &z(1));
        assert_eq!(cache.get(&addr(A), 16), None);
        assert_eq!(cache.len(), 1); // a get removes nothing
        assert_eq!(cache.get_and_touch(&addr(A), 16), None);
        assert_eq!(cache.len(), 0);
    }
}

#[test]
fn p4_verified_at_0_is_so_at_300000_and_not_at_300001() {
    let mut cache: CoordCache = CoordCache::new(2, 600_000).unwrap();
    cache.insert_verified(addr(A), z(1), 0).unwrap();
    assert_eq!(told(cache.insert(addr(A), z(2), 300_000).unwrap()), (Rejected, 0, Main, false));
    let entry = cache.clone().remove(&addr(A)).unwrap();
    assert_eq!((entry.source(), entry.verified_until()), (CoordSource::Verified, VERIFIED_TTL_MS));
    assert!(entry.is_verified(300_000) && !entry.is_verified(300_001));
    assert_eq!(told(cache.insert(addr(A), z(2), 300_001).unwrap()), (Changed, 0, Main, false));
    let entry = cache.remove(&addr(A)).unwrap();
    assert_eq!((entry.source(), entry.verified_until(), entry.is_verified(0)), (CoordSource::Hint, 0, false));
}

#[test]
fn p5_max_0_and_a_new_key() {
    assert_eq!(told(funded(&mut fresh(0), A, 1, 0, Uncharged)), (Rejected, 0, Main, false));
    assert_eq!(told(funded(&mut fresh(0), A, 1, 0, Upto(16))), (Inserted, 0, Probation, false));
    assert_eq!(told(funded(&mut fresh(0), A, 1, 0, Upto(15))), (Inserted, 0, Probation, true));
}

#[test]
fn p6_max_1_and_a_verified_key() {
    let mut cache = fresh(1);
    cache.insert_verified(addr(A), z(1), 0).unwrap();
    assert_eq!(told(funded(&mut cache.clone(), B, 1, 300_000, Upto(16))), (Inserted, 0, Probation, false));
    assert_eq!(told(funded(&mut cache, B, 1, 300_001, Upto(16))), (Inserted, 16, Main, false));
    assert_eq!(cache.get(&addr(A), 0), None);
}

#[test]
fn p7_heavier_than_the_whole_bound() {
    assert_eq!(told(funded(&mut fresh(1), A, 17, 0, Upto(17))), (Inserted, 17, Main, false));
}

#[test]
fn p8_probation_weight_20_and_a_shallow_write() {
    let mut cache = fresh(2);
    assert_eq!(told(funded(&mut cache, A, 20, 0, Upto(15))), (Inserted, 0, Probation, true));
    assert_eq!(told(funded(&mut cache.clone(), A, 1, 1, Upto(16))), (Changed, 0, Probation, false));
    assert_eq!(told(funded(&mut cache, A, 1, 1, Upto(20))), (Changed, 20, Main, false));
}

#[test]
fn p9_growth_in_main() {
    let mut cache = fresh(2);
    assert_eq!(told(funded(&mut cache, A, 1, 0, Upto(16))), (Inserted, 16, Main, false));
    assert_eq!(told(funded(&mut cache, A, 18, 1, Upto(1))), (Rejected, 0, Main, true));
    assert_eq!(cache.get(&addr(A), 1).unwrap().len(), 1);
    assert_eq!(told(funded(&mut cache, A, 18, 1, Upto(2))), (Changed, 2, Main, false));
    assert_eq!(cache.get(&addr(A), 1).unwrap().len(), 18);
}

#[test]
fn p10_the_touched_one_stays() {
    let mut cache = fresh(2);
    assert_eq!(told(funded(&mut cache, A, 1, 1, Upto(16))), (Inserted, 16, Main, false));
    assert_eq!(told(funded(&mut cache, B, 1, 2, Upto(16))), (Inserted, 16, Main, false));
    assert!(cache.get_and_touch(&addr(A), 3).is_some());
    let placed = funded(&mut cache, C, 1, 4, Upto(16));
    assert_eq!((told(placed), placed.examined), ((Inserted, 16, Main, false), 2));
    assert_eq!([A, B, C].map(|key| cache.contains(&addr(key), 4)), [true, false, true]);
}

// ---- paths

/// A path comes back with every number, in a row at any alignment, and can go from one cache to another as it stands.
#[test]
fn a_path_comes_back_as_it_went() {
    let elements = |n: usize| (0..n as u64).map(move |k| CoordEntry::new(addr(k as u8), u64::MAX - k, k << 40));
    let mut cache = fresh(64);
    for n in 1..=MAX_PATH {
        let path = TreeCoordinate::new(elements(n).collect()).unwrap();
        assert_eq!(cache.insert(addr(n as u8), path, 0).unwrap().outcome, Inserted);
    }
    let mut other = fresh(64);
    for n in 1..=MAX_PATH {
        let got = cache.get(&addr(n as u8), 0).unwrap();
        assert!(got.entries().eq(elements(n)));
        assert!(got.entries().rev().eq(elements(n).rev()));
        assert!(got.node_addrs().copied().eq(elements(n).map(|element| element.node_addr)));
        assert_eq!((got.len(), got.depth(), got.is_root()), (n, n - 1, n == 1));
        assert_eq!((got.node_addr(), got.root_id()), (&addr(0), &addr(n as u8 - 1)));
        assert_eq!(got.parent_id(), &addr(u8::from(n > 1)));
        assert!(got.contains(&addr(n as u8 - 1)) && !got.contains(&addr(n as u8)));
        assert_eq!(got.to_coordinate().entries(), elements(n).collect::<Vec<_>>());
        assert_eq!(other.insert(addr(n as u8), got, 0).unwrap().outcome, Inserted);
        assert_eq!(other.get(&addr(n as u8), 0), Some(got));
    }
}

#[test]
fn coordinates_are_taken_by_value_by_reference_and_as_stored() {
    let (mut cache, coords) = (fresh(8), z(2));
    let path: &Path = &coords;
    assert_eq!(cache.insert(addr(A), path, 0).unwrap().outcome, Inserted);
    assert_eq!(cache.insert(addr(A), &coords, 0).unwrap().outcome, Unchanged);
    assert_eq!(cache.insert(addr(A), cache.clone().get(&addr(A), 0).unwrap(), 0).unwrap().outcome, Unchanged);
    assert_eq!(cache.insert(addr(A), coords, 0).unwrap().outcome, Unchanged);
}

#[test]
fn paths_that_differ_in_any_field_differ() {
    let base = TreeCoordinate::root_with_meta(addr(A), 7, 9);
    let mut cache = fresh(8);
    assert_eq!(cache.insert(addr(A), &base, 0).unwrap().outcome, Inserted);
    for (node, sequence, timestamp) in [(B, 7, 9), (A, 8, 9), (A, 7, 8)] {
        let other = TreeCoordinate::root_with_meta(addr(node), sequence, timestamp);
        let stored = cache.get(&addr(A), 0).unwrap();
        assert_eq!(*stored, base);
        assert_eq!(base, *stored);
        assert_ne!(*stored, other);
        assert_ne!(other, *stored);
        assert_eq!(cache.clone().insert(addr(A), &other, 0).unwrap().outcome, Changed);
    }
}

#[test]
fn as_many_elements_as_places_are_taken_and_one_more_refused() {
    let mut cache = fresh(8);
    assert_eq!(told(cache.insert(addr(A), z(PLACES), 0).unwrap()), (Inserted, WEIGHT_LIMIT, Main, false));
    assert_eq!(cache.get(&addr(A), 0).unwrap(), &z(PLACES));
    assert_eq!(cache.insert(addr(A), z(PLACES + 1), 0), Err(Refused::PathLength));
    assert_eq!(cache.get(&addr(A), 0).unwrap(), &z(PLACES));
}

#[test]
fn addresses_from_slices() {
    assert_eq!(NodeAddr::from_slice(&[7; ADDRESS]), Ok(addr(7)));
    for length in [0, ADDRESS - 1, ADDRESS + 1] {
        assert_eq!(NodeAddr::from_slice(&vec![7; length]).unwrap_err().0, length);
    }
    assert_eq!(addr(7).as_slice(), addr(7).as_bytes());
    assert_eq!(AsRef::<[u8]>::as_ref(&addr(7)), [7; ADDRESS]);
    assert_eq!(
        format!("{} {:?}", addr(0x0f), addr(0xf0)),
        format!("{} NodeAddr({})", "0f".repeat(ADDRESS), "f0".repeat(ADDRESS))
    );
}

// ---- calls

/// What a node says of itself goes before a lookup; what another says of it does not.
#[test]
fn stated_paths() {
    let own = |elements: usize| {
        let mut addrs = vec![addr(0x5a); elements];
        addrs[0] = addr(A);
        TreeCoordinate::from_addrs(addrs).unwrap()
    };
    let mut cache = fresh(1);
    cache.insert_verified(addr(A), own(1), 0).unwrap();
    assert_eq!(told(cache.insert_stated(addr(A), own(1), 1, Uncharged).unwrap()), (Rejected, 0, Main, false));
    assert_eq!(told(cache.insert_stated(addr(A), z(2), 1, Uncharged).unwrap()), (Rejected, 0, Main, false));
    assert_eq!(told(cache.insert_stated(addr(A), own(20), 1, Upto(3)).unwrap()), (Rejected, 0, Main, true));
    // deeper than all of main's bound of 16, and stored at that
    assert_eq!(told(cache.insert_stated(addr(A), own(20), 1, Upto(4)).unwrap()), (Changed, 4, Main, false));
    assert_eq!(cache.remove(&addr(A)).unwrap().source(), CoordSource::Hint);
}

#[test]
fn a_removed_entry_has_every_field() {
    let mut cache: CoordCache = CoordCache::new(8, 1_000).unwrap();
    cache.insert_verified_with_path_mtu(addr(A), z(3), 100, 1280).unwrap();
    assert!(cache.get_and_touch(&addr(A), 150).is_some());
    cache.insert_verified(addr(B), z(1), 100).unwrap();
    let entry = cache.remove(&addr(A)).unwrap();
    assert_eq!(entry.coords(), &z(3));
    assert_eq!((entry.created_at(), entry.last_used(), entry.expires_at()), (100, 150, 1_150));
    assert_eq!((entry.source(), entry.verified_until(), entry.path_mtu()), (CoordSource::Verified, 300_100, Some(1280)));
    assert!(!entry.is_expired(1_150) && entry.is_expired(1_151));
    assert_eq!(cache.remove(&addr(A)), None);
    assert_eq!(cache.len(), 1);
}

#[test]
fn demote_and_clear_path_mtu() {
    let mut cache = fresh(8);
    cache.insert_verified_with_path_mtu(addr(A), z(1), 0, 1280).unwrap();
    assert_eq!((cache.demote(&addr(A)), cache.demote(&addr(B))), (Ok(true), Ok(false)));
    cache.clear_path_mtu(&addr(B));
    let entry = cache.clone().remove(&addr(A)).unwrap();
    assert_eq!((entry.source(), entry.verified_until(), entry.path_mtu()), (CoordSource::Hint, 0, Some(1280)));
    cache.clear_path_mtu(&addr(A));
    assert_eq!(cache.remove(&addr(A)).unwrap().path_mtu(), None);
}

#[test]
fn sweeps_count_what_they_remove() {
    let mut cache = fresh(8);
    let via = |addrs: &[u8]| TreeCoordinate::from_addrs(addrs.iter().map(|byte| addr(*byte)).collect()).unwrap();
    cache.insert_verified(addr(A), via(&[A, 8, 9]), 0).unwrap();
    cache.insert_verified(addr(B), via(&[B, 9]), 0).unwrap();
    cache.insert_verified(addr(C), via(&[C, 8]), 1).unwrap();
    assert_eq!(cache.clone().invalidate_via_node(&addr(8)), 2);
    assert_eq!(cache.clone().invalidate_via_node(&addr(7)), 0);
    assert_eq!(cache.clone().invalidate_other_roots(&addr(9)), 1);
    assert_eq!(cache.clone().invalidate_other_roots(&addr(7)), 3);
    assert_eq!(cache.purge_expired(TTL), 0);
    assert_eq!(cache.purge_expired(TTL + 1), 2);
    assert_eq!((cache.len(), cache.is_empty()), (1, false));
    cache.clear();
    assert_eq!((cache.len(), cache.is_empty()), (0, true));
}

#[test]
fn stats_and_limits() {
    let mut cache: CoordCache = CoordCache::new(4, 10).unwrap();
    assert_eq!((cache.max_entries(), cache.default_ttl_ms()), (4, 10));
    assert_eq!(cache.stats(5), CacheStats { entries: 0, max_entries: 4, expired: 0, avg_age_ms: 0 });
    for (key, time) in [(A, 0), (B, 5), (C, 100)] {
        cache.insert_verified(addr(key), z(1), time).unwrap();
    }
    // ages 12, 7 and, for what was made later than now, 0
    let stats = cache.stats(12);
    assert_eq!(stats, CacheStats { entries: 3, max_entries: 4, expired: 1, avg_age_ms: 6 });
    assert_eq!((stats.fill_ratio(), fresh(0).stats(0).fill_ratio()), (0.75, 0.0));
}

// ---- limits

#[test]
fn max_0_holds_hints_in_probation_and_verified_entries() {
    let mut cache = fresh(0);
    assert_eq!(told(cache.insert(addr(A), z(1), 0).unwrap()), (Rejected, 0, Main, false));
    assert!(cache.is_empty());
    cache.insert_verified(addr(A), z(1), 0).unwrap();
    assert_eq!(told(funded(&mut cache, B, 1, 0, Upto(100))), (Inserted, 0, Probation, false));
    assert_eq!((cache.len(), cache.max_entries()), (2, 0));
    assert!(cache.contains(&addr(A), 0) && cache.contains(&addr(B), 0));
}

#[test]
fn times_stop_at_their_end() {
    const END: u64 = u64::MAX;
    let mut cache = fresh(8);
    cache.insert_verified(addr(A), z(1), END).unwrap();
    assert_eq!(cache.insert_with_ttl(addr(B), z(1), 1, END).unwrap().outcome, Inserted);
    assert_eq!(cache.next_expiry(), Some(END));
    assert!(cache.contains(&addr(A), END) && cache.get_and_touch(&addr(B), END).is_some());
    assert_eq!(told(cache.insert(addr(A), z(2), END).unwrap()), (Rejected, 0, Main, false));
    assert_eq!(cache.stats(END), CacheStats { entries: 2, max_entries: 8, expired: 0, avg_age_ms: (END - 1) / 2 });
    assert_eq!(cache.purge_expired(END), 0);
    let entry = cache.remove(&addr(A)).unwrap();
    assert_eq!((entry.expires_at(), entry.verified_until(), entry.last_used()), (END, END, END));
    let forever: CoordCache = CoordCache::new(8, END).unwrap();
    assert_eq!(forever.default_ttl_ms(), END);
}

#[test]
fn funding_of_any_amount() {
    assert_eq!(told(funded(&mut fresh(2), A, 1, 0, Upto(0))), (Inserted, 0, Probation, true));
    assert_eq!(told(funded(&mut fresh(2), A, 1, 0, Upto(u64::MAX))), (Inserted, 16, Main, false));
}

// ---- the type

#[test]
fn a_clone_goes_its_own_way() {
    let mut cache = fresh(8);
    cache.insert_verified(addr(A), z(1), 0).unwrap();
    let mut clone = cache.clone();
    assert_eq!(clone.as_bytes(), cache.as_bytes());
    assert_ne!(clone.as_bytes().as_ptr(), cache.as_bytes().as_ptr());
    clone.insert_verified(addr(B), z(1), 0).unwrap();
    cache.clear();
    assert_eq!((cache.len(), clone.len()), (0, 2));
    assert_eq!(clone.get(&addr(A), 0).unwrap(), &z(1));
    assert!(clone.is_sound() && cache.is_sound());
}

/// Whatever `E` is, the cache goes to another thread, and threads may read it at the same time.
#[test]
fn e_is_not_used() {
    struct Entropy(#[allow(dead_code)] *const u8); // neither Send nor Sync, Clone nor Debug
    let mut cache: CoordCache<Entropy> = CoordCache::new(8, TTL).unwrap();
    cache.insert_verified(addr(A), z(1), 0).unwrap();
    std::thread::scope(|scope| {
        let readers = [0; 2].map(|_| scope.spawn(|| cache.get(&addr(A), 0).unwrap().len()));
        for reader in readers {
            assert_eq!(reader.join().unwrap(), 1);
        }
    });
    let moved = std::thread::spawn(move || cache).join().unwrap();
    assert_eq!(
        format!("{:?}", moved.clone()),
        format!("CoordCache {{ entries: 1, max_entries: 8, default_ttl_ms: 300000, rows: {MAX_ROWS} }}")
    );
}

#[test]
fn refusals_say_what_they_mean() {
    let [long, most] = [format!("over {PLACES} elements"), format!("so max_entries is at most {MOST_ENTRIES}")];
    let all = [
        (Refused::NotSound, "not a sound cache"),
        (Refused::PathLength, long.as_str()),
        (Refused::SequenceUsedUp, "sequence numbers are used up"),
        (Refused::NoMainRow, "all main rows are taken"),
        (Refused::RowCount, most.as_str()),
        (Refused::FundingKind, "kind of funding is unknown"),
    ];
    for (number, (refused, means)) in (1..).zip(all) {
        assert_eq!(refused.number(), number);
        let text = (&refused as &dyn std::error::Error).to_string();
        assert!(text.starts_with(&format!("refused by {number}: ")) && text.contains(means), "{text}");
    }
}

/// Every call, in an order that dice make: the memory stays sound, and what is held never passes the rows.
#[test]
fn every_call_keeps_the_memory_sound() {
    let mut cache: CoordCache = CoordCache::with_rows(12, 6, 40).unwrap();
    let (mut dice, mut time, mut refused) = (1u64, 0, 0);
    let mut roll = |sides: u64| {
        dice ^= dice << 13;
        dice ^= dice >> 7;
        dice ^= dice << 17;
        dice % sides
    };
    for _ in 0..20_000 {
        time += roll(8);
        let key = addr(roll(20) as u8);
        let mut addrs = vec![addr(roll(4) as u8); 1 + roll(34) as usize];
        if roll(2) == 0 {
            addrs[0] = key;
        }
        let (coords, before) = (TreeCoordinate::from_addrs(addrs).unwrap(), cache.clone());
        let funding = if roll(4) == 0 { Uncharged } else { Upto(roll(40)) };
        let done = match roll(24) {
            0..3 => cache.insert(key, &coords, time).map(|_| ()),
            3..5 => cache.insert_with_ttl(key, &coords, time, roll(99)).map(|_| ()),
            5..9 => cache.insert_funded(key, &coords, time, funding).map(|placed| {
                if let Upto(amount) = funding {
                    assert!(placed.added_weight <= amount);
                }
            }),
            9..12 => cache.insert_stated(key, &coords, time, funding).map(|_| ()),
            12..14 => cache.insert_verified(key, &coords, time).map(|_| ()),
            14 => cache.insert_verified_with_path_mtu(key, &coords, time, roll(2000) as u16).map(|_| ()),
            15..19 => {
                cache.get_and_touch(&key, time);
                Ok(())
            }
            19 => cache.demote(&key).map(|_| ()),
            20 => {
                cache.clear_path_mtu(&key);
                Ok(())
            }
            21 => {
                assert_eq!(cache.remove(&key).is_some(), before.len() > cache.len());
                Ok(())
            }
            22 => {
                assert_eq!(cache.purge_expired(time), before.stats(time).expired);
                Ok(())
            }
            _ => {
                let swept = match roll(20) {
                    0 => cache.invalidate_via_node(&addr(roll(4) as u8)),
                    1 => cache.invalidate_other_roots(&addr(roll(4) as u8)),
                    _ => 0,
                };
                assert_eq!(swept, before.len() - cache.len());
                Ok(())
            }
        };
        if let Err(why) = done {
            assert!(matches!(why, Refused::PathLength | Refused::NoMainRow));
            assert!(why == Refused::NoMainRow || coords.len() > MAX_PATH);
            assert_eq!(cache.as_bytes(), before.as_bytes());
            refused += 1;
        }
        assert!(cache.is_sound());
        assert!(cache.len() <= 12 && number(&cache, ROW_COUNT) as usize == cache.len());
    }
    assert!(refused > 0);
}
