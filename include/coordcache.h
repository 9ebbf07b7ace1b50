/* The coordinate cache for C: libcoordcache.a, made by `tests/staticlib coordcache`.
 *
 * The state is memory that the caller lends: COORD_CACHE_HEAD bytes and COORD_CACHE_ROW for each row (docs/PACKING.md), any alignment.
 * Every call takes it as a pointer and its length in bytes. Make it by coord_cache_fresh.
 *
 * Every call returns the number of its refusal, or 0 if done:
 *   1  the state is not sound                                       any call but fresh
 *   2  a path of 0 elements, or of over COORD_CACHE_PLACES          inserts
 *   3  the sequence numbers are used up                             inserts, demote
 *   4  the key is not in main, no main row is left,                 verified inserts
 *      and no room can be made
 *   5  too few rows for max, or over COORD_CACHE_ROWS of them       fresh
 *   6  a funding kind over COORD_CACHE_UPTO                         insert_funded, insert_stated
 * A refused call leaves the state as it was. Where several hold, 6 comes first, then 5, 1, 2, 3, 4.
 *
 * `values` gets COORD_CACHE_VALUES numbers; those that a call does not use, and all of a refused call, are 0.
 *
 * A function whose name ends in _unchecked does the same without asking whether the state is sound, and never returns 1. Call it only
 * on a state that is known to be sound: one that fresh made and that only these functions have written since. One for which
 * coord_cache_is_sound gave 1 is as good. On any other state its behaviour is undefined. Calls on one state must not run at the same
 * time, but for calls that take it as const.
 *
 * Addresses have COORD_CACHE_ADDRESS bytes. A path is its elements, node first and root last, COORD_CACHE_ELEMENT bytes each: an
 * address, then sequence and timestamp, 8 bytes each, little-endian; path_len counts bytes, and those behind the last whole element are
 * not read. Times are milliseconds.
 * Pointers may not be null, also where a length is 0, and what is written may not overlap anything else that is lent to the call. */
#ifndef COORDCACHE_H
#define COORDCACHE_H

#include <stddef.h>
#include <stdint.h>

#define COORD_CACHE_HEAD 40     /* bytes of the head */
#define COORD_CACHE_ROW 1095    /* bytes of a row */
#define COORD_CACHE_ROWS 1024   /* the most rows of a state */
#define COORD_CACHE_ADDRESS 16  /* bytes of an address */
#define COORD_CACHE_ELEMENT 32  /* bytes of a path element */
#define COORD_CACHE_PLACES 32   /* the most elements of a path */
#define COORD_CACHE_VALUES 5    /* numbers of an answer */

#define COORD_CACHE_UNCHARGED 0 /* funding kinds */
#define COORD_CACHE_UPTO 1

#ifdef __cplusplus
extern "C" {
#endif

/* The packing of a state that this header describes has a number, which stands in this name, and rises with every change of what a byte
 * of a state means. Call it once, for instance where the states are made: a program that does so cannot be linked with a library of
 * another packing, which would take its states for something else. Returns that number. */
uint8_t coord_cache_packing_1(void);

/* 1 if the state is sound, else 0. */
uint8_t coord_cache_is_sound(const uint8_t *state, size_t len);

/* An empty cache of these limits; the only call that a memory in any condition is good for (the others refuse one that is not sound):
 * it reads none of it, so that the memory may be uninitialised. Done, it has written every byte of the head and of all rows that fit
 * whole; bytes behind the last whole row are never written, by no call. */
uint8_t coord_cache_fresh(uint8_t *state, size_t len, uint64_t max, uint64_t ttl);

/* Hints. values: outcome (inserted 0, changed 1, unchanged 2, rejected 3), added weight, segment (main 0, probation 1),
 * 1 if unfunded, keys examined. */
uint8_t coord_cache_insert(uint8_t *state, size_t len, const uint8_t key[COORD_CACHE_ADDRESS], const uint8_t *path, size_t path_len,
                           uint64_t time, uint64_t values[COORD_CACHE_VALUES]);
uint8_t coord_cache_insert_unchecked(uint8_t *state, size_t len, const uint8_t key[COORD_CACHE_ADDRESS], const uint8_t *path,
                                     size_t path_len, uint64_t time, uint64_t values[COORD_CACHE_VALUES]);
uint8_t coord_cache_insert_with_ttl(uint8_t *state, size_t len, const uint8_t key[COORD_CACHE_ADDRESS], const uint8_t *path,
                                    size_t path_len, uint64_t time, uint64_t ttl, uint64_t values[COORD_CACHE_VALUES]);
uint8_t coord_cache_insert_with_ttl_unchecked(uint8_t *state, size_t len, const uint8_t key[COORD_CACHE_ADDRESS],
                                              const uint8_t *path, size_t path_len, uint64_t time, uint64_t ttl,
                                              uint64_t values[COORD_CACHE_VALUES]);
uint8_t coord_cache_insert_funded(uint8_t *state, size_t len, const uint8_t key[COORD_CACHE_ADDRESS], const uint8_t *path,
                                  size_t path_len, uint64_t time, uint8_t kind, uint64_t amount,
                                  uint64_t values[COORD_CACHE_VALUES]);
uint8_t coord_cache_insert_funded_unchecked(uint8_t *state, size_t len, const uint8_t key[COORD_CACHE_ADDRESS], const uint8_t *path,
                                            size_t path_len, uint64_t time, uint8_t kind, uint64_t amount,
                                            uint64_t values[COORD_CACHE_VALUES]);
uint8_t coord_cache_insert_stated(uint8_t *state, size_t len, const uint8_t key[COORD_CACHE_ADDRESS], const uint8_t *path,
                                  size_t path_len, uint64_t time, uint8_t kind, uint64_t amount,
                                  uint64_t values[COORD_CACHE_VALUES]);
uint8_t coord_cache_insert_stated_unchecked(uint8_t *state, size_t len, const uint8_t key[COORD_CACHE_ADDRESS], const uint8_t *path,
                                            size_t path_len, uint64_t time, uint8_t kind, uint64_t amount,
                                            uint64_t values[COORD_CACHE_VALUES]);

/* Verified inserts. values: 0, weight, 0, 0, keys examined. */
uint8_t coord_cache_insert_verified(uint8_t *state, size_t len, const uint8_t key[COORD_CACHE_ADDRESS], const uint8_t *path,
                                    size_t path_len, uint64_t time, uint64_t values[COORD_CACHE_VALUES]);
uint8_t coord_cache_insert_verified_unchecked(uint8_t *state, size_t len, const uint8_t key[COORD_CACHE_ADDRESS],
                                              const uint8_t *path, size_t path_len, uint64_t time,
                                              uint64_t values[COORD_CACHE_VALUES]);
uint8_t coord_cache_insert_verified_with_path_mtu(uint8_t *state, size_t len, const uint8_t key[COORD_CACHE_ADDRESS],
                                                  const uint8_t *path, size_t path_len, uint64_t time, uint16_t mtu,
                                                  uint64_t values[COORD_CACHE_VALUES]);
uint8_t coord_cache_insert_verified_with_path_mtu_unchecked(uint8_t *state, size_t len, const uint8_t key[COORD_CACHE_ADDRESS],
                                                            const uint8_t *path, size_t path_len, uint64_t time, uint16_t mtu,
                                                            uint64_t values[COORD_CACHE_VALUES]);

/* Lookups. values: 1 if found, how many elements the path has. The path stands in the state itself, in the key's row, from byte *at on,
 * until the next call that writes. Where nothing is found *at is 0, and where the call is refused it is left as it was. */
uint8_t coord_cache_get(const uint8_t *state, size_t len, const uint8_t key[COORD_CACHE_ADDRESS], uint64_t time,
                        uint64_t values[COORD_CACHE_VALUES], uint64_t *at);
uint8_t coord_cache_get_unchecked(const uint8_t *state, size_t len, const uint8_t key[COORD_CACHE_ADDRESS], uint64_t time,
                                  uint64_t values[COORD_CACHE_VALUES], uint64_t *at);
uint8_t coord_cache_get_and_touch(uint8_t *state, size_t len, const uint8_t key[COORD_CACHE_ADDRESS], uint64_t time,
                                  uint64_t values[COORD_CACHE_VALUES], uint64_t *at);
uint8_t coord_cache_get_and_touch_unchecked(uint8_t *state, size_t len, const uint8_t key[COORD_CACHE_ADDRESS], uint64_t time,
                                            uint64_t values[COORD_CACHE_VALUES], uint64_t *at);

/* values: 1 if found. The bytes of the row that left go into row; where none was found, or the call is refused, row is left as it
 * was. */
uint8_t coord_cache_remove(uint8_t *state, size_t len, const uint8_t key[COORD_CACHE_ADDRESS], uint64_t values[COORD_CACHE_VALUES],
                           uint8_t row[COORD_CACHE_ROW]);
uint8_t coord_cache_remove_unchecked(uint8_t *state, size_t len, const uint8_t key[COORD_CACHE_ADDRESS],
                                     uint64_t values[COORD_CACHE_VALUES], uint8_t row[COORD_CACHE_ROW]);

/* values: 1 if the key is held. */
uint8_t coord_cache_demote(uint8_t *state, size_t len, const uint8_t key[COORD_CACHE_ADDRESS], uint64_t values[COORD_CACHE_VALUES]);
uint8_t coord_cache_demote_unchecked(uint8_t *state, size_t len, const uint8_t key[COORD_CACHE_ADDRESS],
                                     uint64_t values[COORD_CACHE_VALUES]);

/* values: all 0. */
uint8_t coord_cache_clear_path_mtu(uint8_t *state, size_t len, const uint8_t key[COORD_CACHE_ADDRESS],
                                   uint64_t values[COORD_CACHE_VALUES]);
uint8_t coord_cache_clear_path_mtu_unchecked(uint8_t *state, size_t len, const uint8_t key[COORD_CACHE_ADDRESS],
                                             uint64_t values[COORD_CACHE_VALUES]);

/* Sweeps. values: rows removed; for clear all 0. */
uint8_t coord_cache_purge_expired(uint8_t *state, size_t len, uint64_t time, uint64_t values[COORD_CACHE_VALUES]);
uint8_t coord_cache_purge_expired_unchecked(uint8_t *state, size_t len, uint64_t time, uint64_t values[COORD_CACHE_VALUES]);
uint8_t coord_cache_clear(uint8_t *state, size_t len, uint64_t values[COORD_CACHE_VALUES]);
uint8_t coord_cache_clear_unchecked(uint8_t *state, size_t len, uint64_t values[COORD_CACHE_VALUES]);
uint8_t coord_cache_invalidate_via_node(uint8_t *state, size_t len, const uint8_t addr[COORD_CACHE_ADDRESS],
                                        uint64_t values[COORD_CACHE_VALUES]);
uint8_t coord_cache_invalidate_via_node_unchecked(uint8_t *state, size_t len, const uint8_t addr[COORD_CACHE_ADDRESS],
                                                  uint64_t values[COORD_CACHE_VALUES]);
uint8_t coord_cache_invalidate_other_roots(uint8_t *state, size_t len, const uint8_t addr[COORD_CACHE_ADDRESS],
                                           uint64_t values[COORD_CACHE_VALUES]);
uint8_t coord_cache_invalidate_other_roots_unchecked(uint8_t *state, size_t len, const uint8_t addr[COORD_CACHE_ADDRESS],
                                                     uint64_t values[COORD_CACHE_VALUES]);

/* values: rows held, max, expired rows, mean age in milliseconds. */
uint8_t coord_cache_stats(const uint8_t *state, size_t len, uint64_t time, uint64_t values[COORD_CACHE_VALUES]);
uint8_t coord_cache_stats_unchecked(const uint8_t *state, size_t len, uint64_t time, uint64_t values[COORD_CACHE_VALUES]);

/* values: 1 if a row is held, the smallest expires_at. */
uint8_t coord_cache_next_expiry(const uint8_t *state, size_t len, uint64_t values[COORD_CACHE_VALUES]);
uint8_t coord_cache_next_expiry_unchecked(const uint8_t *state, size_t len, uint64_t values[COORD_CACHE_VALUES]);

#ifdef __cplusplus
}
#endif

#endif
