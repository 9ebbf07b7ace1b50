/* The incident, in C: two writes in one millisecond, and only one place. The first is a route that a lookup verified; the second, a
 * hint for another branch, needs room. It is answered, and the verified route stays.
 * Exit status: 0 so it is; 1 it is not. */
#include <inttypes.h>
#include <stdbool.h>
#include <stdio.h>
#include <string.h>

#include "coordcache.h"

enum { ROWS = 4, SIZE = COORD_CACHE_HEAD + ROWS * COORD_CACHE_ROW, ELEMENTS = 2, PATH = ELEMENTS * COORD_CACHE_ELEMENT };
enum { INSERTED = 0, REJECTED = 3, MAIN = 0, PROBATION = 1 }; /* a hint's outcome and segment (coordcache.h) */

static const uint64_t now = UINT64_C(1700000000000);

/* A key and its path: the node itself, then the root; sequences and timestamps 0. */
struct route {
    uint8_t key[COORD_CACHE_ADDRESS];
    uint8_t path[PATH];
};

static struct route route_to(uint8_t node) {
    struct route r = {{0}, {0}};
    memset(r.key, node, COORD_CACHE_ADDRESS);
    memset(r.path, node, COORD_CACHE_ADDRESS);
    memset(r.path + COORD_CACHE_ELEMENT, 0xff, COORD_CACHE_ADDRESS);
    return r;
}

/* Whether the state still has this route, byte for byte, and as verified: no hint of another path moves it. */
static bool verified_stays(const uint8_t *state, const struct route *r, const struct route *other) {
    uint64_t values[COORD_CACHE_VALUES], at;
    if (coord_cache_get(state, SIZE, r->key, now, values, &at) != 0) return false;
    if (values[0] != 1 || values[1] != ELEMENTS || memcmp(state + at, r->path, PATH) != 0) return false;
    uint8_t copy[SIZE];
    memcpy(copy, state, SIZE);
    return coord_cache_insert(copy, SIZE, r->key, other->path, PATH, now, values) == 0 && values[0] == REJECTED;
}

int main(void) {
    const struct route payroll = route_to(1), branch = route_to(2);
    uint8_t first[SIZE], state[SIZE];
    uint64_t values[COORD_CACHE_VALUES];

    coord_cache_packing_1();   /* a library of another packing does not link */
    memset(first, 0xa5, SIZE); /* fresh takes a memory in any condition */
    if (coord_cache_fresh(first, SIZE, 1, 300000) != 0) return fputs("incident.c: fresh was refused\n", stderr), 1;
    if (coord_cache_insert_verified(first, SIZE, payroll.key, payroll.path, PATH, now, values) != 0)
        return fputs("incident.c: the verified insert was refused\n", stderr), 1;
    printf("at %" PRIu64 ", max 1:\n  a verified route of %d elements is stored, weight %" PRIu64 "\n", now, ELEMENTS, values[1]);

    /* each writer, and how its hint is answered: outcome, segment, unfunded */
    static const struct {
        const char *writer;
        uint8_t kind;
        uint64_t amount, outcome, segment, unfunded;
    } seconds[] = {
        {"uncharged", COORD_CACHE_UNCHARGED, 0, REJECTED, MAIN, 0},
        {"paying up to 16", COORD_CACHE_UPTO, 16, INSERTED, PROBATION, 0},
        {"paying up to 15", COORD_CACHE_UPTO, 15, INSERTED, PROBATION, 1},
    };
    for (size_t i = 0; i < sizeof seconds / sizeof seconds[0]; i++) {
        memcpy(state, first, SIZE);
        uint8_t refused = coord_cache_insert_funded(state, SIZE, branch.key, branch.path, PATH, now, seconds[i].kind,
                                                    seconds[i].amount, values);
        printf("  a second write, a hint %s: refusal %d, outcome %" PRIu64 ", added %" PRIu64 ", segment %" PRIu64
               ", unfunded %" PRIu64 ", examined %" PRIu64 "\n",
               seconds[i].writer, refused, values[0], values[1], values[2], values[3], values[4]);
        if (refused != 0 || values[0] != seconds[i].outcome || values[1] != 0 || values[2] != seconds[i].segment ||
            values[3] != seconds[i].unfunded)
            return fputs("incident.c: the hint was answered otherwise than the rules say\n", stderr), 1;
        if (!verified_stays(state, &payroll, &branch)) return fputs("incident.c: the verified route did not stay\n", stderr), 1;
    }
    puts("  each time the verified route stayed as it was");
    return 0;
}
