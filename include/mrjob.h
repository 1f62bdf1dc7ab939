/* mrjob.h: waves of map tasks, planned and checked by functions that are proved.
 *
 * mrjob_plan starts as many splits as can start, at the least byte-distance of as many, and gives prices that
 * show it. mrjob_check tests a plan, whoever made it, by its prices. What either promises stands at it below,
 * and is proved of the code that is called; docs/MODEL.md has the definitions. That this header says the same
 * as that code is tested, not proved.
 *
 * A call keeps nothing between calls, writes nothing but its answer, and takes its memory by malloc and gives
 * all of it back before it returns. Any number of threads may call at once. A stack of 64 KiB is enough.
 *
 * What a caller owes, and no status tells:
 *   - a pointer leads to as many elements as its length says, and is aligned for them; where the length is 0
 *     it may be anything, null too; the pointers to a wave, to prices of places, a total and a verdict are never
 *     null;
 *   - what a call writes overlaps nothing else that it is given, and until it returns no other thread reads
 *     or writes that, or writes what the call reads;
 *   - no call from a signal handler, or from the child of a fork of a process with several threads;
 *   - malloc aligns a block of 16 bytes or more to 16, as C asks on this machine.
 *
 * Of the numbers in the arrays nothing is owed: one out of bounds is answered by a status, and then nothing
 * was written. Racks, workers and splits are numbered from 0, by their places in the arrays.
 *
 * In a program that includes this header, mrjob_plan and mrjob_check are inline functions, which put an
 * address of their own for that of an array of length 0 and call the library's. The library's functions
 * themselves, which other languages call, want one that is not null, and aligned, there too.
 */
#ifndef MRJOB_H
#define MRJOB_H

#include <stddef.h>
#include <stdint.h>

#ifdef __cplusplus
extern "C" {
#endif

/* The name of a function in the object file. */
#define MRJOB_NAMED(name) __asm__(name)

/* The version of what stands here, which a library answers too: see mrjob_version. */
#define MRJOB_VERSION 1

/* ---- bounds ---- */

#define MRJOB_MAX_CENTRES 256
#define MRJOB_MAX_RACKS 4096
#define MRJOB_MAX_WORKERS 32768
#define MRJOB_MAX_SPLITS 65535
#define MRJOB_MAX_WIDE_SPLITS 131072 /* of a wide wave, see below */
#define MRJOB_MAX_DIRECT_SPLITS 1024 /* of a plan over MRJOB_DIRECT */
#define MRJOB_MAX_DIRECT_WORKERS 256 /* of a plan over MRJOB_DIRECT */
#define MRJOB_MAX_HOLDERS 16         /* of one split */
#define MRJOB_MAX_SLOTS 255          /* of one worker: any uint8_t */
#define MRJOB_MAX_BYTES 8589934592   /* of one split, 8 GiB */
#define MRJOB_MAX_PLACE_PRICE 68719476736 /* of one place, see below */

/* In a place of a worker or a split: none. Workers and splits are numbered below it. */
#define MRJOB_NONE 65535

/* ---- what is answered ---- */

/* What a call answers. From MRJOB_BAD_RACKS to MRJOB_BAD_NETWORK it is the first of these that is so, in this
 * order; MRJOB_BAD_PLACES comes after these, and MRJOB_NO_MEMORY only where none of all is. From MRJOB_BAD_RACKS on,
 * nothing was written. */
enum mrjob_status {
    MRJOB_OK = 0,          /* planned, or certified */
    MRJOB_REFUSED = 1,     /* of a check: a condition fails, which the verdict names */
    MRJOB_BAD_RACKS = 2,   /* too many centres or racks, or a rack in no centre */
    MRJOB_BAD_WORKERS = 3, /* too many workers, or one in no rack */
    MRJOB_BAD_SPLITS = 4,  /* too many splits, or one with too many bytes or holders, or some past the last */
    MRJOB_BAD_BARRED = 5,  /* a barred pair of no split or of no worker */
    MRJOB_BAD_HOLDERS = 6, /* a holder that is no worker, or that a split has twice */
    MRJOB_BAD_LENGTH = 7,  /* not one start and price for each split and one price for each worker */
    MRJOB_BAD_STARTS = 8,  /* of a check: a start on no worker that is not MRJOB_NONE */
    MRJOB_BAD_NETWORK = 9, /* of a plan: no such network, or too many splits or workers for the direct one */
    MRJOB_NO_MEMORY = 10,  /* malloc gave none */
    MRJOB_BAD_PLACES = 11  /* not one row of place prices for each worker, or one with too many prices, or with some
                            * past the last, or with a price that is too great or lower than the one before */
};

/* Over which network a plan is made. Either gives a best plan; where several are, they may differ. */
enum mrjob_network {
    MRJOB_RACKS = 0,  /* with a node for each rack and data centre: the quicker one */
    MRJOB_DIRECT = 1  /* with an arc from each split to each worker: up to 1,024 splits and 256 workers */
};

/* ---- what is asked ---- */

/* A worker: the number of its rack, how many of its slots are free, and whether it lives, where 0 says no. */
struct mrjob_worker {
    uint16_t rack;
    uint8_t free;
    uint8_t live;
};

/* A split, the input of one map task: its bytes; the workers with a replica of it, which are holder_count of
 * the wave's holders, from the place first_holder on; and whether it waits for a start, where 0 says no. */
struct mrjob_split {
    uint64_t bytes;
    uint32_t first_holder;
    uint16_t holder_count;
    uint16_t pending;
};

/* A split and a worker on which it may not start. */
struct mrjob_pair {
    uint16_t split;
    uint16_t worker;
};

/* The same in numbers of 32 bits, for a wide wave (see below). */
struct mrjob_wide_pair {
    uint32_t split;
    uint32_t worker;
};

/* The prices of a worker's places: price_count of the prices, from the place first_price on. See below. */
struct mrjob_place_row {
    uint32_t first_price;
    uint32_t price_count;
};

/* A cluster as one wave sees it: how many data centres there are, and arrays with their lengths. Splits may
 * share places of the holders. */
struct mrjob_wave {
    size_t centres;
    const uint16_t *centre_of; /* of each rack, the number of its data centre */
    size_t racks;
    const struct mrjob_worker *workers;
    size_t workers_len;
    const struct mrjob_split *splits;
    size_t splits_len;
    const uint16_t *holders;   /* the numbers of workers */
    size_t holders_len;
    const struct mrjob_pair *barred;
    size_t barred_len;
};

/* How many splits start, and the byte-distance of their starts together: each split's bytes times the steps
 * from its nearest live holder to its worker, 0 to itself, 2 in its rack, 4 in its data centre, 6 beyond. */
struct mrjob_total {
    uint64_t count;
    uint64_t cost;
};

/* What a check finds. Certified: count and cost as of a total, condition 0, and MRJOB_NONE twice. Refused:
 * count and cost 0, the number of the first condition that fails, 1 to 8, and the split and the worker where
 * it fails, MRJOB_NONE where it is of no split or of no worker. */
struct mrjob_verdict {
    uint64_t count;
    uint64_t cost;
    uint32_t condition;
    uint16_t split;
    uint16_t worker;
};

/* ---- the functions ---- */

/* The version of the library. A program that loads a library by itself compares it with MRJOB_VERSION. */
uint32_t mrjob_version(void);

/* Plans a wave. With MRJOB_OK, starts[s] is the worker on which the split s starts, or MRJOB_NONE; no set of
 * admissible starts has more, and of those with as many none has a lesser byte-distance; the prices, in
 * the unit of byte-distances, certify the starts, so that mrjob_check says MRJOB_OK; and total is theirs. */
static inline uint32_t mrjob_plan(const struct mrjob_wave *wave, uint32_t network,
                                  uint16_t *starts, size_t starts_len,
                                  uint64_t *split_prices, size_t split_prices_len,
                                  uint64_t *worker_prices, size_t worker_prices_len,
                                  struct mrjob_total *total) MRJOB_NAMED("mrjob_plan_any");

/* Checks the starts of a wave by prices. With MRJOB_OK the prices certify the starts, which are then best, as
 * above. With MRJOB_REFUSED a condition fails: the starts are not admissible (1 to 3), or these prices do not
 * show that they are best (4 to 8), though others may. */
static inline uint32_t mrjob_check(const struct mrjob_wave *wave,
                                   const uint16_t *starts, size_t starts_len,
                                   const uint64_t *split_prices, size_t split_prices_len,
                                   const uint64_t *worker_prices, size_t worker_prices_len,
                                   struct mrjob_verdict *verdict) MRJOB_NAMED("mrjob_check_any");

/* ---- the library's own functions, and null with length 0 ---- */

/* (An inline function has another name in the object file than the library's function that it calls.) */
uint32_t mrjob_plan_of_library(const struct mrjob_wave *wave, uint32_t network,
                               uint16_t *starts, size_t starts_len,
                               uint64_t *split_prices, size_t split_prices_len,
                               uint64_t *worker_prices, size_t worker_prices_len,
                               struct mrjob_total *total) MRJOB_NAMED("mrjob_plan");

uint32_t mrjob_check_of_library(const struct mrjob_wave *wave,
                                const uint16_t *starts, size_t starts_len,
                                const uint64_t *split_prices, size_t split_prices_len,
                                const uint64_t *worker_prices, size_t worker_prices_len,
                                struct mrjob_verdict *verdict) MRJOB_NAMED("mrjob_check");

/* Addresses for arrays of length 0. */
struct mrjob_nothing {
    uint16_t numbers[1];
    struct mrjob_worker workers[1];
    struct mrjob_split splits[1];
    struct mrjob_pair pairs[1];
    struct mrjob_wide_pair wide_pairs[1];
    uint64_t prices[1];
    struct mrjob_place_row place_rows[1];
};

#define MRJOB_NOTHING {{0}, {{0, 0, 0}}, {{0, 0, 0, 0}}, {{0, 0}}, {{0, 0}}, {0}, {{0, 0}}}

static inline struct mrjob_wave mrjob_without_null(const struct mrjob_wave *wave,
                                                   const struct mrjob_nothing *nothing)
{
    struct mrjob_wave filled = *wave;
    if (!filled.racks) filled.centre_of = nothing->numbers;
    if (!filled.workers_len) filled.workers = nothing->workers;
    if (!filled.splits_len) filled.splits = nothing->splits;
    if (!filled.holders_len) filled.holders = nothing->numbers;
    if (!filled.barred_len) filled.barred = nothing->pairs;
    return filled;
}

static inline uint32_t mrjob_plan(const struct mrjob_wave *wave, uint32_t network,
                                  uint16_t *starts, size_t starts_len,
                                  uint64_t *split_prices, size_t split_prices_len,
                                  uint64_t *worker_prices, size_t worker_prices_len,
                                  struct mrjob_total *total)
{
    const struct mrjob_nothing given = MRJOB_NOTHING;
    struct mrjob_nothing nothing = MRJOB_NOTHING;
    const struct mrjob_wave filled = mrjob_without_null(wave, &given);
    return mrjob_plan_of_library(&filled, network,
                                 starts_len ? starts : nothing.numbers, starts_len,
                                 split_prices_len ? split_prices : nothing.prices, split_prices_len,
                                 worker_prices_len ? worker_prices : nothing.prices, worker_prices_len,
                                 total);
}

static inline uint32_t mrjob_check(const struct mrjob_wave *wave,
                                   const uint16_t *starts, size_t starts_len,
                                   const uint64_t *split_prices, size_t split_prices_len,
                                   const uint64_t *worker_prices, size_t worker_prices_len,
                                   struct mrjob_verdict *verdict)
{
    const struct mrjob_nothing nothing = MRJOB_NOTHING;
    const struct mrjob_wave filled = mrjob_without_null(wave, &nothing);
    return mrjob_check_of_library(&filled,
                                  starts_len ? starts : nothing.numbers, starts_len,
                                  split_prices_len ? split_prices : nothing.prices, split_prices_len,
                                  worker_prices_len ? worker_prices : nothing.prices, worker_prices_len,
                                  verdict);
}

/* ---- what a status says, and where ---- */

/* What a status says, in words that stay where they are; of a number that is no status, that it is none. */
static inline const char *mrjob_status_text(uint32_t status)
{
    switch (status) {
    case MRJOB_OK: return "planned, or certified";
    case MRJOB_REFUSED: return "a condition fails";
    case MRJOB_BAD_RACKS: return "too many data centres or racks, or a rack in no data centre";
    case MRJOB_BAD_WORKERS: return "too many workers, or one in no rack";
    case MRJOB_BAD_SPLITS:
        return "too many splits, or one with too many bytes or holders, or with holders past the last";
    case MRJOB_BAD_BARRED: return "a barred pair of no split or of no worker";
    case MRJOB_BAD_HOLDERS: return "a holder that is no worker, or that a split has twice";
    case MRJOB_BAD_LENGTH: return "not one start and price for each split and one price for each worker";
    case MRJOB_BAD_STARTS: return "a start on no worker";
    case MRJOB_BAD_NETWORK: return "no such network, or too many splits or workers for the direct one";
    case MRJOB_NO_MEMORY: return "no memory";
    case MRJOB_BAD_PLACES:
        return "not one row of place prices for each worker, or one with too many, too great or falling prices, or "
               "with prices past the last";
    default: return "no status";
    }
}

/* In place of a place in an array: none. */
#define MRJOB_NOWHERE SIZE_MAX

/* The library's function for the next one, which other languages call: it writes the place and answers 1, or
 * answers 0 where there is none. It wants addresses that are not null. */
uint32_t mrjob_unfit(const struct mrjob_wave *wave, const uint16_t *starts, size_t starts_len,
                     uint32_t status, size_t *place);

/* Where the first row stands for which a call answered this status: of MRJOB_BAD_RACKS a rack, of
 * MRJOB_BAD_WORKERS a worker, of MRJOB_BAD_SPLITS and MRJOB_BAD_HOLDERS a split, of MRJOB_BAD_BARRED a
 * pair, of MRJOB_BAD_STARTS a start. MRJOB_NOWHERE where each row alone is fit, so that there are too many,
 * and of every other status. */
static inline size_t mrjob_unfit_place(const struct mrjob_wave *wave,
                                       const uint16_t *starts, size_t starts_len, uint32_t status)
{
    const struct mrjob_nothing nothing = MRJOB_NOTHING;
    const struct mrjob_wave filled = mrjob_without_null(wave, &nothing);
    size_t place = MRJOB_NOWHERE;
    mrjob_unfit(&filled, starts_len ? starts : nothing.numbers, starts_len, status, &place);
    return place;
}

/* ---- wide waves ---- */

/* The same calls for waves of up to MRJOB_MAX_WIDE_SPLITS splits. The numbers of splits have 32 bits here, in
 * barred pairs and in verdicts. Starts are numbers of workers, and stay as they are. A call promises the same, and
 * answers the same status, as the call without _wide. */
struct mrjob_wide_wave {
    size_t centres;
    const uint16_t *centre_of;
    size_t racks;
    const struct mrjob_worker *workers;
    size_t workers_len;
    const struct mrjob_split *splits;
    size_t splits_len;
    const uint16_t *holders;
    size_t holders_len;
    const struct mrjob_wide_pair *barred;
    size_t barred_len;
};

/* In the verdict of a wide wave: no split, no worker. */
#define MRJOB_WIDE_NONE 4294967295

struct mrjob_wide_verdict {
    uint64_t count;
    uint64_t cost;
    uint32_t condition;
    uint32_t split;
    uint32_t worker;
};

static inline uint32_t mrjob_plan_wide(const struct mrjob_wide_wave *wave, uint32_t network,
                                       uint16_t *starts, size_t starts_len,
                                       uint64_t *split_prices, size_t split_prices_len,
                                       uint64_t *worker_prices, size_t worker_prices_len,
                                       struct mrjob_total *total) MRJOB_NAMED("mrjob_plan_wide_any");

static inline uint32_t mrjob_check_wide(const struct mrjob_wide_wave *wave,
                                        const uint16_t *starts, size_t starts_len,
                                        const uint64_t *split_prices, size_t split_prices_len,
                                        const uint64_t *worker_prices, size_t worker_prices_len,
                                        struct mrjob_wide_verdict *verdict) MRJOB_NAMED("mrjob_check_wide_any");

static inline size_t mrjob_unfit_place_wide(const struct mrjob_wide_wave *wave,
                                            const uint16_t *starts, size_t starts_len, uint32_t status);

/* ---- the library's own functions of wide waves ---- */

uint32_t mrjob_plan_wide_of_library(const struct mrjob_wide_wave *wave, uint32_t network,
                                    uint16_t *starts, size_t starts_len,
                                    uint64_t *split_prices, size_t split_prices_len,
                                    uint64_t *worker_prices, size_t worker_prices_len,
                                    struct mrjob_total *total) MRJOB_NAMED("mrjob_plan_wide");

uint32_t mrjob_check_wide_of_library(const struct mrjob_wide_wave *wave,
                                     const uint16_t *starts, size_t starts_len,
                                     const uint64_t *split_prices, size_t split_prices_len,
                                     const uint64_t *worker_prices, size_t worker_prices_len,
                                     struct mrjob_wide_verdict *verdict) MRJOB_NAMED("mrjob_check_wide");

uint32_t mrjob_unfit_wide(const struct mrjob_wide_wave *wave, const uint16_t *starts, size_t starts_len,
                          uint32_t status, size_t *place);

static inline struct mrjob_wide_wave mrjob_wide_without_null(const struct mrjob_wide_wave *wave,
                                                             const struct mrjob_nothing *nothing)
{
    struct mrjob_wide_wave filled = *wave;
    if (!filled.racks) filled.centre_of = nothing->numbers;
    if (!filled.workers_len) filled.workers = nothing->workers;
    if (!filled.splits_len) filled.splits = nothing->splits;
    if (!filled.holders_len) filled.holders = nothing->numbers;
    if (!filled.barred_len) filled.barred = nothing->wide_pairs;
    return filled;
}

static inline uint32_t mrjob_plan_wide(const struct mrjob_wide_wave *wave, uint32_t network,
                                       uint16_t *starts, size_t starts_len,
                                       uint64_t *split_prices, size_t split_prices_len,
                                       uint64_t *worker_prices, size_t worker_prices_len,
                                       struct mrjob_total *total)
{
    const struct mrjob_nothing given = MRJOB_NOTHING;
    struct mrjob_nothing nothing = MRJOB_NOTHING;
    const struct mrjob_wide_wave filled = mrjob_wide_without_null(wave, &given);
    return mrjob_plan_wide_of_library(&filled, network,
                                      starts_len ? starts : nothing.numbers, starts_len,
                                      split_prices_len ? split_prices : nothing.prices, split_prices_len,
                                      worker_prices_len ? worker_prices : nothing.prices, worker_prices_len,
                                      total);
}

static inline uint32_t mrjob_check_wide(const struct mrjob_wide_wave *wave,
                                        const uint16_t *starts, size_t starts_len,
                                        const uint64_t *split_prices, size_t split_prices_len,
                                        const uint64_t *worker_prices, size_t worker_prices_len,
                                        struct mrjob_wide_verdict *verdict)
{
    const struct mrjob_nothing nothing = MRJOB_NOTHING;
    const struct mrjob_wide_wave filled = mrjob_wide_without_null(wave, &nothing);
    return mrjob_check_wide_of_library(&filled,
                                       starts_len ? starts : nothing.numbers, starts_len,
                                       split_prices_len ? split_prices : nothing.prices, split_prices_len,
                                       worker_prices_len ? worker_prices : nothing.prices, worker_prices_len,
                                       verdict);
}

static inline size_t mrjob_unfit_place_wide(const struct mrjob_wide_wave *wave,
                                            const uint16_t *starts, size_t starts_len, uint32_t status)
{
    const struct mrjob_nothing nothing = MRJOB_NOTHING;
    const struct mrjob_wide_wave filled = mrjob_wide_without_null(wave, &nothing);
    size_t place = MRJOB_NOWHERE;
    mrjob_unfit_wide(&filled, starts_len ? starts : nothing.numbers, starts_len, status, &place);
    return place;
}

/* ---- prices of places ---- */

/* The same calls of wide waves where places have prices. The k-th split that starts on a worker takes its k-th place,
 * and is charged the price of that place beside its byte-distance. A worker's prices do not fall. A place past its last
 * price costs as much as that; where a worker has no price, its places are free. There is a row for each worker, and
 * rows may share prices. A row has up to MRJOB_MAX_SLOTS prices, each up to MRJOB_MAX_PLACE_PRICE. */
struct mrjob_places {
    const struct mrjob_place_row *rows;
    size_t rows_len;
    const uint64_t *prices;
    size_t prices_len;
};

/* As of a total, and what the places cost that the starts take. */
struct mrjob_places_total {
    uint64_t count;
    uint64_t cost;
    uint64_t places;
};

/* As of a wide verdict, and what the places cost: 0 where a condition fails. */
struct mrjob_places_verdict {
    uint64_t count;
    uint64_t cost;
    uint64_t places;
    uint32_t condition;
    uint32_t split;
    uint32_t worker;
};

/* Plans a wide wave, over the network with racks. With MRJOB_OK no set of admissible starts has more, and of those with
 * as many none has a lesser charge, which is the byte-distance with the prices of the places that are taken; the prices
 * of splits and workers certify the starts, so that mrjob_check_places says MRJOB_OK; and total is theirs. */
static inline uint32_t mrjob_plan_places(const struct mrjob_wide_wave *wave, const struct mrjob_places *places,
                                         uint16_t *starts, size_t starts_len,
                                         uint64_t *split_prices, size_t split_prices_len,
                                         uint64_t *worker_prices, size_t worker_prices_len,
                                         struct mrjob_places_total *total) MRJOB_NAMED("mrjob_plan_places_any");

/* Checks the starts of a wide wave by prices. With MRJOB_OK the prices certify the starts, which are then best by their
 * charge, as above. With MRJOB_REFUSED a condition fails, as of mrjob_check. */
static inline uint32_t mrjob_check_places(const struct mrjob_wide_wave *wave, const struct mrjob_places *places,
                                          const uint16_t *starts, size_t starts_len,
                                          const uint64_t *split_prices, size_t split_prices_len,
                                          const uint64_t *worker_prices, size_t worker_prices_len,
                                          struct mrjob_places_verdict *verdict)
    MRJOB_NAMED("mrjob_check_places_any");

/* The worker whose row is the first that is not fit, where a call answered MRJOB_BAD_PLACES; MRJOB_NOWHERE where each
 * row is fit, so that there are too many or too few. */
static inline size_t mrjob_unfit_place_row(const struct mrjob_places *places);

/* ---- the library's own functions where places have prices ---- */

uint32_t mrjob_plan_places_of_library(const struct mrjob_wide_wave *wave, const struct mrjob_places *places,
                                      uint16_t *starts, size_t starts_len,
                                      uint64_t *split_prices, size_t split_prices_len,
                                      uint64_t *worker_prices, size_t worker_prices_len,
                                      struct mrjob_places_total *total) MRJOB_NAMED("mrjob_plan_places");

uint32_t mrjob_check_places_of_library(const struct mrjob_wide_wave *wave, const struct mrjob_places *places,
                                       const uint16_t *starts, size_t starts_len,
                                       const uint64_t *split_prices, size_t split_prices_len,
                                       const uint64_t *worker_prices, size_t worker_prices_len,
                                       struct mrjob_places_verdict *verdict) MRJOB_NAMED("mrjob_check_places");

uint32_t mrjob_unfit_places(const struct mrjob_places *places, size_t *place);

static inline struct mrjob_places mrjob_places_without_null(const struct mrjob_places *places,
                                                            const struct mrjob_nothing *nothing)
{
    struct mrjob_places filled = *places;
    if (!filled.rows_len) filled.rows = nothing->place_rows;
    if (!filled.prices_len) filled.prices = nothing->prices;
    return filled;
}

static inline uint32_t mrjob_plan_places(const struct mrjob_wide_wave *wave, const struct mrjob_places *places,
                                         uint16_t *starts, size_t starts_len,
                                         uint64_t *split_prices, size_t split_prices_len,
                                         uint64_t *worker_prices, size_t worker_prices_len,
                                         struct mrjob_places_total *total)
{
    const struct mrjob_nothing given = MRJOB_NOTHING;
    struct mrjob_nothing nothing = MRJOB_NOTHING;
    const struct mrjob_wide_wave filled = mrjob_wide_without_null(wave, &given);
    const struct mrjob_places priced = mrjob_places_without_null(places, &given);
    return mrjob_plan_places_of_library(&filled, &priced,
                                        starts_len ? starts : nothing.numbers, starts_len,
                                        split_prices_len ? split_prices : nothing.prices, split_prices_len,
                                        worker_prices_len ? worker_prices : nothing.prices, worker_prices_len,
                                        total);
}

static inline uint32_t mrjob_check_places(const struct mrjob_wide_wave *wave, const struct mrjob_places *places,
                                          const uint16_t *starts, size_t starts_len,
                                          const uint64_t *split_prices, size_t split_prices_len,
                                          const uint64_t *worker_prices, size_t worker_prices_len,
                                          struct mrjob_places_verdict *verdict)
{
    const struct mrjob_nothing nothing = MRJOB_NOTHING;
    const struct mrjob_wide_wave filled = mrjob_wide_without_null(wave, &nothing);
    const struct mrjob_places priced = mrjob_places_without_null(places, &nothing);
    return mrjob_check_places_of_library(&filled, &priced,
                                         starts_len ? starts : nothing.numbers, starts_len,
                                         split_prices_len ? split_prices : nothing.prices, split_prices_len,
                                         worker_prices_len ? worker_prices : nothing.prices, worker_prices_len,
                                         verdict);
}

static inline size_t mrjob_unfit_place_row(const struct mrjob_places *places)
{
    const struct mrjob_nothing nothing = MRJOB_NOTHING;
    const struct mrjob_places priced = mrjob_places_without_null(places, &nothing);
    size_t place = MRJOB_NOWHERE;
    mrjob_unfit_places(&priced, &place);
    return place;
}

/* ---- how the structs lie in memory ---- */

#ifdef __cplusplus
#define MRJOB_ASSERT(it) static_assert(it, #it)
#else
#define MRJOB_ASSERT(it) _Static_assert(it, #it)
#endif
#define MRJOB_LIES(kind, field, at) MRJOB_ASSERT(offsetof(struct kind, field) == (at))

MRJOB_ASSERT(sizeof(size_t) == 8 && sizeof(void *) == 8);
MRJOB_ASSERT(sizeof(struct mrjob_worker) == 4);
MRJOB_LIES(mrjob_worker, rack, 0);
MRJOB_LIES(mrjob_worker, free, 2);
MRJOB_LIES(mrjob_worker, live, 3);
MRJOB_ASSERT(sizeof(struct mrjob_split) == 16);
MRJOB_LIES(mrjob_split, bytes, 0);
MRJOB_LIES(mrjob_split, first_holder, 8);
MRJOB_LIES(mrjob_split, holder_count, 12);
MRJOB_LIES(mrjob_split, pending, 14);
MRJOB_ASSERT(sizeof(struct mrjob_pair) == 4);
MRJOB_LIES(mrjob_pair, split, 0);
MRJOB_LIES(mrjob_pair, worker, 2);
MRJOB_ASSERT(sizeof(struct mrjob_wave) == 88);
MRJOB_LIES(mrjob_wave, centres, 0);
MRJOB_LIES(mrjob_wave, centre_of, 8);
MRJOB_LIES(mrjob_wave, racks, 16);
MRJOB_LIES(mrjob_wave, workers, 24);
MRJOB_LIES(mrjob_wave, workers_len, 32);
MRJOB_LIES(mrjob_wave, splits, 40);
MRJOB_LIES(mrjob_wave, splits_len, 48);
MRJOB_LIES(mrjob_wave, holders, 56);
MRJOB_LIES(mrjob_wave, holders_len, 64);
MRJOB_LIES(mrjob_wave, barred, 72);
MRJOB_LIES(mrjob_wave, barred_len, 80);
MRJOB_ASSERT(sizeof(struct mrjob_wide_pair) == 8);
MRJOB_LIES(mrjob_wide_pair, split, 0);
MRJOB_LIES(mrjob_wide_pair, worker, 4);
MRJOB_ASSERT(sizeof(struct mrjob_wide_wave) == 88);
MRJOB_LIES(mrjob_wide_wave, centres, 0);
MRJOB_LIES(mrjob_wide_wave, centre_of, 8);
MRJOB_LIES(mrjob_wide_wave, racks, 16);
MRJOB_LIES(mrjob_wide_wave, workers, 24);
MRJOB_LIES(mrjob_wide_wave, workers_len, 32);
MRJOB_LIES(mrjob_wide_wave, splits, 40);
MRJOB_LIES(mrjob_wide_wave, splits_len, 48);
MRJOB_LIES(mrjob_wide_wave, holders, 56);
MRJOB_LIES(mrjob_wide_wave, holders_len, 64);
MRJOB_LIES(mrjob_wide_wave, barred, 72);
MRJOB_LIES(mrjob_wide_wave, barred_len, 80);
MRJOB_ASSERT(sizeof(struct mrjob_wide_verdict) == 32);
MRJOB_LIES(mrjob_wide_verdict, count, 0);
MRJOB_LIES(mrjob_wide_verdict, cost, 8);
MRJOB_LIES(mrjob_wide_verdict, condition, 16);
MRJOB_LIES(mrjob_wide_verdict, split, 20);
MRJOB_LIES(mrjob_wide_verdict, worker, 24);
MRJOB_ASSERT(sizeof(struct mrjob_place_row) == 8);
MRJOB_LIES(mrjob_place_row, first_price, 0);
MRJOB_LIES(mrjob_place_row, price_count, 4);
MRJOB_ASSERT(sizeof(struct mrjob_places) == 32);
MRJOB_LIES(mrjob_places, rows, 0);
MRJOB_LIES(mrjob_places, rows_len, 8);
MRJOB_LIES(mrjob_places, prices, 16);
MRJOB_LIES(mrjob_places, prices_len, 24);
MRJOB_ASSERT(sizeof(struct mrjob_places_total) == 24);
MRJOB_LIES(mrjob_places_total, count, 0);
MRJOB_LIES(mrjob_places_total, cost, 8);
MRJOB_LIES(mrjob_places_total, places, 16);
MRJOB_ASSERT(sizeof(struct mrjob_places_verdict) == 40);
MRJOB_LIES(mrjob_places_verdict, count, 0);
MRJOB_LIES(mrjob_places_verdict, cost, 8);
MRJOB_LIES(mrjob_places_verdict, places, 16);
MRJOB_LIES(mrjob_places_verdict, condition, 24);
MRJOB_LIES(mrjob_places_verdict, split, 28);
MRJOB_LIES(mrjob_places_verdict, worker, 32);
MRJOB_ASSERT(sizeof(struct mrjob_total) == 16);
MRJOB_LIES(mrjob_total, count, 0);
MRJOB_LIES(mrjob_total, cost, 8);
MRJOB_ASSERT(sizeof(struct mrjob_verdict) == 24);
MRJOB_LIES(mrjob_verdict, count, 0);
MRJOB_LIES(mrjob_verdict, cost, 8);
MRJOB_LIES(mrjob_verdict, condition, 16);
MRJOB_LIES(mrjob_verdict, split, 20);
MRJOB_LIES(mrjob_verdict, worker, 22);

#undef MRJOB_NAMED
#undef MRJOB_NOTHING
#undef MRJOB_LIES
#undef MRJOB_ASSERT

#ifdef __cplusplus
}
#endif

#endif
