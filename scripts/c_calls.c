/* Calls the C library as its header allows: each status, arrays of no elements, each allocation refused in turn, and
 * threads with small stacks: four at once, one that has the most splits planned, and one that has the most workers
 * planned. The last line is 'N passed, M failed', and lines before name what failed.
 *
 * It is linked with lib/libmrjob.a and -Wl,--wrap=malloc,--wrap=realloc,--wrap=free -pthread. */
#include "mrjob.h"
#include <pthread.h>
#include <stdio.h>
#include <stdlib.h>
#include <string.h>

static int passed, failed;

static void count(int holds, const char *name)
{
    if (holds) {
        passed++;
    } else {
        failed++;
        printf("FAILED: %s\n", name);
    }
}

/* ---- allocations ---- */

void *__real_malloc(size_t size);
void *__real_realloc(void *old, size_t size);
void __real_free(void *old);
void *__wrap_malloc(size_t size);
void *__wrap_realloc(void *old, size_t size);
void __wrap_free(void *old);

/* How many allocations are left until one is refused, or none is while it is below 0; whether all after it are refused
 * too; how many were refused; and how many blocks are not freed. Only while there is one thread. */
static long left = -1, refused, held;
static int stays_refused;

static int is_refused(void)
{
    if (left < 0) return 0;
    if (left > 0) {
        left--;
        return 0;
    }
    if (!stays_refused) left = -1;
    refused++;
    return 1;
}

static int counts_blocks;

void *__wrap_malloc(size_t size)
{
    if (is_refused()) return NULL;
    if (counts_blocks) held++;
    return __real_malloc(size);
}

void *__wrap_realloc(void *old, size_t size)
{
    if (is_refused()) return NULL;
    if (counts_blocks && !old) held++;
    return __real_realloc(old, size);
}

void __wrap_free(void *old)
{
    if (counts_blocks && old) held--;
    __real_free(old);
}

/* ---- a small wave, of which each thing can be spoilt ---- */

enum { PLAN_RACKS, PLAN_DIRECT, CHECK };

struct given {
    uint16_t centre_of[33];
    struct mrjob_worker workers[257];
    struct mrjob_split splits[2];
    uint16_t holders[17];
    struct mrjob_pair barred[1];
    struct mrjob_wave wave;
    uint32_t network;
    size_t starts_len, split_prices_len, worker_prices_len;
    uint16_t starts[2];
};

struct answer {
    uint16_t starts[2];
    uint64_t split_prices[2], worker_prices[2];
    struct mrjob_total total;
    struct mrjob_verdict verdict;
};

static struct given given;

/* Two splits on one of two workers, each with a slot, in a rack of its own; the greater split may start on its holder
 * alone, and the lesser one goes 4 steps. */
static void make(void)
{
    static const struct mrjob_worker workers[] = {{0, 1, 1}, {1, 1, 1}};
    static const struct mrjob_split splits[] = {{10, 0, 1, 1}, {20, 1, 1, 1}};
    memset(&given, 0, sizeof given);
    memcpy(given.workers, workers, sizeof workers);
    memcpy(given.splits, splits, sizeof splits);
    given.barred[0].split = 1;
    given.barred[0].worker = 1;
    given.wave.centres = 1;
    given.wave.centre_of = given.centre_of, given.wave.racks = 2;
    given.wave.workers = given.workers, given.wave.workers_len = 2;
    given.wave.splits = given.splits, given.wave.splits_len = 2;
    given.wave.holders = given.holders, given.wave.holders_len = 2;
    given.wave.barred = given.barred, given.wave.barred_len = 1;
    given.starts_len = given.split_prices_len = given.worker_prices_len = 2;
    given.starts[0] = 1;
}

/* K is 1 + 4 * 30 = 121. Sums: s a 81 + 40 + 0, s b 81 + 0 + 40, t a 81 + 40 + 0, each 121; t b is barred. */
static const uint64_t split_prices[] = {81, 81}, worker_prices[] = {40, 0};

static uint32_t call(int which, struct answer *answer)
{
    if (which == CHECK) {
        return mrjob_check(&given.wave, given.starts, given.starts_len, split_prices, given.split_prices_len,
                           worker_prices, given.worker_prices_len, &answer->verdict);
    }
    return mrjob_plan(&given.wave, which == PLAN_RACKS ? given.network : given.network + MRJOB_DIRECT, answer->starts,
                      given.starts_len, answer->split_prices, given.split_prices_len, answer->worker_prices,
                      given.worker_prices_len, &answer->total);
}

/* The same wave with its barred pair in numbers of 32 bits. */
static struct mrjob_wide_wave widened(void)
{
    static struct mrjob_wide_pair pair;
    const struct mrjob_wave *wave = &given.wave;
    pair.split = given.barred[0].split, pair.worker = given.barred[0].worker;
    return (struct mrjob_wide_wave){wave->centres, wave->centre_of, wave->racks, wave->workers, wave->workers_len,
                                    wave->splits, wave->splits_len, wave->holders, wave->holders_len, &pair,
                                    wave->barred_len};
}

static uint32_t wide_none(uint16_t place)
{
    return place == MRJOB_NONE ? (uint32_t)MRJOB_WIDE_NONE : place;
}

/* Whether the call for wide waves answers the same status, and writes the same, of an answer that began as this one. */
static int is_same_wide(int which, uint32_t status, const struct answer *before, const struct answer *narrow)
{
    const struct mrjob_wide_wave wave = widened();
    struct answer wide;
    struct mrjob_wide_verdict verdict, kept;
    memset(&kept, 0x5a, sizeof kept);
    memcpy(&verdict, &kept, sizeof kept);
    memcpy(&wide, before, sizeof wide);
    if (which != CHECK) {
        return mrjob_plan_wide(&wave, which == PLAN_RACKS ? given.network : given.network + MRJOB_DIRECT, wide.starts,
                               given.starts_len, wide.split_prices, given.split_prices_len, wide.worker_prices,
                               given.worker_prices_len, &wide.total) == status && !memcmp(&wide, narrow, sizeof wide);
    }
    if (mrjob_check_wide(&wave, given.starts, given.starts_len, split_prices, given.split_prices_len, worker_prices,
                         given.worker_prices_len, &verdict) != status) return 0;
    const struct mrjob_verdict *told = &narrow->verdict;
    return status > MRJOB_REFUSED ? !memcmp(&verdict, &kept, sizeof kept)
        : verdict.count == told->count && verdict.cost == told->cost && verdict.condition == told->condition &&
          verdict.split == wide_none(told->split) && verdict.worker == wide_none(told->worker);
}

/* Whether the call answers this status and, where that is no answer, writes nothing; and so does the wide one. */
static int answers(int which, uint32_t status)
{
    struct answer before, after;
    memset(&before, 0x5a, sizeof before);
    memcpy(&after, &before, sizeof before);
    const uint32_t said = call(which, &after);
    if (said != status) printf("status %u, and not %u\n", (unsigned)said, (unsigned)status);
    return said == status && (status <= MRJOB_REFUSED || !memcmp(&before, &after, sizeof before)) &&
           is_same_wide(which, status, &before, &after);
}

static void test_answers(void)
{
    struct answer answer;
    for (int which = PLAN_RACKS; which <= PLAN_DIRECT; which++) {
        make();
        memset(&answer, 0x5a, sizeof answer);
        count(call(which, &answer) == MRJOB_OK && answer.starts[0] == 1 && answer.starts[1] == 0 &&
                  answer.total.count == 2 && answer.total.cost == 40,
              "the wave is planned");
    }
    make();
    count(call(CHECK, &answer) == MRJOB_OK && answer.verdict.count == 2 && answer.verdict.cost == 40 &&
              answer.verdict.condition == 0 && answer.verdict.split == MRJOB_NONE &&
              answer.verdict.worker == MRJOB_NONE,
          "the plan is certified");
    given.starts[0] = 0;
    given.starts[1] = 1;
    count(call(CHECK, &answer) == MRJOB_REFUSED && answer.verdict.condition == 2 && answer.verdict.split == 1 &&
              answer.verdict.worker == 1 && answer.verdict.count == 0 && answer.verdict.cost == 0,
          "a barred start is refused");
    given.starts[1] = 0;
    count(call(CHECK, &answer) == MRJOB_REFUSED && answer.verdict.condition == 3 &&
              answer.verdict.split == MRJOB_NONE && answer.verdict.worker == 0,
          "a slot that is taken twice is refused");
    given.starts[0] = MRJOB_NONE;
    count(call(CHECK, &answer) == MRJOB_REFUSED && answer.verdict.condition == 7 && answer.verdict.split == 0 &&
              answer.verdict.worker == MRJOB_NONE,
          "a split that waits at a price is refused");
    make();
    given.splits[0].pending = 2;
    given.workers[0].live = given.workers[1].live = 255;
    count(call(PLAN_RACKS, &answer) == MRJOB_OK && answer.total.count == 2, "any number but 0 says yes");
}

/* Plans and checks answer this status. */
static void count_both(uint32_t status, const char *name)
{
    count(answers(PLAN_RACKS, status) && answers(PLAN_DIRECT, status) && answers(CHECK, status), name);
}

/* Each bound just past, and each at once with all that are tested after it. */
static void test_statuses(void)
{
    make(), given.wave.centres = 257, count_both(MRJOB_BAD_RACKS, "257 data centres");
    make(), given.wave.racks = 4097, count_both(MRJOB_BAD_RACKS, "4,097 racks");
    make(), given.centre_of[1] = 1, count_both(MRJOB_BAD_RACKS, "a rack in no data centre");
    given.network = 7, given.starts_len = 1, given.starts[0] = 7, given.holders[0] = 7, given.barred[0].worker = 7;
    given.splits[0].bytes = UINT64_MAX, given.workers[0].rack = 7;
    count_both(MRJOB_BAD_RACKS, "of many faults that of the racks");
    given.centre_of[1] = 0, count_both(MRJOB_BAD_WORKERS, "of many faults that of the workers");
    given.workers[0].rack = 0, count_both(MRJOB_BAD_SPLITS, "of many faults that of the splits");
    given.splits[0].bytes = 1, count_both(MRJOB_BAD_BARRED, "of many faults that of the barred pairs");
    given.barred[0].worker = 1, count_both(MRJOB_BAD_HOLDERS, "of many faults that of the holders");
    given.holders[0] = 0, count_both(MRJOB_BAD_LENGTH, "of many faults that of the lengths");
    given.starts_len = 2;
    count(answers(PLAN_RACKS, MRJOB_BAD_NETWORK) && answers(CHECK, MRJOB_BAD_STARTS), "and then the last ones");
    make(), given.wave.workers_len = 32769, count_both(MRJOB_BAD_WORKERS, "32,769 workers");
    make(), given.workers[1].rack = 2, count_both(MRJOB_BAD_WORKERS, "a worker in no rack");
    make(), given.splits[1].bytes = MRJOB_MAX_BYTES + 1, count_both(MRJOB_BAD_SPLITS, "a split of too many bytes");
    make(), given.wave.holders_len = 17, given.splits[0].holder_count = 17;
    count_both(MRJOB_BAD_SPLITS, "a split of 17 holders");
    make(), given.wave.holders_len = 16, given.splits[0].holder_count = 16;
    count_both(MRJOB_BAD_HOLDERS, "a split of 16 holders, of which some are one worker");
    make(), given.splits[1].first_holder = 2, count_both(MRJOB_BAD_SPLITS, "a holder past the last");
    make(), given.splits[1].first_holder = UINT32_MAX, count_both(MRJOB_BAD_SPLITS, "a holder far past the last");
    make(), given.barred[0].split = 2, count_both(MRJOB_BAD_BARRED, "a barred pair of no split");
    make(), given.holders[1] = 2, count_both(MRJOB_BAD_HOLDERS, "a holder that is no worker");
    make(), given.splits[0].holder_count = 2, count_both(MRJOB_BAD_HOLDERS, "a holder twice");
    make(), given.split_prices_len = 1, count_both(MRJOB_BAD_LENGTH, "a price of a split too few");
    make(), given.worker_prices_len = 1, count_both(MRJOB_BAD_LENGTH, "a price of a worker too few");
    make(), given.starts[1] = 2, count(answers(CHECK, MRJOB_BAD_STARTS), "a start on no worker");
    make(), given.network = 2, count(answers(PLAN_RACKS, MRJOB_BAD_NETWORK), "network 2");
    given.network = UINT32_MAX, count(answers(PLAN_RACKS, MRJOB_BAD_NETWORK), "the greatest number of a network");
}

/* A check answers this status, and the first row that is not fit stands at this place. */
static void count_place(uint32_t status, size_t place, const char *name)
{
    const struct mrjob_wide_wave wide = widened();
    const size_t found = mrjob_unfit_place(&given.wave, given.starts, given.starts_len, status);
    const size_t found_wide = mrjob_unfit_place_wide(&wide, given.starts, given.starts_len, status);
    count(answers(CHECK, status) && found == place && found_wide == place, name);
}

static void test_places(void)
{
    make(), given.wave.centres = 257, count_place(MRJOB_BAD_RACKS, MRJOB_NOWHERE, "257 data centres are nowhere");
    make(), given.centre_of[1] = 1, count_place(MRJOB_BAD_RACKS, 1, "the place of a rack in no data centre");
    given.centre_of[0] = 1, count_place(MRJOB_BAD_RACKS, 0, "the first of two racks");
    make(), given.workers[1].rack = 2, count_place(MRJOB_BAD_WORKERS, 1, "the place of a worker in no rack");
    given.workers[0].rack = 2, count_place(MRJOB_BAD_WORKERS, 0, "the first of two workers");
    make(), given.splits[1].bytes = MRJOB_MAX_BYTES + 1, count_place(MRJOB_BAD_SPLITS, 1, "the place of a great split");
    given.splits[0].holder_count = 17, count_place(MRJOB_BAD_SPLITS, 0, "the first of two splits");
    make(), given.splits[1].first_holder = UINT32_MAX, count_place(MRJOB_BAD_SPLITS, 1, "of a holder past the last");
    make(), given.barred[0].worker = 2, count_place(MRJOB_BAD_BARRED, 0, "the place of a pair of no worker");
    make(), given.holders[1] = 2, count_place(MRJOB_BAD_HOLDERS, 1, "the place of a split held by no worker");
    make(), given.splits[0].holder_count = 2, count_place(MRJOB_BAD_HOLDERS, 0, "the place of a split held twice");
    make(), given.starts[1] = 2, count_place(MRJOB_BAD_STARTS, 1, "the place of a start on no worker");
    make(), given.worker_prices_len = 1, count_place(MRJOB_BAD_LENGTH, MRJOB_NOWHERE, "lengths are nowhere");
    struct mrjob_wave wave;
    struct mrjob_wide_wave wide;
    memset(&wave, 0, sizeof wave);
    memset(&wide, 0, sizeof wide);
    for (uint32_t status = 0; status < 13; status++) {
        count(mrjob_unfit_place(&wave, NULL, 0, status) == MRJOB_NOWHERE &&
                  mrjob_unfit_place_wide(&wide, NULL, 0, status) == MRJOB_NOWHERE,
              "in a wave of nothing all is fit");
    }
}

/* Each status has words of its own, and other numbers have none. */
static void test_texts(void)
{
    for (uint32_t status = MRJOB_OK; status <= MRJOB_BAD_PLACES; status++) {
        int holds = strcmp(mrjob_status_text(status), "no status") != 0;
        for (uint32_t other = MRJOB_OK; other < status; other++) {
            holds &= strcmp(mrjob_status_text(status), mrjob_status_text(other)) != 0;
        }
        count(holds, "a status has words of its own");
    }
    count(!strcmp(mrjob_status_text(MRJOB_BAD_PLACES + 1), "no status"), "a number that is no status");
    count(!strcmp(mrjob_status_text(MRJOB_BAD_NETWORK),
                  "no such network, or too many splits or workers for the direct one"),
          "the words of a network that is none");
}

/* Arrays of no elements, by null and by an address that is not aligned, in a wave of nothing and of splits alone. */
static void test_nothing(void)
{
    static char bytes[16];
    for (int odd = 0; odd < 2; odd++) {
        void *none = odd ? (void *)(bytes + 1) : NULL;
        struct mrjob_wave wave;
        memset(&wave, 0, sizeof wave);
        wave.centre_of = (uint16_t *)none;
        wave.workers = (struct mrjob_worker *)none;
        wave.splits = (struct mrjob_split *)none;
        wave.holders = (uint16_t *)none;
        wave.barred = (struct mrjob_pair *)none;
        uint16_t *starts = (uint16_t *)none;
        uint64_t *prices = (uint64_t *)none;
        struct mrjob_total total = {7, 7};
        struct mrjob_verdict verdict;
        for (uint32_t network = 0; network < 2; network++) {
            count(mrjob_plan(&wave, network, starts, 0, prices, 0, prices, 0, &total) == MRJOB_OK && total.count == 0 &&
                      total.cost == 0,
                  "nothing is planned");
        }
        count(mrjob_check(&wave, starts, 0, prices, 0, prices, 0, &verdict) == MRJOB_OK && verdict.count == 0,
              "nothing is certified");
        const struct mrjob_wide_wave wide = {0, wave.centre_of, 0, wave.workers, 0, wave.splits, 0, wave.holders, 0,
                                             (struct mrjob_wide_pair *)none, 0};
        struct mrjob_wide_verdict told;
        count(mrjob_plan_wide(&wide, MRJOB_RACKS, starts, 0, prices, 0, prices, 0, &total) == MRJOB_OK &&
                  mrjob_check_wide(&wide, starts, 0, prices, 0, prices, 0, &told) == MRJOB_OK && told.count == 0,
              "nothing is planned and certified of a wide wave");
        const struct mrjob_split split = {10, 0, 0, 1};
        uint16_t start = 7;
        uint64_t price = 7;
        wave.splits = &split;
        wave.splits_len = 1;
        count(mrjob_plan(&wave, 0, &start, 1, &price, 1, prices, 0, &total) == MRJOB_OK && start == MRJOB_NONE &&
                  price == 0 && total.count == 0,
              "a split without holders waits");
        count(mrjob_plan(&wave, 0, starts, 0, &price, 1, prices, 0, &total) == MRJOB_BAD_LENGTH,
              "no starts for a split");
    }
}

/* Refuses each allocation of a call in turn, alone or with all after it, until a call meets no refusal. */
static void test_refusals(int which)
{
    struct answer whole, before, after;
    make();
    memset(&before, 0x5a, sizeof before);
    memcpy(&whole, &before, sizeof before);
    int holds = call(which, &whole) == MRJOB_OK;
    long told = 0;
    for (long nth = 0;; nth++) {
        memcpy(&after, &before, sizeof before);
        refused = held = 0, counts_blocks = 1, left = nth;
        const uint32_t status = call(which, &after);
        left = -1, counts_blocks = 0;
        holds &= held == 0 && !memcmp(&after, status == MRJOB_OK ? &whole : &before, sizeof before);
        holds &= status == MRJOB_OK || (status == MRJOB_NO_MEMORY && refused);
        told += status == MRJOB_NO_MEMORY;
        if (!refused) break;
    }
    printf("call %d: %ld refused allocations are told\n", which, told);
    count(holds && told, "a refused allocation is told, nothing is written, and all is freed");
}

/* ---- prices of places ---- */

enum { PLAN_PLACES, CHECK_PLACES };

static struct priced {
    struct mrjob_place_row rows[3];
    uint64_t prices[257], split_prices[2], worker_prices[2];
    struct mrjob_places places;
} priced;

struct priced_answer {
    uint16_t starts[2];
    uint64_t split_prices[2], worker_prices[2];
    struct mrjob_places_total total;
    struct mrjob_places_verdict verdict;
};

/* The same wave with two slots on each worker. On the first worker the first place is free and the second costs 50;
 * on the other one both cost 5. If both splits start on the first, they are charged 0 + 50. So the lesser one starts
 * on the other, at 40 + 5, and the greater one, which may not, is charged nothing.
 *
 * K is 121 + 50 + 10 = 181. Sums: s a 136 + 45 + 0, s b 136 + 5 + 40, t a 136 + 45 + 0, each 181. The price of a, 45,
 * lies from 0 to 50, and that of b from 5 to 5. */
static void make_priced(void)
{
    static const struct mrjob_place_row rows[] = {{0, 2}, {2, 1}};
    static const uint64_t prices[] = {0, 50, 5};
    make();
    given.workers[0].free = given.workers[1].free = 2;
    memset(&priced, 0, sizeof priced);
    memcpy(priced.rows, rows, sizeof rows);
    memcpy(priced.prices, prices, sizeof prices);
    priced.split_prices[0] = priced.split_prices[1] = 136;
    priced.worker_prices[0] = 45, priced.worker_prices[1] = 5;
    priced.places.rows = priced.rows, priced.places.rows_len = 2;
    priced.places.prices = priced.prices, priced.places.prices_len = 3;
}

static uint32_t call_priced(int which, struct priced_answer *answer)
{
    const struct mrjob_wide_wave wave = widened();
    if (which == CHECK_PLACES) {
        return mrjob_check_places(&wave, &priced.places, given.starts, given.starts_len, priced.split_prices,
                                  given.split_prices_len, priced.worker_prices, given.worker_prices_len,
                                  &answer->verdict);
    }
    return mrjob_plan_places(&wave, &priced.places, answer->starts, given.starts_len, answer->split_prices,
                             given.split_prices_len, answer->worker_prices, given.worker_prices_len, &answer->total);
}

/* Whether the call answers this status and, where that is no answer, writes nothing. */
static int answers_priced(int which, uint32_t status)
{
    struct priced_answer before, after;
    memset(&before, 0x5a, sizeof before);
    memcpy(&after, &before, sizeof before);
    const uint32_t said = call_priced(which, &after);
    if (said != status) printf("status %u, and not %u\n", (unsigned)said, (unsigned)status);
    return said == status && (status <= MRJOB_REFUSED || !memcmp(&before, &after, sizeof before));
}

/* A plan and a check answer this status, and the first row of prices that is not fit is this worker's. */
static void count_priced(uint32_t status, size_t place, const char *name)
{
    count(answers_priced(PLAN_PLACES, status) && answers_priced(CHECK_PLACES, status) &&
              mrjob_unfit_place_row(&priced.places) == place,
          name);
}

static int is_planned(uint16_t first, uint64_t cost, uint64_t places)
{
    struct priced_answer answer;
    memset(&answer, 0x5a, sizeof answer);
    return call_priced(PLAN_PLACES, &answer) == MRJOB_OK && answer.starts[0] == first && answer.starts[1] == 0 &&
           answer.total.count == 2 && answer.total.cost == cost && answer.total.places == places;
}

static int is_refused_at(uint32_t condition, uint32_t split, uint32_t worker)
{
    struct priced_answer answer;
    memset(&answer, 0x5a, sizeof answer);
    const struct mrjob_places_verdict *told = &answer.verdict;
    return call_priced(CHECK_PLACES, &answer) == MRJOB_REFUSED && told->condition == condition &&
           told->split == split && told->worker == worker && !told->count && !told->cost && !told->places;
}

static void test_priced_answers(void)
{
    struct priced_answer answer;
    make_priced(), count(is_planned(1, 40, 5), "a place that costs 45 less is taken");
    priced.prices[1] = 44, count(is_planned(0, 0, 44), "places that cost 44 are taken for no distance");
    priced.places.rows_len = 0, count_priced(MRJOB_BAD_PLACES, MRJOB_NOWHERE, "no row for two workers");
    make_priced(), priced.rows[1] = priced.rows[0], count(is_planned(1, 40, 0), "two workers share their prices");
    priced.rows[0].price_count = priced.rows[1].price_count = 0, count(is_planned(0, 0, 0), "all places are free");
    make_priced(), priced.rows[0].first_price = 1, priced.rows[0].price_count = 1;
    count(is_planned(1, 40, 55), "a place past the last price costs as much as that");
    make_priced(), priced.prices[1] = MRJOB_MAX_PLACE_PRICE, count(is_planned(1, 40, 5), "the greatest price");
    make_priced();
    count(call_priced(CHECK_PLACES, &answer) == MRJOB_OK && answer.verdict.count == 2 && answer.verdict.cost == 40 &&
              answer.verdict.places == 5 && answer.verdict.condition == 0 &&
              answer.verdict.split == MRJOB_WIDE_NONE && answer.verdict.worker == MRJOB_WIDE_NONE,
          "the plan is certified with what its places cost");
    priced.worker_prices[1] = 4, priced.split_prices[0] = 137;
    count(is_refused_at(8, MRJOB_WIDE_NONE, 1), "a price below that of the place taken is refused");
    priced.worker_prices[1] = 6, priced.split_prices[0] = 135, priced.worker_prices[0] = 46;
    priced.split_prices[1] = 135;
    count(is_refused_at(8, MRJOB_WIDE_NONE, 1), "a price above that of the place left is refused");
    make_priced(), priced.worker_prices[0] = 51, priced.split_prices[1] = 130;
    count(is_refused_at(8, MRJOB_WIDE_NONE, 0), "so it is of the other worker");
    make_priced(), given.starts[0] = 0;
    count(is_refused_at(8, MRJOB_WIDE_NONE, 0), "another plan with the prices of the best one is refused");
    make_priced(), given.starts[1] = 1, count(is_refused_at(2, 1, 1), "a barred start is refused");
}

static void test_priced_statuses(void)
{
    make_priced(), priced.places.rows_len = 3;
    count_priced(MRJOB_BAD_PLACES, MRJOB_NOWHERE, "three rows for two workers");
    make_priced(), priced.prices[1] = MRJOB_MAX_PLACE_PRICE + 1;
    count_priced(MRJOB_BAD_PLACES, 0, "a price that is too great");
    priced.prices[1] = UINT64_MAX, count_priced(MRJOB_BAD_PLACES, 0, "the greatest number as a price");
    make_priced(), priced.rows[1].first_price = 1, priced.rows[1].price_count = 2;
    count_priced(MRJOB_BAD_PLACES, 1, "a price that falls");
    make_priced(), priced.rows[1].price_count = 2, count_priced(MRJOB_BAD_PLACES, 1, "a price past the last");
    priced.rows[1].first_price = UINT32_MAX, count_priced(MRJOB_BAD_PLACES, 1, "a price far past the last");
    priced.rows[0].price_count = UINT32_MAX, count_priced(MRJOB_BAD_PLACES, 0, "the first of two rows");
    make_priced(), memset(priced.prices, 0, sizeof priced.prices), priced.places.prices_len = 257;
    priced.rows[1].first_price = 0, priced.rows[1].price_count = 256;
    count_priced(MRJOB_BAD_PLACES, 1, "256 prices of a worker");
    priced.rows[1].price_count = 255, count(is_planned(0, 0, 0), "255 prices of a worker");
    make_priced(), priced.rows[1].price_count = 2, given.starts_len = 1, given.starts[0] = 7, given.holders[0] = 7;
    count_priced(MRJOB_BAD_HOLDERS, 1, "of many faults that of the holders comes first");
    given.holders[0] = 0, count_priced(MRJOB_BAD_LENGTH, 1, "of many faults that of the lengths comes first");
    given.starts_len = 2;
    count(answers_priced(CHECK_PLACES, MRJOB_BAD_STARTS) && answers_priced(PLAN_PLACES, MRJOB_BAD_PLACES),
          "starts are tested before places");
    make_priced(), given.splits[0].bytes = UINT64_MAX, count_priced(MRJOB_BAD_SPLITS, MRJOB_NOWHERE, "a great split");
}

/* Without a worker and a price, by null and by an address that is not aligned. */
static void test_priced_nothing(void)
{
    static char bytes[16];
    for (int odd = 0; odd < 2; odd++) {
        void *none = odd ? (void *)(bytes + 1) : NULL;
        uint16_t *starts = (uint16_t *)none;
        uint64_t *prices = (uint64_t *)none;
        struct mrjob_wide_wave wave;
        memset(&wave, 0, sizeof wave);
        const struct mrjob_places places = {(struct mrjob_place_row *)none, 0, prices, 0};
        struct mrjob_places_total total = {7, 7, 7};
        struct mrjob_places_verdict verdict = {7, 7, 7, 7, 7, 7};
        count(mrjob_plan_places(&wave, &places, starts, 0, prices, 0, prices, 0, &total) == MRJOB_OK &&
                  !total.count && !total.cost && !total.places &&
                  mrjob_check_places(&wave, &places, starts, 0, prices, 0, prices, 0, &verdict) == MRJOB_OK &&
                  !verdict.count && !verdict.places && mrjob_unfit_place_row(&places) == MRJOB_NOWHERE,
              "nothing is planned and certified in no places");
    }
}

/* Refuses each allocation of a call in turn, as above. */
static void test_priced_refusals(int which)
{
    struct priced_answer whole, before, after;
    make_priced();
    memset(&before, 0x5a, sizeof before);
    memcpy(&whole, &before, sizeof before);
    int holds = call_priced(which, &whole) == MRJOB_OK;
    long told = 0;
    for (long nth = 0;; nth++) {
        memcpy(&after, &before, sizeof before);
        refused = held = 0, counts_blocks = 1, left = nth;
        const uint32_t status = call_priced(which, &after);
        left = -1, counts_blocks = 0;
        holds &= held == 0 && !memcmp(&after, status == MRJOB_OK ? &whole : &before, sizeof before);
        holds &= status == MRJOB_OK || (status == MRJOB_NO_MEMORY && refused);
        told += status == MRJOB_NO_MEMORY;
        if (!refused) break;
    }
    printf("call %d with places: %ld refused allocations are told\n", which, told);
    count(holds && told, "a refused allocation of a call with places is told, and all is freed");
}

/* ---- threads ---- */

enum { THREADS = 4, CALLS = 10, STACK = 65536, SPLITS = 1024, WORKERS = 256, RACKS = 32 };

static struct mrjob_wave large;

static struct output {
    uint16_t starts[SPLITS];
    uint64_t split_prices[SPLITS], worker_prices[WORKERS];
    struct mrjob_total total;
    struct mrjob_verdict verdict;
} first, outputs[THREADS];

static int plans(uint32_t network, struct output *output)
{
    return mrjob_plan(&large, network, output->starts, SPLITS, output->split_prices, SPLITS, output->worker_prices,
                      WORKERS, &output->total) == MRJOB_OK &&
           mrjob_check(&large, output->starts, SPLITS, output->split_prices, SPLITS, output->worker_prices, WORKERS,
                       &output->verdict) == MRJOB_OK &&
           output->verdict.count == output->total.count && output->verdict.cost == output->total.cost;
}

static void *run(void *given_output)
{
    struct output *output = (struct output *)given_output;
    for (int n = 0; n < CALLS; n++) {
        for (uint32_t network = 0; network < 2; network++) {
            if (!plans(network, output) || output->total.count != first.total.count ||
                output->total.cost != first.total.cost) {
                return NULL;
            }
        }
    }
    return output;
}

/* Makes so many threads with small stacks, and joins those that were made. */
static void count_threads(int most, void *(*body)(void *), const char *name)
{
    pthread_t threads[THREADS];
    pthread_attr_t stack;
    int made = 0;
    if (!pthread_attr_init(&stack) && !pthread_attr_setstacksize(&stack, STACK)) {
        while (made < most && !pthread_create(&threads[made], &stack, body, &outputs[made])) made++;
    }
    count(made == most, "threads with small stacks are made");
    for (int t = 0; t < made; t++) {
        void *answer = NULL;
        count(!pthread_join(threads[t], &answer) && answer, name);
    }
}

static void test_threads(void)
{
    static uint16_t centre_of[RACKS], holders[3 * SPLITS];
    static struct mrjob_worker workers[WORKERS];
    static struct mrjob_split splits[SPLITS];
    for (int rack = 0; rack < RACKS; rack++) centre_of[rack] = (uint16_t)(rack % 2);
    for (int w = 0; w < WORKERS; w++) {
        workers[w].rack = (uint16_t)(w % RACKS), workers[w].free = (uint8_t)(3 + w % 4), workers[w].live = 1;
    }
    for (int s = 0; s < SPLITS; s++) {
        splits[s].bytes = 1 + (uint64_t)(7919 * s % 1024) * 65535;
        splits[s].first_holder = (uint32_t)(3 * s), splits[s].holder_count = 3, splits[s].pending = 1;
        for (int k = 0; k < 3; k++) holders[3 * s + k] = (uint16_t)((5 * s + 21 * k) % 64);
    }
    large.centres = 2;
    large.centre_of = centre_of, large.racks = RACKS;
    large.workers = workers, large.workers_len = WORKERS;
    large.splits = splits, large.splits_len = SPLITS;
    large.holders = holders, large.holders_len = 3 * SPLITS;
    count(plans(MRJOB_RACKS, &first), "a large wave is planned");
    count_threads(THREADS, run, "a thread is answered as one alone");
}

/* ---- the most splits ---- */

static struct mrjob_split many[MRJOB_MAX_SPLITS + 1];
static uint16_t many_starts[MRJOB_MAX_SPLITS];
static uint64_t many_prices[MRJOB_MAX_SPLITS];

/* So many splits of one byte lie on the first of two workers in a rack: it starts 255 at no cost, and the other one 255
 * at two bytes each. One split may not start on the other. */
static struct mrjob_wave wave_of(size_t splits, uint16_t barred)
{
    static const struct mrjob_worker workers[] = {{0, MRJOB_MAX_SLOTS, 1}, {0, MRJOB_MAX_SLOTS, 1}};
    static const uint16_t centre_of[1], holders[1];
    static struct mrjob_pair pair;
    pair.split = barred, pair.worker = 1;
    return (struct mrjob_wave){1, centre_of, 1, workers, 2, many, splits, holders, 1, &pair, 1};
}

/* What a plan answers, and a check of its answer where it is one; both have to agree. */
static uint32_t answered(const struct mrjob_wave *wave, uint32_t network)
{
    const size_t most = wave->splits_len < MRJOB_MAX_SPLITS ? wave->splits_len : MRJOB_MAX_SPLITS;
    uint64_t worker_prices[2] = {7, 7};
    struct mrjob_total total = {7, 7};
    struct mrjob_verdict verdict = {7, 7, 7, 7, 7};
    const uint32_t status = mrjob_plan(wave, network, many_starts, most, many_prices, most, worker_prices, 2, &total);
    const uint32_t checked = mrjob_check(wave, many_starts, most, many_prices, most, worker_prices, 2, &verdict);
    if (status != MRJOB_OK) {
        const int is_kept = worker_prices[0] == 7 && worker_prices[1] == 7 && total.count == 7 && total.cost == 7;
        return is_kept && (status == checked || status == MRJOB_BAD_NETWORK) ? status : MRJOB_OK;
    }
    const int is_best = total.count == 2 * MRJOB_MAX_SLOTS && total.cost == 2 * MRJOB_MAX_SLOTS;
    const int is_same = verdict.count == total.count && verdict.cost == total.cost;
    return checked == MRJOB_OK && is_best && is_same ? MRJOB_OK : MRJOB_REFUSED;
}

/* The last that is taken, and the first that is refused. */
static void *take_most(void *output)
{
    static const struct mrjob_split split = {1, 0, 1, 1};
    const size_t most = MRJOB_MAX_SPLITS, direct = MRJOB_MAX_DIRECT_SPLITS;
    for (size_t s = 0; s <= most; s++) many[s] = split;
    struct mrjob_wave wave = wave_of(most, (uint16_t)(most - 1));
    count(answered(&wave, MRJOB_RACKS) == MRJOB_OK, "65,535 splits are planned, and the last is barred");
    uint64_t worker_prices[2] = {0, 0};
    struct mrjob_verdict verdict;
    memset(many_prices, 0, sizeof many_prices);
    many_prices[most - 1] = UINT64_MAX;
    count(mrjob_check(&wave, many_starts, most, many_prices, most, worker_prices, 2, &verdict) == MRJOB_REFUSED &&
              verdict.condition == 4 && verdict.split == most - 1 && verdict.worker == MRJOB_NONE,
          "a price of the last split is refused by its number");
    many[most - 1].bytes = UINT64_MAX;
    count(answered(&wave, MRJOB_RACKS) == MRJOB_BAD_SPLITS && answered(&wave, MRJOB_DIRECT) == MRJOB_BAD_SPLITS &&
              mrjob_unfit_place(&wave, many_starts, most, MRJOB_BAD_SPLITS) == most - 1,
          "the place of a great split that is the last");
    many[most - 1] = split;
    count(answered(&wave, MRJOB_DIRECT) == MRJOB_BAD_NETWORK, "65,535 splits are too many for the direct network");
    wave = wave_of(most, MRJOB_NONE);
    count(answered(&wave, MRJOB_RACKS) == MRJOB_BAD_BARRED, "a barred pair of the split that is none");
    wave = wave_of(most + 1, 0);
    count(answered(&wave, MRJOB_RACKS) == MRJOB_BAD_SPLITS && answered(&wave, MRJOB_DIRECT) == MRJOB_BAD_SPLITS &&
              mrjob_unfit_place(&wave, many_starts, most, MRJOB_BAD_SPLITS) == MRJOB_NOWHERE,
          "65,536 splits");
    wave = wave_of(direct, 0);
    count(answered(&wave, MRJOB_DIRECT) == MRJOB_OK, "1,024 splits are planned over the direct network");
    wave = wave_of(direct + 1, 0);
    count(answered(&wave, MRJOB_DIRECT) == MRJOB_BAD_NETWORK, "1,025 splits for the direct network");
    count(answered(&wave, MRJOB_RACKS) == MRJOB_OK, "1,025 splits over racks");
    return output;
}

/* ---- the most splits of a wide wave ---- */

enum { WIDE_MOST = MRJOB_MAX_WIDE_SPLITS };

static struct mrjob_split wide_splits[WIDE_MOST + 1];
static uint16_t wide_starts[WIDE_MOST];
static uint64_t wide_prices[WIDE_MOST];

/* As above, and the last split lies on the second worker, on which it may not start. */
static struct mrjob_wide_wave wide_wave_of(size_t splits, uint32_t barred)
{
    static const struct mrjob_worker workers[] = {{0, MRJOB_MAX_SLOTS, 1}, {0, MRJOB_MAX_SLOTS, 1}};
    static const uint16_t centre_of[1], holders[] = {0, 1};
    static struct mrjob_wide_pair pair;
    pair.split = barred, pair.worker = 1;
    return (struct mrjob_wide_wave){1, centre_of, 1, workers, 2, wide_splits, splits, holders, 2, &pair, 1};
}

static void *take_most_wide(void *output)
{
    for (size_t s = 0; s <= WIDE_MOST; s++) wide_splits[s] = (struct mrjob_split){1, s + 1 == WIDE_MOST, 1, 0};
    for (size_t s = WIDE_MOST - 3; s < WIDE_MOST; s++) wide_splits[s].pending = 1;
    const size_t most = WIDE_MOST;
    uint64_t worker_prices[2];
    struct mrjob_total total;
    struct mrjob_wide_verdict verdict;
    struct mrjob_wide_wave wave = wide_wave_of(most, WIDE_MOST - 1);
    count(mrjob_plan_wide(&wave, MRJOB_RACKS, wide_starts, most, wide_prices, most, worker_prices, 2, &total) ==
                  MRJOB_OK && total.count == 3 && total.cost == 2 && wide_starts[most - 1] == 0 && wide_starts[0] == MRJOB_NONE,
          "131,072 splits are planned, and the last is barred");
    count(mrjob_check_wide(&wave, wide_starts, most, wide_prices, most, worker_prices, 2, &verdict) == MRJOB_OK &&
              verdict.count == 3 && verdict.cost == 2 && verdict.split == MRJOB_WIDE_NONE &&
              verdict.worker == MRJOB_WIDE_NONE,
          "and checked");
    wide_starts[most - 1] = 1;
    count(mrjob_check_wide(&wave, wide_starts, most, wide_prices, most, worker_prices, 2, &verdict) == MRJOB_REFUSED &&
              verdict.condition == 2 && verdict.split == most - 1 && verdict.worker == 1,
          "the last split on a worker where it is barred is refused by its number");
    wave = wide_wave_of(most, WIDE_MOST);
    count(mrjob_check_wide(&wave, wide_starts, most, wide_prices, most, worker_prices, 2, &verdict) == MRJOB_BAD_BARRED,
          "a barred pair past the last split");
    wave = wide_wave_of(most + 1, 0);
    count(mrjob_check_wide(&wave, wide_starts, most, wide_prices, most, worker_prices, 2, &verdict) ==
                  MRJOB_BAD_SPLITS && mrjob_unfit_place_wide(&wave, wide_starts, most, MRJOB_BAD_SPLITS) == MRJOB_NOWHERE,
          "131,073 splits");
    return output;
}

/* ---- the most workers ---- */

enum { MOST = MRJOB_MAX_WORKERS };

static struct mrjob_worker crowd[MOST + 1];
static uint16_t centres_of_most[MRJOB_MAX_RACKS], holders_of_most[MOST], starts_of_most[MOST];
static struct mrjob_split splits_of_most[MOST];
static struct mrjob_pair pairs_of_most[MOST];
static uint64_t split_prices_of_most[MOST], worker_prices_of_most[MOST];

/* So many workers of one slot, spread over the most racks and data centres; each holds a split of one byte, on which
 * it may not start. */
static struct mrjob_wave wave_of_workers(size_t workers)
{
    return (struct mrjob_wave){MRJOB_MAX_CENTRES, centres_of_most, MRJOB_MAX_RACKS,   crowd,         workers,
                               splits_of_most,    workers,         holders_of_most, workers, pairs_of_most, workers};
}

static uint32_t plan_of_workers(size_t workers, uint32_t network, struct mrjob_total *total)
{
    const struct mrjob_wave wave = wave_of_workers(workers);
    return mrjob_plan(&wave, network, starts_of_most, workers, split_prices_of_most, workers, worker_prices_of_most,
                      workers, total);
}

static uint32_t check_of_workers(size_t workers, struct mrjob_verdict *verdict)
{
    const struct mrjob_wave wave = wave_of_workers(workers);
    return mrjob_check(&wave, starts_of_most, workers, split_prices_of_most, workers, worker_prices_of_most, workers,
                       verdict);
}

/* The last that is taken, and the first that is refused. Each split starts beside its holder, two steps away. */
static void *take_most_workers(void *output)
{
    for (size_t rack = 0; rack < MRJOB_MAX_RACKS; rack++) centres_of_most[rack] = (uint16_t)(rack % MRJOB_MAX_CENTRES);
    for (size_t w = 0; w < MOST; w++) {
        crowd[w] = (struct mrjob_worker){(uint16_t)(w % MRJOB_MAX_RACKS), 1, 1};
        splits_of_most[w] = (struct mrjob_split){1, (uint32_t)w, 1, 1};
        holders_of_most[w] = (uint16_t)w;
        pairs_of_most[w] = (struct mrjob_pair){(uint16_t)w, (uint16_t)w};
    }
    struct mrjob_total total;
    struct mrjob_verdict verdict;
    count(plan_of_workers(MOST, MRJOB_RACKS, &total) == MRJOB_OK && total.count == MOST && total.cost == 2 * MOST,
          "32,768 workers, 4,096 racks and 256 data centres are planned");
    count(check_of_workers(MOST, &verdict) == MRJOB_OK && verdict.count == MOST && verdict.cost == 2 * MOST,
          "and checked");
    worker_prices_of_most[MOST - 1] = UINT64_MAX;
    count(check_of_workers(MOST, &verdict) == MRJOB_REFUSED && verdict.condition == 4 && verdict.split == MRJOB_NONE &&
              verdict.worker == MOST - 1,
          "a price of the last worker is refused by its number");
    const size_t direct = MRJOB_MAX_DIRECT_WORKERS;
    count(plan_of_workers(direct + 1, MRJOB_DIRECT, &total) == MRJOB_BAD_NETWORK, "257 workers for the direct network");
    count(plan_of_workers(direct + 1, MRJOB_RACKS, &total) == MRJOB_OK, "257 workers over racks");
    return output;
}

int main(void)
{
    count(mrjob_version() == MRJOB_VERSION, "the library has the header's version");
    test_answers();
    test_statuses();
    test_places();
    test_texts();
    test_nothing();
    test_priced_answers();
    test_priced_statuses();
    test_priced_nothing();
    for (stays_refused = 0; stays_refused < 2; stays_refused++) {
        for (int which = PLAN_RACKS; which <= CHECK; which++) test_refusals(which);
        for (int which = PLAN_PLACES; which <= CHECK_PLACES; which++) test_priced_refusals(which);
    }
    test_threads();
    count_threads(1, take_most, "the most is taken in a small stack");
    count_threads(1, take_most_wide, "the most of a wide wave is taken in a small stack");
    count_threads(1, take_most_workers, "the most workers are taken in a small stack");
    printf("%d passed, %d failed\n", passed, failed);
    return failed != 0;
}
