/* Plans two small waves by libmrjob, and checks plans.
 *
 * From the top of the repository, after `make library`:
 *     cc -Iinclude examples/c/plan.c lib/libmrjob.a -o lib/plan && lib/plan
 * or, where `make install` has put it, by `pkg-config --cflags --libs mrjob`. */
#include <mrjob.h>
#include <stdio.h>

/* Stops with the status of a call that did not do what it was asked to. */
#define MUST(status) do { if ((status) != MRJOB_OK) return (int)(status); } while (0)

/* Two splits that both lie on one of two workers, which has one slot. */
static int plan_two(void)
{
    const uint16_t centre_of[] = {0};
    const struct mrjob_worker workers[] = {{0, 1, 1}, {0, 1, 1}};
    const uint16_t holders[] = {0, 0};
    const struct mrjob_split splits[] = {{10, 0, 1, 1}, {20, 1, 1, 1}};
    const struct mrjob_wave wave = {1, centre_of, 1, workers, 2, splits, 2, holders, 2, NULL, 0};
    uint16_t starts[2];
    uint64_t split_prices[2], worker_prices[2];
    struct mrjob_total total;
    MUST(mrjob_plan(&wave, MRJOB_RACKS, starts, 2, split_prices, 2, worker_prices, 2, &total));
    printf("%u splits start at byte-distance %u\n", (unsigned)total.count, (unsigned)total.cost);
    for (int split = 0; split < 2; split++) printf("%c on %c\n", "st"[split], "ab"[starts[split]]);

    struct mrjob_verdict verdict;
    MUST(mrjob_check(&wave, starts, 2, split_prices, 2, worker_prices, 2, &verdict));
    printf("certified %u %u\n", (unsigned)verdict.count, (unsigned)verdict.cost);

    /* Each split in turn on its nearest free worker. */
    const uint16_t nearest[] = {0, 1};
    const uint64_t of_splits[] = {101, 91}, of_workers[] = {30, 0};
    const uint32_t status = mrjob_check(&wave, nearest, 2, of_splits, 2, of_workers, 2, &verdict);
    if (status != MRJOB_REFUSED) return 100;
    printf("refused C%u %c %c\n", (unsigned)verdict.condition, "st"[verdict.split], "ab"[verdict.worker]);
    return 0;
}

enum { RACKS = 32, WORKERS = 256, SPLITS = 1024, HELD = 3 };

/* 1,024 splits of many sizes, which lie on 64 of 256 workers in two data centres. */
static int plan_many(void)
{
    uint16_t centre_of[RACKS], holders[HELD * SPLITS];
    struct mrjob_worker workers[WORKERS];
    struct mrjob_split splits[SPLITS];
    for (int rack = 0; rack < RACKS; rack++) centre_of[rack] = (uint16_t)(rack % 2);
    for (int w = 0; w < WORKERS; w++) {
        workers[w].rack = (uint16_t)(w % RACKS);
        workers[w].free = (uint8_t)(3 + w % 4);
        workers[w].live = 1;
    }
    for (int s = 0; s < SPLITS; s++) {
        splits[s].bytes = 1 + (uint64_t)(7919 * s % 1024) * 65535;
        splits[s].first_holder = (uint32_t)(HELD * s);
        splits[s].holder_count = HELD;
        splits[s].pending = 1;
        for (int k = 0; k < HELD; k++) holders[HELD * s + k] = (uint16_t)((5 * s + 21 * k) % 64);
    }
    const struct mrjob_wave wave = {2, centre_of, RACKS, workers, WORKERS, splits, SPLITS,
                                    holders, HELD * SPLITS, NULL, 0};
    uint16_t starts[SPLITS];
    uint64_t split_prices[SPLITS], worker_prices[WORKERS];
    struct mrjob_total total;
    MUST(mrjob_plan(&wave, MRJOB_RACKS, starts, SPLITS, split_prices, SPLITS, worker_prices, WORKERS,
                    &total));
    printf("%u splits start at byte-distance %llu\n", (unsigned)total.count, (unsigned long long)total.cost);
    struct mrjob_verdict verdict;
    MUST(mrjob_check(&wave, starts, SPLITS, split_prices, SPLITS, worker_prices, WORKERS, &verdict));
    printf("certified %u %llu\n", (unsigned)verdict.count, (unsigned long long)verdict.cost);
    return 0;
}

int main(void)
{
    if (mrjob_version() != MRJOB_VERSION) return 101;
    const int status = plan_two();
    return status ? status : plan_many();
}
