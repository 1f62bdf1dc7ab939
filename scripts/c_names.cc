/* The names of mrjob.h in C++: members of the same names, the functions' addresses, calls by a thread, and null with
 * length 0 in each of these. It ends with status 0 where all is as it is to be. */
#include "mrjob.h"
#include <thread>

struct scheduler {
    int mrjob_plan(int count) const { return count + 1; }
    int mrjob_check(int count) const;
};

int scheduler::mrjob_check(int count) const { return count + 2; }

static mrjob_wave wave;
static mrjob_wide_wave wide;
static mrjob_wide_verdict told = {7, 7, 7, 7, 7};
static mrjob_places free_places;
static mrjob_places_verdict charged = {7, 7, 7, 7, 7, 7};
static mrjob_total total = {7, 7};
static mrjob_verdict verdict = {7, 7, 7, 7, 7};

static bool is_empty(uint32_t status)
{
    const bool is_so = status == MRJOB_OK && total.count == 0 && total.cost == 0;
    total.count = total.cost = 7;
    return is_so;
}

int main()
{
    const scheduler own = scheduler();
    if (own.mrjob_plan(1) != 2 || own.mrjob_check(1) != 3) return 1;
    if (!is_empty(mrjob_plan(&wave, MRJOB_RACKS, nullptr, 0, nullptr, 0, nullptr, 0, &total))) return 2;
    const auto plans = &mrjob_plan;
    if (!is_empty(plans(&wave, MRJOB_DIRECT, nullptr, 0, nullptr, 0, nullptr, 0, &total))) return 3;
    const auto checks = &mrjob_check;
    if (checks(&wave, nullptr, 0, nullptr, 0, nullptr, 0, &verdict) != MRJOB_OK || verdict.condition) return 4;
    if (!is_empty(mrjob_plan_wide(&wide, MRJOB_RACKS, nullptr, 0, nullptr, 0, nullptr, 0, &total))) return 6;
    const auto checks_wide = &mrjob_check_wide;
    if (checks_wide(&wide, nullptr, 0, nullptr, 0, nullptr, 0, &told) != MRJOB_OK || told.condition) return 7;
    const auto checks_places = &mrjob_check_places;
    if (checks_places(&wide, &free_places, nullptr, 0, nullptr, 0, nullptr, 0, &charged) != MRJOB_OK) return 8;
    mrjob_places_total sum = {7, 7, 7};
    if (mrjob_plan_places(&wide, &free_places, nullptr, 0, nullptr, 0, nullptr, 0, &sum) != MRJOB_OK) return 9;
    if (charged.count || charged.places || charged.condition || sum.count || sum.cost || sum.places) return 10;
    std::thread(mrjob_plan, &wave, uint32_t{MRJOB_RACKS}, nullptr, 0, nullptr, 0, nullptr, 0, &total).join();
    return is_empty(MRJOB_OK) ? 0 : 5;
}
