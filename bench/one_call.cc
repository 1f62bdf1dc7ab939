// Answers a problem text as `mrjob plan` does in its first line, by one call of mrjob_plan over racks on its arrays.
#include <cstdint>
#include <cstdio>
#include <vector>

#include <mrjob.h>

#include "problem_network.h"
#include "problem_rows.h"

int main() {
  const Problem problem = ReadProblem(ReadAll(stdin));
  const Rows rows(problem);
  const mrjob_wave wave = rows.Wave();
  std::vector<std::uint16_t> starts(rows.splits.size());
  std::vector<std::uint64_t> split_prices(rows.splits.size()), worker_prices(rows.workers.size());
  mrjob_total total{};
  if (mrjob_plan(&wave, MRJOB_RACKS, starts.data(), starts.size(), split_prices.data(), split_prices.size(),
                 worker_prices.data(), worker_prices.size(), &total) != MRJOB_OK) {
    return 1;
  }
  std::printf("wave %llu %llu\n", static_cast<unsigned long long>(total.count),
              static_cast<unsigned long long>(total.cost));
  return 0;
}
