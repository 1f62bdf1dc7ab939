// Times calls of mrjob_plan over racks on the arrays of a problem text, and prints how many arcs the network has and the
// least microseconds of a call.
// usage: growth [CALLS] < TEXT
#include <cstdint>
#include <cstdio>
#include <cstdlib>
#include <vector>

#include <mrjob.h>

#include "problem_network.h"
#include "problem_rows.h"

int main(int count, char** words) {
  const int calls = count > 1 ? std::atoi(words[1]) : 40;
  const Problem problem = ReadProblem(ReadAll(stdin));
  const Rows rows(problem);
  const mrjob_wave wave = rows.Wave();
  std::vector<std::uint16_t> starts(rows.splits.size());
  std::vector<std::uint64_t> split_prices(rows.splits.size()), worker_prices(rows.workers.size());
  mrjob_total total{};
  double least = 1e18;
  for (int call = 0; call < calls; ++call) {
    std::uint32_t status = MRJOB_OK;
    Time(least, [&] {
      status = mrjob_plan(&wave, MRJOB_RACKS, starts.data(), starts.size(), split_prices.data(), split_prices.size(),
                          worker_prices.data(), worker_prices.size(), &total);
    });
    if (status != MRJOB_OK) return 1;
  }
  std::printf("%zu %.1f\n", BuildNetwork(problem, Kind::kRacks).arcs.size(), least);
  return 0;
}
