// What the programs that time calls of the C library share: a problem as its arrays, and a clock.
#ifndef BENCH_PROBLEM_ROWS_H_
#define BENCH_PROBLEM_ROWS_H_

#include <algorithm>
#include <chrono>
#include <cstddef>
#include <cstdint>
#include <vector>

#include <mrjob.h>

#include "problem_network.h"

// The problem as the arrays that mrjob.h wants.
struct Rows {
  explicit Rows(const Problem& problem) : centres(problem.centres) {
    centre_of.assign(problem.centre_of.begin(), problem.centre_of.end());
    for (const Worker& worker : problem.workers) {
      workers.push_back({static_cast<std::uint16_t>(worker.rack), static_cast<std::uint8_t>(worker.slots),
                         static_cast<std::uint8_t>(worker.live)});
    }
    for (const Split& split : problem.splits) {
      for (const int worker : split.barred) {
        barred.push_back({static_cast<std::uint16_t>(splits.size()), static_cast<std::uint16_t>(worker)});
      }
      splits.push_back({static_cast<std::uint64_t>(split.bytes), static_cast<std::uint32_t>(holders.size()),
                        static_cast<std::uint16_t>(split.holders.size()), split.pending});
      holders.insert(holders.end(), split.holders.begin(), split.holders.end());
    }
  }

  mrjob_wave Wave() const {
    return {centres,       centre_of.data(), centre_of.size(), workers.data(), workers.size(), splits.data(),
            splits.size(), holders.data(),   holders.size(),   barred.data(),  barred.size()};
  }

  std::size_t centres;
  std::vector<std::uint16_t> centre_of, holders;
  std::vector<mrjob_worker> workers;
  std::vector<mrjob_split> splits;
  std::vector<mrjob_pair> barred;
};

using Clock = std::chrono::steady_clock;

// Keeps the least time of the calls so far.
template <typename Call>
inline void Time(double& least, Call call) {
  const Clock::time_point start = Clock::now();
  call();
  least = std::min(least, std::chrono::duration<double, std::micro>(Clock::now() - start).count());
}

#endif  // BENCH_PROBLEM_ROWS_H_
