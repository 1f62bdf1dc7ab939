// Times calls of mrjob_plan and mrjob_check on the arrays of a problem text, and LEMON's algorithms for minimum cost
// flows on the same problem, its graph built too, all in one process and in turn; and tests that the costs agree.
// It prints how many start at which byte-distance, and then the least microseconds of mrjob_plan, of mrjob_check, and
// of LEMON's NetworkSimplex, CostScaling and CapacityScaling.
// usage: plan_calls direct|racks [CALLS] < TEXT
#include <algorithm>
#include <cstdint>
#include <cstdio>
#include <cstdlib>
#include <string_view>
#include <vector>

#include <lemon/capacity_scaling.h>
#include <lemon/cost_scaling.h>
#include <lemon/network_simplex.h>
#include <mrjob.h>

#include "lemon_cost.h"
#include "problem_network.h"
#include "problem_rows.h"

namespace {

// How often CapacityScaling is called: it takes up to forty times as long as the others, and never the least.
constexpr int kCallsOfCapacity = 3;

// What a network costs where so many splits start at this byte-distance.
std::int64_t CostOf(const Problem& problem, const mrjob_total& total) {
  const auto pending = std::count_if(problem.splits.begin(), problem.splits.end(), [](const Split& split) {
    return split.pending;
  });
  return (pending - static_cast<std::int64_t>(total.count)) * Reward(problem) + static_cast<std::int64_t>(total.cost);
}

}  // namespace

int main(int count, char** words) {
  const bool racks = count > 1 && std::string_view(words[1]) == "racks";
  const int calls = count > 2 ? std::atoi(words[2]) : 40;
  const Problem problem = ReadProblem(ReadAll(stdin));
  const Rows rows(problem);
  const mrjob_wave wave = rows.Wave();
  std::vector<std::uint16_t> starts(rows.splits.size());
  std::vector<std::uint64_t> split_prices(rows.splits.size()), worker_prices(rows.workers.size());
  mrjob_total total{};
  mrjob_verdict verdict{};
  double least[5] = {1e18, 1e18, 1e18, 1e18, 1e18};
  for (int call = 0; call < calls; ++call) {
    std::uint32_t status = MRJOB_OK;
    Time(least[0], [&] {
      status = mrjob_plan(&wave, racks ? MRJOB_RACKS : MRJOB_DIRECT, starts.data(), starts.size(), split_prices.data(),
                          split_prices.size(), worker_prices.data(), worker_prices.size(), &total);
    });
    if (status != MRJOB_OK) return 1;
    Time(least[1], [&] {
      status = mrjob_check(&wave, starts.data(), starts.size(), split_prices.data(), split_prices.size(),
                           worker_prices.data(), worker_prices.size(), &verdict);
    });
    if (status != MRJOB_OK || verdict.count != total.count || verdict.cost != total.cost) return 2;
    const auto network = [&] { return BuildNetwork(problem, racks ? Kind::kRacks : Kind::kDirect); };
    std::int64_t cost = 0;
    const auto agrees = [&] { return cost == CostOf(problem, total); };
    Time(least[2], [&] { cost = LeastCost<lemon::NetworkSimplex<Graph, std::int64_t>>(network()); });
    if (!agrees()) return 3;
    Time(least[3], [&] { cost = LeastCost<lemon::CostScaling<Graph, std::int64_t>>(network()); });
    if (!agrees()) return 4;
    if (call >= kCallsOfCapacity) continue;
    Time(least[4], [&] { cost = LeastCost<lemon::CapacityScaling<Graph, std::int64_t>>(network()); });
    if (!agrees()) return 5;
  }
  std::printf("%llu %llu", static_cast<unsigned long long>(total.count), static_cast<unsigned long long>(total.cost));
  for (const double spent : least) std::printf(" %.0f", spent);
  std::printf("\n");
  return 0;
}
