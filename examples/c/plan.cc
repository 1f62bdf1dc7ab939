// Plans two small waves by libmrjob from vectors, and checks plans.
//
// From the top of the repository, after `make library`:
//     c++ -std=c++17 -Iinclude examples/c/plan.cc lib/libmrjob.a -o lib/plan && lib/plan
#include <mrjob.h>

#include <cstddef>
#include <cstdint>
#include <iostream>
#include <stdexcept>
#include <string>
#include <vector>

namespace {

// The rows of a wave. Where there are none, data() of a vector may be null.
struct Rows {
  std::size_t centres = 1;
  std::vector<std::uint16_t> centre_of;
  std::vector<mrjob_worker> workers;
  std::vector<mrjob_split> splits;
  std::vector<std::uint16_t> holders;
  std::vector<mrjob_pair> barred;

  void AddSplit(std::uint64_t bytes, const std::vector<std::uint16_t>& held) {
    splits.push_back({bytes, static_cast<std::uint32_t>(holders.size()),
                      static_cast<std::uint16_t>(held.size()), 1});
    holders.insert(holders.end(), held.begin(), held.end());
  }

  mrjob_wave Wave() const {
    return {centres,       centre_of.data(), centre_of.size(), workers.data(), workers.size(), splits.data(),
            splits.size(), holders.data(),   holders.size(),   barred.data(),  barred.size()};
  }
};

struct Plan {
  std::vector<std::uint16_t> starts;
  std::vector<std::uint64_t> split_prices, worker_prices;
  mrjob_total total{};
};

Plan PlanOf(const Rows& rows) {
  const mrjob_wave wave = rows.Wave();
  Plan plan;
  plan.starts.resize(rows.splits.size());
  plan.split_prices.resize(rows.splits.size());
  plan.worker_prices.resize(rows.workers.size());
  const std::uint32_t status =
      mrjob_plan(&wave, MRJOB_RACKS, plan.starts.data(), plan.starts.size(), plan.split_prices.data(),
                 plan.split_prices.size(), plan.worker_prices.data(), plan.worker_prices.size(), &plan.total);
  if (status != MRJOB_OK) throw std::runtime_error("mrjob_plan answers " + std::to_string(status));
  return plan;
}

// The verdict, whose condition is 0 where the prices certify the starts.
mrjob_verdict VerdictOf(const Rows& rows, const Plan& plan) {
  const mrjob_wave wave = rows.Wave();
  mrjob_verdict verdict{};
  const std::uint32_t status =
      mrjob_check(&wave, plan.starts.data(), plan.starts.size(), plan.split_prices.data(),
                  plan.split_prices.size(), plan.worker_prices.data(), plan.worker_prices.size(), &verdict);
  if (status > MRJOB_REFUSED) throw std::runtime_error("mrjob_check answers " + std::to_string(status));
  return verdict;
}

void Show(const mrjob_verdict& verdict) {
  if (verdict.condition == 0) {
    std::cout << "certified " << verdict.count << ' ' << verdict.cost << '\n';
  } else {
    std::cout << "refused C" << verdict.condition << ' ' << "st"[verdict.split] << ' ' << "ab"[verdict.worker]
              << '\n';
  }
}

void ShowTotal(const Plan& plan) {
  std::cout << plan.total.count << " splits start at byte-distance " << plan.total.cost << '\n';
}

// Two splits that both lie on one of two workers, which has one slot.
void PlanTwo() {
  Rows rows;
  rows.centre_of = {0};
  rows.workers = {{0, 1, 1}, {0, 1, 1}};
  rows.AddSplit(10, {0});
  rows.AddSplit(20, {0});
  const Plan plan = PlanOf(rows);
  ShowTotal(plan);
  for (std::size_t split = 0; split < 2; ++split) {
    std::cout << "st"[split] << " on " << "ab"[plan.starts[split]] << '\n';
  }
  Show(VerdictOf(rows, plan));
  Show(VerdictOf(rows, {{0, 1}, {101, 91}, {30, 0}}));  // each split in turn on its nearest free worker
}

// 1,024 splits of many sizes, which lie on 64 of 256 workers in two data centres.
void PlanMany() {
  Rows rows;
  rows.centres = 2;
  for (int rack = 0; rack < 32; ++rack) rows.centre_of.push_back(static_cast<std::uint16_t>(rack % 2));
  for (int w = 0; w < 256; ++w) {
    rows.workers.push_back({static_cast<std::uint16_t>(w % 32), static_cast<std::uint8_t>(3 + w % 4), 1});
  }
  for (int s = 0; s < 1024; ++s) {
    const auto holder = [s](int k) { return static_cast<std::uint16_t>((5 * s + 21 * k) % 64); };
    rows.AddSplit(1 + std::uint64_t{65535} * (7919 * s % 1024), {holder(0), holder(1), holder(2)});
  }
  const Plan plan = PlanOf(rows);
  ShowTotal(plan);
  Show(VerdictOf(rows, plan));
}

}  // namespace

int main() {
  PlanTwo();
  PlanMany();
}
