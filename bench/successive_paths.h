// Minimum cost flow by plain successive shortest paths: for each source in turn one search by Dijkstra's
// algorithm with potentials and a binary heap, which ends as soon as no node left is nearer than the sink,
// and one unit along the path that it finds. No arc may have a negative cost.
#ifndef BENCH_SUCCESSIVE_PATHS_H_
#define BENCH_SUCCESSIVE_PATHS_H_

#include <cstddef>
#include <cstdint>
#include <functional>
#include <queue>
#include <utility>
#include <vector>

#include "network.h"

class SuccessivePaths {
 public:
  explicit SuccessivePaths(const Network& network)
      : first_(network.nodes + 1),
        residuals_(2 * network.arcs.size()),
        sources_(network.sources),
        sink_(network.sink),
        potential_(network.nodes, 0) {
    for (const Arc& arc : network.arcs) {
      ++first_[arc.from + 1];
      ++first_[arc.to + 1];
    }
    for (int node = 0; node < network.nodes; ++node) first_[node + 1] += first_[node];
    std::vector<int> next(first_.begin(), first_.end() - 1);
    for (const Arc& arc : network.arcs) {
      const int forward = next[arc.from]++, backward = next[arc.to]++;
      residuals_[forward] = {arc.to, backward, arc.capacity, arc.cost};
      residuals_[backward] = {arc.from, forward, 0, -arc.cost};
    }
  }

  // What it costs to bring a unit from each source to the sink.
  std::int64_t Run() {
    std::int64_t cost = 0;
    for (const int source : sources_) {
      Search(source);
      cost += Push(source);
      LowerPotentials();
    }
    return cost;
  }

 private:
  static constexpr std::int64_t kFar = std::int64_t{1} << 62;

  using Entry = std::pair<std::int64_t, int>;

  // An arc in one of its two directions; `back` is the other one.
  struct Residual {
    int to;
    int back;
    std::int64_t room;
    std::int64_t cost;
  };

  void Search(int source) {
    distance_.assign(potential_.size(), kFar);
    last_.assign(potential_.size(), -1);
    std::priority_queue<Entry, std::vector<Entry>, std::greater<>> queue;
    distance_[source] = 0;
    queue.push({0, source});
    while (!queue.empty() && queue.top().first < distance_[sink_]) {
      const auto [distance, node] = queue.top();
      queue.pop();
      if (distance > distance_[node]) continue;
      for (int number = first_[node]; number < first_[node + 1]; ++number) {
        const Residual& arc = residuals_[number];
        if (arc.room == 0) continue;
        const std::int64_t next = distance + arc.cost + potential_[node] - potential_[arc.to];
        if (next >= distance_[arc.to]) continue;
        distance_[arc.to] = next;
        last_[arc.to] = number;
        queue.push({next, arc.to});
      }
    }
  }

  std::int64_t Push(int source) {
    std::int64_t cost = 0;
    for (int node = sink_; node != source;) {
      Residual& arc = residuals_[last_[node]];
      Residual& back = residuals_[arc.back];
      arc.room -= 1;
      back.room += 1;
      cost += arc.cost;
      node = back.to;
    }
    return cost;
  }

  void LowerPotentials() {
    for (std::size_t node = 0; node < potential_.size(); ++node) {
      if (distance_[node] < distance_[sink_]) potential_[node] -= distance_[sink_] - distance_[node];
    }
  }

  std::vector<int> first_;  // the first residual arc of each node, in the order of which they stand
  std::vector<Residual> residuals_;
  std::vector<int> sources_;
  int sink_;
  std::vector<std::int64_t> potential_, distance_;
  std::vector<int> last_;
};

#endif  // BENCH_SUCCESSIVE_PATHS_H_
