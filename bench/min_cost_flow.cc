// Solves a minimum cost flow problem, in DIMACS form on standard input, in two ways, and writes the cost and
// the microseconds of each: LEMON's NetworkSimplex, and plain successive shortest paths. All supplies are of
// one unit, and there is one sink.
#include <chrono>
#include <cstdint>
#include <cstdio>
#include <iostream>
#include <utility>

#include <lemon/dimacs.h>
#include <lemon/network_simplex.h>
#include <lemon/smart_graph.h>

#include "network.h"
#include "successive_paths.h"

using Graph = lemon::SmartDigraph;
using Clock = std::chrono::steady_clock;

constexpr int kCalls = 5;

struct Problem {
  Graph graph;
  Graph::ArcMap<std::int64_t> lower{graph}, capacity{graph}, cost{graph};
  Graph::NodeMap<std::int64_t> supply{graph};
};

// The same problem as a plain network. Nodes are numbered from the last to the first: the sources come first
// in the text, and SuccessivePaths does best where they are the last that it turns to.
Network ToNetwork(const Problem& problem) {
  const Graph& graph = problem.graph;
  const auto number = [&](Graph::Node node) { return graph.maxNodeId() - graph.id(node); };
  Network network{graph.nodeNum(), 0, {}, {}};
  for (Graph::ArcIt arc(graph); arc != lemon::INVALID; ++arc) {
    const int from = number(graph.source(arc)), to = number(graph.target(arc));
    network.arcs.push_back({from, to, problem.capacity[arc], problem.cost[arc]});
  }
  for (Graph::NodeIt node(graph); node != lemon::INVALID; ++node) {
    if (problem.supply[node] > 0) network.sources.push_back(number(node));
    if (problem.supply[node] < 0) network.sink = number(node);
  }
  return network;
}

template <typename Solve>
void Report(const char* name, Solve solve) {
  std::int64_t cost = 0, least = -1;
  for (int call = 0; call < kCalls; ++call) {
    const auto [found, spent] = solve();
    cost = found;
    if (least < 0 || spent < least) least = spent;
  }
  std::printf("%s %lld %lld\n", name, static_cast<long long>(cost), static_cast<long long>(least));
}

std::int64_t Micros(Clock::time_point start) {
  return std::chrono::duration_cast<std::chrono::microseconds>(Clock::now() - start).count();
}

int main() {
  Problem problem;
  lemon::readDimacsMin(std::cin, problem.graph, problem.lower, problem.capacity, problem.cost,
                       problem.supply);
  const Network network = ToNetwork(problem);
  Report("lemon", [&] {
    lemon::NetworkSimplex<Graph, std::int64_t> simplex(problem.graph);
    simplex.upperMap(problem.capacity).costMap(problem.cost).supplyMap(problem.supply);
    const auto start = Clock::now();
    simplex.run();
    const std::int64_t spent = Micros(start);
    return std::make_pair(simplex.totalCost(), spent);
  });
  Report("plain", [&] {
    SuccessivePaths paths(network);
    const auto start = Clock::now();
    const std::int64_t cost = paths.Run();
    return std::make_pair(cost, Micros(start));
  });
  return 0;
}
