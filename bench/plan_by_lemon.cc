// Answers a problem text as `mrjob plan` does in its first line, by one of LEMON's algorithms: NetworkSimplex, or the one
// that is named.
// usage: plan_by_lemon direct|racks [CostScaling|CapacityScaling]
#include <cstdint>
#include <string_view>

#include <lemon/capacity_scaling.h>
#include <lemon/cost_scaling.h>
#include <lemon/network_simplex.h>

#include "lemon_cost.h"
#include "problem_network.h"

int main(int count, char** words) {
  const std::string_view name = count == 3 ? words[2] : "";
  if (name == "CostScaling") return Answer(2, words, LeastCost<lemon::CostScaling<Graph, std::int64_t>>);
  if (name == "CapacityScaling") return Answer(2, words, LeastCost<lemon::CapacityScaling<Graph, std::int64_t>>);
  return Answer(count, words, LeastCost<lemon::NetworkSimplex<Graph, std::int64_t>>);
}
