// Answers a problem text as `mrjob plan` does in its first line, by plain successive shortest paths.
// usage: plan_by_paths direct|racks
#include "problem_network.h"
#include "successive_paths.h"

int main(int count, char** words) {
  return Answer(count, words, [](const Network& network) { return SuccessivePaths(network).Run(); });
}
