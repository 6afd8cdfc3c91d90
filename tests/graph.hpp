// What the independent implementations, the tests and the benchmark all speak of.
#pragma once
#include <cstddef>
#include <cstdint>
#include <optional>
#include <utility>
#include <vector>

namespace graphs {

using Nodes = std::vector<uint32_t>;
using Bytes = std::vector<uint8_t>;
using Longs = std::vector<uint64_t>;

struct Graph {
  Nodes starts, heads, weights;
  bool operator==(const Graph &g) const { return starts == g.starts && heads == g.heads && weights == g.weights; }
};

struct Count {
  uint32_t refusal = 0;
  size_t count = 0;
  bool operator==(const Count &c) const { return refusal == c.refusal && count == c.count; }
};

struct Distance {
  uint32_t refusal = 0;
  std::optional<uint64_t> weight;
  bool operator==(const Distance &d) const { return refusal == d.refusal && weight == d.weight; }
};

// Of each slice that refusal 11 looks at: the length lent and the length asked.
using Lengths = std::vector<std::pair<size_t, size_t>>;

} // namespace graphs
