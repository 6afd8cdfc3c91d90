// Maps for the tests and the benchmark: road-like ones, full grids, and shapes that are hard on a search.
#pragma once
#include "graph.hpp"
#include <algorithm>
#include <map>
#include <random>
#include <tuple>

namespace maps {

using namespace graphs;
using Draw = std::mt19937_64;

inline uint64_t below(Draw &draw, uint64_t n) { return draw() % n; }
inline bool chance(Draw &draw, unsigned percent) { return below(draw, 100) < percent; }

// Arcs as they come, in any order; of two between the same nodes the first stands.
struct Arcs {
  std::map<std::pair<uint32_t, uint32_t>, uint32_t> weights;

  void one_way(uint32_t u, uint32_t v, uint32_t weight) {
    if (u != v) weights.emplace(std::make_pair(u, v), weight);
  }
  void both_ways(uint32_t u, uint32_t v, uint32_t weight) { one_way(u, v, weight), one_way(v, u, weight); }

  Graph graph(uint32_t n) const {
    Graph g;
    g.starts.assign(n + 1, 0);
    for (auto &[ends, weight] : weights) {
      g.starts[ends.first + 1]++;
      g.heads.push_back(ends.second);
      g.weights.push_back(weight);
    }
    for (uint32_t v = 0; v < n; v++) g.starts[v + 1] += g.starts[v];
    return g;
  }
};

inline uint32_t street(Draw &draw) { return uint32_t(20 + below(draw, 480)); }

// A full grid of two-way streets, row by row.
inline Graph grid(uint32_t width, uint32_t height, Draw &draw) {
  Arcs arcs;
  for (uint32_t v = 0; v < width * height; v++) {
    if (v % width + 1 < width) arcs.both_ways(v, v + 1, street(draw));
    if (v + width < width * height) arcs.both_ways(v, v + width, street(draw));
  }
  return arcs.graph(width * height);
}

// A road-like map: two in five nodes are junctions on a grid of which a quarter of the streets are missing and
// one in six is one-way; streets bend, which gives chains of nodes of degree two; what nodes are left
// make dead ends.
class Town {
public:
  Town(uint32_t n, Draw &draw) : n(n), draw(draw) {
    while ((width + 1) * (width + 1) * 5 <= 2 * n) width++;
    made = width * width;
    for (uint32_t v = 0; v < width * width; v++) {
      if (v % width + 1 < width) lay(v, v + 1);
      if (v + width < width * width) lay(v, v + width);
    }
    while (made < n) dead_end();
  }
  Graph graph() const { return arcs.graph(n); }

private:
  uint32_t n, width = 1, made = 0;
  Draw &draw;
  Arcs arcs;

  void join(uint32_t u, uint32_t v, bool one_way) {
    const uint32_t weight = street(draw);
    if (one_way) arcs.one_way(u, v, weight);
    else arcs.both_ways(u, v, weight);
  }
  void lay(uint32_t u, uint32_t v) {
    if (chance(draw, 25)) return;
    const bool one_way = chance(draw, 16);
    if (chance(draw, 50)) std::swap(u, v);
    uint64_t bends = chance(draw, 35) ? 1 + below(draw, 4) : 0;
    for (; bends > 0 && made < n; bends--) {
      join(u, made, one_way);
      u = made++;
    }
    join(u, v, one_way);
  }
  void dead_end() {
    uint32_t u = uint32_t(below(draw, made));
    for (uint64_t left = 1 + below(draw, 3); left > 0 && made < n; left--) {
      join(u, made, false);
      u = made++;
    }
  }
};

inline Graph road_like(uint32_t n, Draw &draw) { return Town(n, draw).graph(); }

// One node after another, both ways or one way; as a ring the last is joined to the first.
inline Graph chain(uint32_t n, bool both_ways, bool ring, Draw &draw) {
  Arcs arcs;
  for (uint32_t v = 0; v < (ring ? n : n - 1); v++) {
    if (both_ways) arcs.both_ways(v, (v + 1) % n, street(draw));
    else arcs.one_way(v, (v + 1) % n, street(draw));
  }
  return arcs.graph(n);
}

// So many nodes lead to the middle, and so many others follow from it.
inline Graph fan(uint32_t sources, uint32_t sinks, bool both_ways, Draw &draw) {
  Arcs arcs;
  for (uint32_t v = 1; v <= sources; v++) arcs.one_way(v, 0, street(draw));
  for (uint32_t v = 1; v <= sinks; v++) arcs.one_way(0, sources + v, street(draw));
  if (both_ways)
    for (auto [ends, weight] : std::map(arcs.weights)) arcs.one_way(ends.second, ends.first, weight);
  return arcs.graph(1 + sources + sinks);
}

// Each pair of nodes is joined, one way or both, with a chance of so many in a hundred.
inline Graph scattered(uint32_t n, unsigned percent, Draw &draw) {
  Arcs arcs;
  for (uint32_t u = 0; u < n; u++)
    for (uint32_t v = 0; v < n; v++)
      if (chance(draw, percent)) arcs.one_way(u, v, street(draw));
  return arcs.graph(n);
}

// A drive of so many nodes that takes any arc at each, or ends early where there is none.
inline Nodes wander(const Graph &g, size_t nodes, Draw &draw) {
  const uint32_t n = uint32_t(g.starts.size() - 1);
  Nodes drive{uint32_t(below(draw, n))};
  while (drive.size() < nodes) {
    const uint32_t at = drive.back(), ways = g.starts[at + 1] - g.starts[at];
    if (ways == 0) break;
    drive.push_back(g.heads[g.starts[at] + below(draw, ways)]);
  }
  drive.shrink_to_fit();
  return drive;
}

} // namespace maps
