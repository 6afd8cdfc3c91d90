// The five calls once more, written from the rules alone and meant for small graphs: simple paths are
// listed one by one, and least weights come from all triples of nodes.
#pragma once
#include "graph.hpp"
#include <algorithm>

namespace reference {

using namespace graphs;

// Refusals 1, 2 and 3 under the limits, or 0.
inline uint32_t graph_fault(const Graph &g, size_t most_arcs, uint64_t most_weight) {
  if (g.starts.size() < 2 || g.starts.size() > 4097) return 1;
  if (g.heads.size() != g.weights.size() || g.heads.size() > most_arcs || g.weights.size() > most_arcs) return 1;
  size_t n = g.starts.size() - 1, m = g.heads.size();
  if (g.starts[0] != 0 || g.starts[n] != m) return 2;
  for (size_t v = 0; v < n; v++)
    if (g.starts[v + 1] < g.starts[v]) return 2;
  for (size_t v = 0; v < n; v++)
    for (size_t p = g.starts[v]; p < g.starts[v + 1]; p++) {
      if (g.heads[p] >= n || g.heads[p] == v || g.weights[p] > most_weight) return 3;
      if (p > g.starts[v] && g.heads[p] <= g.heads[p - 1]) return 3;
    }
  return 0;
}

inline uint32_t road_fault(const Graph &g) { return graph_fault(g, 16384, 1000000); }

inline bool set_fault(const Bytes &set, size_t n) {
  if (set.size() != n) return true;
  return std::any_of(set.begin(), set.end(), [](uint8_t b) { return b > 1; });
}

inline bool overlay_fault(const Bytes &set, const Graph &o) {
  if (o.starts.size() != set.size() + 1 || graph_fault(o, 65536, 4095000000ull)) return true;
  for (size_t v = 0; v < set.size(); v++)
    for (size_t p = o.starts[v]; p < o.starts[v + 1]; p++)
      if (set[v] != 1 || set[o.heads[p]] != 1) return true;
  return false;
}

inline bool joined(const Graph &g, uint32_t u, uint32_t v) {
  for (size_t p = g.starts[u]; p < g.starts[u + 1]; p++)
    if (g.heads[p] == v) return true;
  return false;
}

// Whether some path of k nodes begins with those of `path` and has v and otherwise only dropped nodes.
inline bool needed(const Graph &g, const Bytes &kept, uint32_t v, size_t k, Nodes &path) {
  if (path.size() == k) return std::count(path.begin(), path.end(), v) == 1;
  uint32_t n = uint32_t(g.starts.size() - 1);
  for (uint32_t x = 0; x < n; x++) {
    if (x != v && kept[x]) continue;
    if (std::count(path.begin(), path.end(), x)) continue;
    if (!path.empty() && !joined(g, path.back(), x)) continue;
    path.push_back(x);
    bool found = needed(g, kept, v, k, path);
    path.pop_back();
    if (found) return true;
  }
  return false;
}

inline Count cover(const Graph &g, size_t k, const Nodes &order, Bytes &points, const Lengths &lengths) {
  if (uint32_t f = road_fault(g)) return {f, 0};
  size_t n = g.starts.size() - 1;
  if (k == 0 || k > 32) return {4, 0};
  Nodes sorted = order;
  std::sort(sorted.begin(), sorted.end());
  for (size_t i = 0; i < std::max(n, sorted.size()); i++)
    if (sorted.size() != n || sorted[i] != i) return {5, 0};
  for (auto [given, asked] : lengths)
    if (given != asked) return {11, 0};
  points.assign(n, 1);
  for (uint32_t v : order) {
    Nodes path;
    if (!needed(g, points, v, k, path)) points[v] = 0;
  }
  return {0, size_t(std::count(points.begin(), points.end(), 1))};
}

using Table = std::vector<std::vector<std::optional<uint64_t>>>;

// Least weights over paths whose nodes strictly inside are all allowed.
inline Table least(const Graph &g, const std::vector<bool> &allowed) {
  size_t n = g.starts.size() - 1;
  Table d(n, std::vector<std::optional<uint64_t>>(n));
  for (size_t v = 0; v < n; v++) {
    for (size_t p = g.starts[v]; p < g.starts[v + 1]; p++) d[v][g.heads[p]] = g.weights[p];
    d[v][v] = 0;
  }
  for (size_t c = 0; c < n; c++)
    if (allowed[c])
      for (size_t a = 0; a < n; a++)
        for (size_t b = 0; b < n; b++)
          if (d[a][c] && d[c][b] && (!d[a][b] || *d[a][c] + *d[c][b] < *d[a][b])) d[a][b] = *d[a][c] + *d[c][b];
  return d;
}

inline std::vector<bool> outside(const Bytes &set) {
  std::vector<bool> o(set.size());
  for (size_t v = 0; v < set.size(); v++) o[v] = set[v] == 0;
  return o;
}

// `o` holds the lent starts and rooms, and afterwards what they hold then.
inline Count overlay(const Graph &g, const Bytes &set, Graph &o, const Lengths &lengths) {
  if (uint32_t f = road_fault(g)) return {f, 0};
  size_t n = g.starts.size() - 1;
  if (set_fault(set, n)) return {6, 0};
  for (auto [given, asked] : lengths)
    if (given != asked) return {11, 0};
  Table d = least(g, outside(set));
  Graph made;
  for (uint32_t a = 0; a < n; a++) {
    made.starts.push_back(uint32_t(made.heads.size()));
    for (uint32_t b = 0; b < n; b++)
      if (set[a] && set[b] && a != b && d[a][b]) {
        made.heads.push_back(b);
        made.weights.push_back(uint32_t(*d[a][b]));
      }
  }
  made.starts.push_back(uint32_t(made.heads.size()));
  if (made.heads.size() > o.heads.size() || made.heads.size() > 65536) return {12, 0};
  o.starts = made.starts;
  std::copy(made.heads.begin(), made.heads.end(), o.heads.begin());
  std::copy(made.weights.begin(), made.weights.end(), o.weights.begin());
  return {0, made.heads.size()};
}

inline Distance handheld(const Bytes &set, const Graph &o, uint32_t s, uint32_t t, const Lengths &lengths) {
  if (set.empty() || set.size() > 4096) return {1, {}};
  if (set_fault(set, set.size())) return {6, {}};
  if (overlay_fault(set, o)) return {7, {}};
  if (s >= set.size() || t >= set.size()) return {8, {}};
  if (set[s] != 1 || set[t] != 1) return {9, {}};
  for (auto [given, asked] : lengths)
    if (given != asked) return {11, {}};
  return {0, least(o, std::vector<bool>(set.size(), true))[s][t]};
}

inline Distance any_pair(const Graph &g, const Bytes &set, const Graph &o, uint32_t s, uint32_t t, const Lengths &lengths) {
  if (uint32_t f = road_fault(g)) return {f, {}};
  size_t n = g.starts.size() - 1;
  if (set_fault(set, n)) return {6, {}};
  if (overlay_fault(set, o)) return {7, {}};
  if (s >= n || t >= n) return {8, {}};
  for (auto [given, asked] : lengths)
    if (given != asked) return {11, {}};
  Table road = least(g, outside(set)), over = least(o, std::vector<bool>(n, true));
  std::optional<uint64_t> best = road[s][t];
  for (size_t a = 0; a < n; a++)
    for (size_t b = 0; b < n; b++) {
      if (!set[a] || !set[b] || (set[s] && a != s) || (set[t] && b != t)) continue;
      if (!road[s][a] || !over[a][b] || !road[b][t]) continue;
      uint64_t sum = *road[s][a] + *over[a][b] + *road[b][t];
      if (!best || sum < *best) best = sum;
    }
  return {0, best};
}

inline Count thin(const Graph &g, const Bytes &set, const Nodes &drive, Nodes &positions) {
  if (uint32_t f = road_fault(g)) return {f, 0};
  size_t n = g.starts.size() - 1;
  if (set_fault(set, n)) return {6, 0};
  if (drive.empty() || drive.size() > 4096) return {10, 0};
  for (uint32_t v : drive)
    if (v >= n) return {10, 0};
  for (size_t i = 0; i + 1 < drive.size(); i++)
    if (!joined(g, drive[i], drive[i + 1])) return {10, 0};
  if (positions.size() != drive.size()) return {11, 0};
  size_t count = 0;
  for (size_t i = 0; i < drive.size(); i++)
    if (set[drive[i]]) positions[count++] = uint32_t(i);
  return {0, count};
}

} // namespace reference
