// What a call is lent and what is to be told; and such cases of each call. What is told is written from the rules, never
// from what a call answered.
#pragma once
#include "maps.hpp"
#include <numeric>
#include <string>

namespace edges {

using namespace graphs;
using Slices = std::vector<Longs>;

enum class Call { cover, overlay, handheld, any_pair, thin };
inline constexpr Call every_call[] = {Call::cover, Call::overlay, Call::handheld, Call::any_pair, Call::thin};

// All that some call is lent. Of its results and work, in the order lent, the slice at place `wrong` has `by`
// entries more than asked.
struct Asked {
  Graph road = {};
  Bytes set = {};
  Graph over = {};
  uint32_t s = 0, t = 0;
  size_t k = 1;
  Nodes order = {}, drive = {};
  size_t room = 0, wrong = 0;
  int by = 0;
};

// The answer, its number being the count or the weight, and what stands at the front of each result.
struct Told {
  uint32_t refusal = 0, way = 0;
  uint64_t number = 0;
  Slices results = {};
};

struct Case {
  Call call;
  std::string name;
  Asked asked;
  Told told;
};

template <class T> Longs wide(const std::vector<T> &slice) { return Longs(slice.begin(), slice.end()); }

inline Told refused(uint32_t number) { return {number}; }
inline Told points(const Bytes &set) { return {0, 0, std::accumulate(set.begin(), set.end(), uint64_t(0)), {wide(set)}}; }
inline Told arcs(const Graph &o) { return {0, 0, o.heads.size(), {wide(o.starts), wide(o.heads), wide(o.weights)}}; }
inline Told kept(const Nodes &positions) { return {0, 0, positions.size(), {wide(positions)}}; }
inline Told way(uint64_t weight) { return {0, 1, weight}; }
inline Told no_way() { return {}; }

inline Case cover(const char *name, const Graph &road, size_t k, const Nodes &order, const Told &told) {
  return {Call::cover, name, {road, {}, {}, 0, 0, k, order}, told};
}
inline Case overlay(const char *name, const Graph &road, const Bytes &set, size_t room, const Told &told) {
  return {Call::overlay, name, {road, set, {}, 0, 0, 1, {}, {}, room}, told};
}
inline Case handheld(const char *name, const Bytes &set, const Graph &over, uint32_t s, uint32_t t, const Told &told) {
  return {Call::handheld, name, {{}, set, over, s, t}, told};
}
inline Case any_pair(const char *name, const Graph &road, const Bytes &set, const Graph &over, uint32_t s, uint32_t t, const Told &told) {
  return {Call::any_pair, name, {road, set, over, s, t}, told};
}
inline Case thin(const char *name, const Graph &road, const Bytes &set, const Nodes &drive, const Told &told) {
  return {Call::thin, name, {road, set, {}, 0, 0, 1, {}, drive}, told};
}

// Line, Ring and Wedge of document 01, and two nodes joined both ways.
inline const Graph line = {{0, 1, 3, 5, 7, 8}, {1, 0, 2, 1, 3, 2, 4, 3}, {5, 5, 7, 7, 9, 9, 11, 11}};
inline const Graph ring = {{0, 1, 2, 3}, {1, 2, 0}, {1, 2, 4}};
inline const Graph wedge = {{0, 2, 2, 3}, {1, 2, 1}, {10, 3, 4}};
inline const Graph both_ways = {{0, 1, 2}, {1, 0}, {1, 1}};

// The cover of Line for k = 2, and its overlay.
inline const Bytes line_set = {0, 1, 0, 1, 0};
inline const Graph line_over = {{0, 0, 1, 1, 2, 2}, {3, 1}, {16, 16}};

inline Graph bare(size_t n) { return {Nodes(n + 1), {}, {}}; }
inline Bytes all(size_t n) { return Bytes(n, 1); }
inline Bytes none(size_t n) { return Bytes(n, 0); }
inline Bytes only(size_t n, const Nodes &nodes) {
  Bytes set(n);
  for (uint32_t v : nodes) set[v] = 1;
  return set;
}
template <class T> std::vector<T> with(std::vector<T> slice, size_t place, T entry) {
  slice[place] = entry;
  return slice;
}

// So many numbers from the first on, each so much above the one before.
inline Nodes counted(uint32_t first, uint32_t step, size_t count) {
  Nodes numbers(count);
  for (size_t i = 0; i < count; i++) numbers[i] = uint32_t(first + step * i);
  return numbers;
}
inline Nodes ascending(size_t n) { return counted(0, 1, n); }
inline Nodes descending(size_t n) { return counted(uint32_t(n - 1), uint32_t(-1), n); }
inline Nodes turning_back(size_t positions) {
  Nodes drive(positions);
  for (size_t i = 1; i < positions; i += 2) drive[i] = 1;
  return drive;
}

inline Graph two_way_line(uint32_t n) {
  maps::Arcs arcs;
  for (uint32_t v = 0; v + 1 < n; v++) arcs.both_ways(v, v + 1, 1);
  return arcs.graph(n);
}
inline Graph path(uint32_t n, uint32_t weight) { return {with(ascending(n + 1), n, n - 1), counted(1, 1, n - 1), Nodes(n - 1, weight)}; }

// 4,096 nodes with so many arcs each, to the first nodes other than itself; what arcs there are beyond that are the
// last node's.
inline Graph even(uint32_t each, uint32_t m) {
  maps::Arcs arcs;
  for (uint32_t p = 0; p < m; p++) {
    const uint32_t tail = std::min(p / each, 4095u), j = p - tail * each;
    arcs.one_way(tail, j < tail ? j : j + 1, 1);
  }
  return arcs.graph(4096);
}

// Nodes 0 to 255 lead to the hub, 256, and it to nodes 257 to 512; the overlay of all but the hub has 65,536 arcs,
// and one more where 257 leads to 258.
inline Graph hub(bool more) {
  maps::Arcs arcs;
  for (uint32_t v = 0; v < 256; v++) arcs.one_way(v, 256, 1), arcs.one_way(256, 257 + v, 1);
  if (more) arcs.one_way(257, 258, 1);
  return arcs.graph(513);
}
inline Graph hub_over(bool more) {
  maps::Arcs arcs;
  for (uint32_t v = 0; v < 256; v++)
    for (uint32_t u = 257; u < 513; u++) arcs.one_way(v, u, 2);
  if (more) arcs.one_way(257, 258, 1);
  return arcs.graph(513);
}
inline const Bytes around_hub = with<uint8_t>(all(513), 256, 0);

inline const std::vector<Case> covers = {
    cover("P1, one node, k 1", bare(1), 1, {0}, points({1})),
    cover("P2, one node, k 2", bare(1), 2, {0}, points({0})),
    cover("P3, Line, k 2", line, 2, ascending(5), points({0, 1, 0, 1, 0})),
    cover("P4, Line, k 2, order 1 3 0 2 4", line, 2, {1, 3, 0, 2, 4}, points({1, 0, 1, 0, 1})),
    cover("P5, Line, k 3", line, 3, ascending(5), points({0, 0, 1, 0, 0})),
    cover("Line, k 3, other weights", {line.starts, line.heads, {1000000, 0, 0, 1000000, 3, 1, 0, 0}}, 3, ascending(5), points({0, 0, 1, 0, 0})),
    cover("P6, Line, k 5", line, 5, ascending(5), points({0, 0, 0, 0, 1})),
    cover("P7, Line, k 6", line, 6, ascending(5), points(none(5))),
    cover("P8, two nodes, k 3", both_ways, 3, {0, 1}, points({0, 0})),
    cover("P9, Ring, k 3", ring, 3, {0, 1, 2}, points({0, 0, 1})),
    cover("Wedge, k 3, over 2 heavier", {wedge.starts, wedge.heads, {1, 3, 4}}, 3, {0, 1, 2}, points({0, 0, 1})),
    cover("line of 31 nodes, k 32", two_way_line(31), 32, ascending(31), points(none(31))),
    cover("line of 32 nodes, k 32", two_way_line(32), 32, ascending(32), points(only(32, {31}))),
    cover("line of 40 nodes, k 32", two_way_line(40), 32, ascending(40), points(only(40, {31}))),
    cover("Line, k 0", line, 0, ascending(5), refused(4)),
    cover("Line, k 1", line, 1, ascending(5), points(all(5))),
    cover("Line, k 32", line, 32, ascending(5), points(none(5))),
    cover("Line, k 33", line, 33, ascending(5), refused(4)),
    cover("Line, k past 32 bits", line, 4294967297, ascending(5), refused(4)),
    cover("Line, k the largest", line, SIZE_MAX, ascending(5), refused(4)),
    cover("order 0 1 2", ring, 2, {0, 1, 2}, points({0, 1, 1})),
    cover("order 2 0 1", ring, 2, {2, 0, 1}, points({1, 1, 0})),
    cover("order 0 1 1", ring, 2, {0, 1, 1}, refused(5)),
    cover("order 0 1 0", ring, 2, {0, 1, 0}, refused(5)),
    cover("order 0 1 3", ring, 2, {0, 1, 3}, refused(5)),
    cover("order 0 1", ring, 2, {0, 1}, refused(5)),
    cover("order 0 1 2 3", ring, 2, {0, 1, 2, 3}, refused(5)),
    cover("order 0 1 2 0", ring, 2, {0, 1, 2, 0}, refused(5)),
    cover("no order", ring, 2, {}, refused(5)),
    cover("Line, order with a repeat", line, 2, {0, 1, 2, 3, 1}, refused(5)),
    cover("order of 4095", bare(4096), 32, counted(1, 1, 4095), refused(5)),
    cover("order of 4096", bare(4096), 32, descending(4096), points(none(4096))),
    cover("order of 4096, first and last equal", bare(4096), 32, with(descending(4096), 4095, 4095u), refused(5)),
    cover("order of 4096, last 4096", bare(4096), 32, with(descending(4096), 4095, 4096u), refused(5)),
    cover("order of 4097", bare(4096), 32, ascending(4097), refused(5)),
};

inline const std::vector<Case> overlays = {
    overlay("Line, set 1 3, just room", line, line_set, 2, arcs(line_over)),
    overlay("Line, set 1 3, one arc more", line, line_set, 1, refused(12)),
    overlay("Line, set 1 3, no room", line, line_set, 0, refused(12)),
    overlay("Line, set 1 3, more room", line, line_set, 4, arcs(line_over)),
    overlay("Line, empty set", line, none(5), 2, arcs(bare(5))),
    overlay("Line, empty set, no room", line, none(5), 0, arcs(bare(5))),
    overlay("Line, set 2, no room", line, {0, 0, 1, 0, 0}, 0, arcs(bare(5))),
    overlay("Line, all nodes", line, all(5), 8, arcs(line)),
    overlay("Line, all nodes, one arc more", line, all(5), 7, refused(12)),
    overlay("Line, set 0 2 4", line, {1, 0, 1, 0, 1}, 5, arcs({{0, 1, 1, 3, 3, 4}, {2, 0, 4, 2}, {12, 12, 20, 20}})),
    overlay("Line, set 0 4", line, {1, 0, 0, 0, 1}, 2, arcs({{0, 1, 1, 1, 1, 2}, {4, 0}, {32, 32}})),
    overlay("P9, Ring, set 2", ring, {0, 0, 1}, 3, arcs(bare(3))),
    overlay("Ring, set 0 2", ring, {1, 0, 1}, 3, arcs({{0, 1, 1, 2}, {2, 0}, {3, 4}})),
    overlay("Ring of zeros, set 0 2", {ring.starts, ring.heads, {0, 0, 0}}, {1, 0, 1}, 3, arcs({{0, 1, 1, 2}, {2, 0}, {0, 0}})),
    overlay("Ring of zeros, all nodes", {ring.starts, ring.heads, {0, 0, 0}}, all(3), 3, arcs({ring.starts, ring.heads, {0, 0, 0}})),
    overlay("Wedge, set 0 1", wedge, {1, 1, 0}, 3, arcs({{0, 1, 1, 1}, {1}, {7}})),
    overlay("Wedge, set 2", wedge, {0, 0, 1}, 3, arcs(bare(3))),
    overlay("Wedge, all nodes", wedge, all(3), 3, arcs(wedge)),
    overlay("one node in the set", bare(1), {1}, 1, arcs(bare(1))),
    overlay("weight 1000000", {{0, 1, 1}, {1}, {1000000}}, {1, 1}, 1, arcs({{0, 1, 1}, {1}, {1000000}})),
    overlay("path of 4096 nodes, its ends", path(4096, 1000000), only(4096, {0, 4095}), 4096, arcs({with(Nodes(4097, 1), 0, 0u), {4095}, {4095000000}})),
    overlay("path of 4096 nodes, all of them", path(4096, 1000000), all(4096), 4096, arcs(path(4096, 1000000))),
    overlay("65536 arcs, just room", hub(false), around_hub, 65536, arcs(hub_over(false))),
    overlay("65536 arcs, more room", hub(false), around_hub, 65537, arcs(hub_over(false))),
    overlay("65536 arcs, room for 65535", hub(false), around_hub, 65535, refused(12)),
    overlay("65537 arcs, room for 65536", hub(true), around_hub, 65536, refused(12)),
    overlay("65537 arcs, room for all", hub(true), around_hub, 65537, refused(12)),
};

inline const Graph longest = path(4096, 4095000000);
inline const Graph two_heaviest = {{0, 1, 2, 2}, {1, 2}, {4095000000, 4095000000}};

// The last five lend an overlay of one arc, of weight 6, that no road path stands for: with 0 in the set the road's arc
// 0 to 1 is no way in, and with 2 in the set its arc 1 to 2 is no way out; outside it they are.
inline const std::vector<Case> questions = {
    handheld("Line, 1 to 3", line_set, line_over, 1, 3, way(16)),
    handheld("Line, 3 to 1", line_set, line_over, 3, 1, way(16)),
    handheld("Line, 3 to 3", line_set, line_over, 3, 3, way(0)),
    handheld("Wedge as an overlay, 0 to 1", all(3), wedge, 0, 1, way(7)),
    handheld("Wedge as an overlay, 1 to 0", all(3), wedge, 1, 0, no_way()),
    handheld("Wedge as an overlay, 1 to 1", all(3), wedge, 1, 1, way(0)),
    handheld("two heaviest arcs", all(3), two_heaviest, 0, 2, way(8190000000)),
    handheld("two heaviest arcs, back", all(3), two_heaviest, 2, 0, no_way()),
    handheld("the longest way", all(4096), longest, 0, 4095, way(16769025000000)),
    any_pair("the longest way", bare(4096), all(4096), longest, 0, 4095, way(16769025000000)),
    any_pair("Ring, set 2, 0 to 2", ring, {0, 0, 1}, bare(3), 0, 2, way(3)),
    any_pair("Ring, set 2, 2 to 1", ring, {0, 0, 1}, bare(3), 2, 1, way(5)),
    any_pair("P10, Ring, set 2, 1 to 0", ring, {0, 0, 1}, bare(3), 1, 0, way(6)),
    any_pair("Ring, set 2, 2 to 2", ring, {0, 0, 1}, bare(3), 2, 2, way(0)),
    any_pair("Ring, set 2, 1 to 1", ring, {0, 0, 1}, bare(3), 1, 1, way(0)),
    any_pair("P11, Wedge, set 2, 0 to 1", wedge, {0, 0, 1}, bare(3), 0, 1, way(7)),
    any_pair("P11, Wedge, set 2, 1 to 0", wedge, {0, 0, 1}, bare(3), 1, 0, no_way()),
    any_pair("Wedge, set 2, 1 to 2", wedge, {0, 0, 1}, bare(3), 1, 2, no_way()),
    any_pair("Line, 1 to 3", line, line_set, line_over, 1, 3, way(16)),
    any_pair("Line, 0 to 4", line, line_set, line_over, 0, 4, way(32)),
    any_pair("Line, 0 to 3", line, line_set, line_over, 0, 3, way(21)),
    any_pair("Line, 1 to 4", line, line_set, line_over, 1, 4, way(27)),
    any_pair("Line, 0 to 2", line, line_set, line_over, 0, 2, way(12)),
    any_pair("Line, 2 to 2", line, line_set, line_over, 2, 2, way(0)),
    any_pair("road 0 to 1, overlay 1 to 2, set 0 1 2", {{0, 1, 1, 1}, {1}, {1}}, {1, 1, 1}, {{0, 0, 1, 1}, {2}, {6}}, 0, 2, no_way()),
    any_pair("road 0 to 1, overlay 1 to 2, set 1 2", {{0, 1, 1, 1}, {1}, {1}}, {0, 1, 1}, {{0, 0, 1, 1}, {2}, {6}}, 0, 2, way(7)),
    any_pair("road 1 to 2, overlay 0 to 1, set 0 1 2", {{0, 0, 1, 1}, {2}, {1}}, {1, 1, 1}, {{0, 1, 1, 1}, {1}, {6}}, 0, 2, no_way()),
    any_pair("road 1 to 2, overlay 0 to 1, set 0 1", {{0, 0, 1, 1}, {2}, {1}}, {1, 1, 0}, {{0, 1, 1, 1}, {1}, {6}}, 0, 2, way(7)),
    any_pair("road 0 to 1, overlay 0 to 2, set 0 2", {{0, 1, 1, 1}, {1}, {1}}, {1, 0, 1}, {{0, 1, 1, 1}, {2}, {6}}, 0, 2, way(6)),
};

inline const std::vector<Case> drives = {
    thin("sample drive", line, line_set, {0, 1, 2, 3}, kept({1, 3})),
    thin("one node in the set", line, line_set, {3}, kept({0})),
    thin("one node outside it", line, line_set, {4}, kept({})),
    thin("no node", line, line_set, {}, refused(10)),
    thin("node 5 of 5", line, line_set, {3, 4, 5}, refused(10)),
    thin("all nodes", line, all(5), {4, 3, 2, 1, 0}, kept({0, 1, 2, 3, 4})),
    thin("from end to end", line, {0, 0, 1, 0, 0}, {4, 3, 2, 1, 0}, kept({2})),
    thin("back and forth", line, line_set, {0, 1, 0, 1, 0, 1}, kept({1, 3, 5})),
    thin("past no point", line, {0, 0, 1, 0, 0}, {0, 1, 0, 1, 0, 1}, kept({})),
    thin("one node of one", bare(1), {1}, {0}, kept({0})),
    thin("node 1 of one", bare(1), {1}, {1}, refused(10)),
    thin("weight 1000000", {{0, 1, 1}, {1}, {1000000}}, {1, 0}, {0, 1}, kept({0})),
    thin("Ring, 2", ring, {0, 0, 1}, {2}, kept({0})),
    thin("Ring, 3", ring, {0, 0, 1}, {3}, refused(10)),
    thin("Ring, the largest", ring, {0, 0, 1}, {4294967295}, refused(10)),
    thin("Ring, 0 1 2 0 1", ring, {0, 0, 1}, {0, 1, 2, 0, 1}, kept({2})),
    thin("Ring, 0 1 2 0 1 2", ring, {0, 0, 1}, {0, 1, 2, 0, 1, 2}, kept({2, 5})),
    thin("Ring, 0 1 2 1", ring, {0, 0, 1}, {0, 1, 2, 1}, refused(10)),
    thin("Ring, 1 0 1 2", ring, {0, 0, 1}, {1, 0, 1, 2}, refused(10)),
    thin("Ring, 0 1 3", ring, {0, 0, 1}, {0, 1, 3}, refused(10)),
    thin("Ring, 2 0", ring, {0, 0, 1}, {2, 0}, kept({0})),
    thin("P12, Ring, 2 1", ring, {0, 0, 1}, {2, 1}, refused(10)),
    thin("Ring, 0 0", ring, {0, 0, 1}, {0, 0}, refused(10)),
    thin("Ring, 2 2", ring, {0, 0, 1}, {2, 2}, refused(10)),
    thin("Ring, 0 3", ring, {0, 0, 1}, {0, 3}, refused(10)),
    thin("Ring, 3 0", ring, {0, 0, 1}, {3, 0}, refused(10)),
    thin("4095 positions, set 0", both_ways, {1, 0}, turning_back(4095), kept(counted(0, 2, 2048))),
    thin("4096 positions, set 0 1", both_ways, {1, 1}, turning_back(4096), kept(ascending(4096))),
    thin("4096 positions, set 0", both_ways, {1, 0}, turning_back(4096), kept(counted(0, 2, 2048))),
    thin("4096 positions, set 1", both_ways, {0, 1}, turning_back(4096), kept(counted(1, 2, 2048))),
    thin("4096 positions, no set", both_ways, {0, 0}, turning_back(4096), kept({})),
    thin("4096 positions, last not joined", both_ways, {0, 0}, with(turning_back(4096), 4095, 0u), refused(10)),
    thin("4096 positions, last 2", both_ways, {0, 0}, with(turning_back(4096), 4095, 2u), refused(10)),
    thin("4097 positions, set 0 1", both_ways, {1, 1}, turning_back(4097), refused(10)),
    thin("4097 positions, no set", both_ways, {0, 0}, turning_back(4097), refused(10)),
};

} // namespace edges
