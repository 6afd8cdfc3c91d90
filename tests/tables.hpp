// Inputs that go through several calls, and faults of one call in every choice, with the numbers that the rules tell.
#pragma once
#include "cases.hpp"

namespace edges {

// Graphs by themselves: the number told of one as the road, and as an overlay of which all nodes are in the set; 0 if it
// passes.
struct GraphRow {
  const char *name;
  Graph graph;
  uint32_t road, over;
};
inline const std::vector<GraphRow> graph_rows = {
    {"no start", {{}, {}, {}}, 1, 7},
    {"one start", {{0}, {}, {}}, 1, 7},
    {"one start of 1", {{1}, {}, {}}, 1, 7},
    {"one start of 1, and an arc too heavy", {{1}, {5}, {1000001}}, 1, 7},
    {"one node", {{0, 0}, {}, {}}, 0, 0},
    {"4097 starts", bare(4096), 0, 0},
    {"4098 starts", bare(4097), 1, 7},
    {"fewer weights", {{0, 1, 2, 3}, {1, 2, 0}, {1, 2}}, 1, 7},
    {"more weights", {{0, 1, 2, 2}, {1, 2}, {1, 2, 4}}, 1, 7},
    {"no weights", {{0, 1, 2, 3}, {1, 2, 0}, {}}, 1, 7},
    {"no heads", {{0, 0, 0, 0}, {}, {1, 2, 4}}, 1, 7},
    {"no weight, head its tail", {{0, 1, 1}, {0}, {}}, 1, 7},
    {"16384 arcs", even(4, 16384), 0, 0},
    {"16385 arcs", even(4, 16385), 1, 0},
    {"65536 arcs", even(16, 65536), 1, 0},
    {"65537 arcs", even(16, 65537), 1, 7},
    {"Line", line, 0, 0},
    {"Ring", ring, 0, 0},
    {"Wedge", wedge, 0, 0},
    {"equal starts", {{0, 2, 2, 3}, {1, 2, 0}, {1, 2, 4}}, 0, 0},
    {"first start 1", {{1, 1, 2, 3}, {1, 2, 0}, {1, 2, 4}}, 2, 7},
    {"all starts 1", {{1, 1, 1}, {1}, {1}}, 2, 7},
    {"falling starts", {{0, 2, 1, 3}, {1, 2, 0}, {1, 2, 4}}, 2, 7},
    {"falling at the end", {{0, 1, 4, 3}, {1, 2, 0}, {1, 2, 4}}, 2, 7},
    {"a start the largest", {{0, 1, 4294967295, 3}, {1, 2, 0}, {1, 2, 4}}, 2, 7},
    {"last start below m", {{0, 1, 2, 2}, {1, 2, 0}, {1, 2, 4}}, 2, 7},
    {"last start above m", {{0, 1, 2, 4}, {1, 2, 0}, {1, 2, 4}}, 2, 7},
    {"starts all 0", {{0, 0, 0, 0}, {1, 2, 0}, {1, 2, 4}}, 2, 7},
    {"last start above m, head its tail", {{0, 1, 2}, {0}, {1}}, 2, 7},
    {"head n-1", {{0, 1, 1}, {1}, {1}}, 0, 0},
    {"head n", {{0, 1, 1}, {2}, {1}}, 3, 7},
    {"head the largest", {{0, 1, 1}, {4294967295}, {1}}, 3, 7},
    {"head its tail, 0", {{0, 1, 1}, {0}, {1}}, 3, 7},
    {"head its tail, n-1", {{0, 0, 1}, {1}, {1}}, 3, 7},
    {"head 4095 of 4096 nodes", {with(Nodes(4097, 1), 0, 0u), {4095}, {1}}, 0, 0},
    {"head 4096 of 4096 nodes", {with(Nodes(4097, 1), 0, 0u), {4096}, {1}}, 3, 7},
    {"weight 0", {{0, 1, 1}, {1}, {0}}, 0, 0},
    {"weight 1000000", {{0, 1, 1}, {1}, {1000000}}, 0, 0},
    {"weight 1000001", {{0, 1, 1}, {1}, {1000001}}, 3, 0},
    {"weight 1000001 at the end", {{0, 0, 1}, {0}, {1000001}}, 3, 0},
    {"weight 4095000000", {{0, 1, 1}, {1}, {4095000000}}, 3, 0},
    {"weight 4095000001", {{0, 1, 1}, {1}, {4095000001}}, 3, 7},
    {"weight the largest", {{0, 1, 1}, {1}, {4294967295}}, 3, 7},
    {"ascending heads", {{0, 2, 2, 2}, {1, 2}, {1, 1}}, 0, 0},
    {"equal heads", {{0, 2, 2, 2}, {1, 1}, {1, 1}}, 3, 7},
    {"falling heads", {{0, 2, 2, 2}, {2, 1}, {1, 1}}, 3, 7},
    {"equal heads at the end", {{0, 0, 0, 2}, {1, 1}, {1, 1}}, 3, 7},
    {"equal heads of two tails", {{0, 1, 2, 2}, {2, 2}, {1, 1}}, 0, 0},
    {"falling heads of two tails", {{0, 1, 2, 2}, {2, 0}, {1, 1}}, 0, 0},
};

// Sets beside a road, 0 if it passes, else 6.
struct SetRow {
  const char *name;
  Graph road;
  Bytes set;
  uint32_t number;
};
inline const std::vector<SetRow> set_rows = {
    {"set 0 0 0", ring, {0, 0, 0}, 0},
    {"set 0 1 0", ring, {0, 1, 0}, 0},
    {"set 1 1 1", ring, {1, 1, 1}, 0},
    {"set 0 0 2", ring, {0, 0, 2}, 6},
    {"set 255 0 0", ring, {255, 0, 0}, 6},
    {"set 0 1 of three nodes", ring, {0, 1}, 6},
    {"set 0 1 0 0 of three nodes", ring, {0, 1, 0, 0}, 6},
    {"no set of three nodes", ring, {}, 6},
    {"set 1 of one node", bare(1), {1}, 0},
    {"set 1 1 of one node", bare(1), {1, 1}, 6},
    {"no set of one node", bare(1), {}, 6},
    {"set of 4095", bare(4096), all(4095), 6},
    {"set of 4096", bare(4096), with<uint8_t>(all(4096), 4095, 0), 0},
    {"set of 4096, last 2", bare(4096), with<uint8_t>(all(4096), 4095, 2), 6},
    {"set of 4097", bare(4096), all(4097), 6},
};

// Sets of the handheld question, whose length is n: 0 if it passes, else 1 or 6.
struct LoneSetRow {
  const char *name;
  Bytes set;
  uint32_t number;
};
inline const std::vector<LoneSetRow> lone_set_rows = {
    {"set of 0", {}, 1},
    {"set of 1", {1}, 0},
    {"set of 1, of 2", {2}, 6},
    {"set of 4096", with<uint8_t>(all(4096), 4095, 0), 0},
    {"set of 4096, last 2", with<uint8_t>(all(4096), 4095, 2), 6},
    {"set of 4096, all 2", Bytes(4096, 2), 6},
    {"set of 4097", all(4097), 1},
    {"set of 4097, one 2", with<uint8_t>(all(4097), 4095, 2), 1},
    {"set of 4097, all 2", Bytes(4097, 2), 1},
};

// Overlays beside a set, 0 if it passes, else 7.
struct OverlayRow {
  const char *name;
  Bytes set;
  Graph over;
  uint32_t number;
};
inline const std::vector<OverlayRow> overlay_rows = {
    {"right", line_set, line_over, 0},
    {"head outside", line_set, {{0, 0, 1, 1, 2, 2}, {3, 0}, {16, 16}}, 7},
    {"tail outside", line_set, {{0, 1, 1, 1, 2, 2}, {3, 1}, {16, 16}}, 7},
    {"both ends outside", line_set, {{0, 0, 0, 1, 1, 1}, {4}, {16}}, 7},
    {"no set", {0, 0, 0, 0, 0}, line_over, 7},
    {"weight 4095000000", line_set, {{0, 0, 1, 1, 2, 2}, {3, 1}, {16, 4095000000}}, 0},
    {"weight 4095000001", line_set, {{0, 0, 1, 1, 2, 2}, {3, 1}, {16, 4095000001}}, 7},
    {"as many starts as asked", {1, 1, 0}, {{0, 1, 2, 2}, {1, 0}, {8, 8}}, 0},
    {"one start too many", {1, 1}, {{0, 1, 2, 2}, {1, 0}, {8, 8}}, 7},
    {"one start too few", {1, 1, 0, 0}, {{0, 1, 2, 2}, {1, 0}, {8, 8}}, 7},
    {"one start too few, the last node in the set", {1, 1, 0, 1}, {{0, 1, 2, 2}, {1, 0}, {8, 8}}, 7},
    {"no arc", {0}, {{0, 0}, {}, {}}, 0},
    {"65536 arcs around a hub", around_hub, hub_over(false), 0},
    {"65537 arcs around a hub", around_hub, hub_over(true), 7},
};

// A question's nodes, where neither road nor overlay has an arc: what the handheld and the any-pair question tell.
struct NodesRow {
  const char *name;
  Bytes set;
  uint32_t s, t;
  Told handheld, any_pair;
};
inline const std::vector<NodesRow> nodes_rows = {
    {"one node, 0 to 0", {1}, 0, 0, way(0), way(0)},
    {"one node, 0 to 1", {1}, 0, 1, refused(8), refused(8)},
    {"one node, 1 to 0", {1}, 1, 0, refused(8), refused(8)},
    {"4096 nodes, 4095 to 4095", all(4096), 4095, 4095, way(0), way(0)},
    {"4096 nodes, 4096 to 0", all(4096), 4096, 0, refused(8), refused(8)},
    {"4096 nodes, 0 to 4096", all(4096), 0, 4096, refused(8), refused(8)},
    {"4096 nodes, 4096 to 4096", all(4096), 4096, 4096, refused(8), refused(8)},
    {"4096 nodes, the largest to 0", all(4096), 4294967295, 0, refused(8), refused(8)},
    {"both in the set", {0, 1, 1}, 1, 2, no_way(), no_way()},
    {"the same in the set", {0, 1, 1}, 2, 2, way(0), way(0)},
    {"the first outside", {0, 1, 1}, 0, 1, refused(9), no_way()},
    {"the second outside", {0, 1, 1}, 2, 0, refused(9), no_way()},
    {"both outside", {0, 1, 1}, 0, 0, refused(9), way(0)},
    {"the first outside, the second no node", {0, 1, 1}, 0, 3, refused(8), refused(8)},
};

// Maps with no fault, of which each result and work slice in turn is lent at a wrong length. There is room for one overlay
// arc too few where there is more than one, since that is judged later.
inline const std::vector<std::pair<const char *, Asked>> length_rows = {
    {"one arc", {{{0, 1, 1}, {1}, {1}}, all(2), {{0, 1, 1}, {1}, {1}}, 0, 1, 1, {0, 1}, {0}, 1}},
    {"Line", {line, line_set, line_over, 1, 3, 2, ascending(5), {0, 1, 2, 3}, 1}},
    {"path of 4096 nodes", {path(4096, 1), all(4096), path(4096, 1), 0, 4095, 32, ascending(4096), ascending(4096), 4094}},
};

// Faults of a call in the order of their numbers, each put into an input that has none, and the answer to that.
struct Fault {
  uint32_t number;
  void (*put)(Asked &);
};
struct FaultsRow {
  Call call;
  Told answer;
  std::vector<Fault> faults;
};
inline const Asked three_nodes = {{{0, 1, 1, 1}, {1}, {1}}, {1, 1, 0}, {{0, 1, 1, 1}, {1}, {5}}, 0, 1, 1, {0, 1, 2}, {0, 1}, 1};
inline const Fault no_weight = {1, [](Asked &a) { a.road.weights.clear(); }}, weight_more = {1, [](Asked &a) { a.road.weights.push_back(1); }};
inline const Fault no_set = {1, [](Asked &a) { a.set.clear(); }}, set_of_4097 = {1, [](Asked &a) { a.set.resize(4097); }};
inline const Fault last_start = {2, [](Asked &a) { a.road.starts.back() = 2; }}, first_start = {2, [](Asked &a) { a.road.starts[0] = 1; }};
inline const Fault own_tail = {3, [](Asked &a) { a.road.heads[0] = 0; }}, heavy = {3, [](Asked &a) { a.road.weights[0] = 1000001; }};
inline const Fault k_0 = {4, [](Asked &a) { a.k = 0; }}, k_33 = {4, [](Asked &a) { a.k = 33; }};
inline const Fault repeat = {5, [](Asked &a) { a.order[1] = 0; }}, order_3 = {5, [](Asked &a) { a.order[1] = 3; }};
inline const Fault byte_2 = {6, [](Asked &a) { a.set[1] = 2; }}, short_set = {6, [](Asked &a) { a.set.pop_back(); }};
inline const Fault over_loop = {7, [](Asked &a) { a.over.heads[0] = 0; }}, over_outside = {7, [](Asked &a) { a.over.heads[0] = 2; }};
inline const Fault over_heavy = {7, [](Asked &a) { a.over.weights[0] = 4095000001; }};
inline const Fault no_s = {8, [](Asked &a) { a.s = 5000; }}, no_t = {8, [](Asked &a) { a.t = 5000; }};
inline const Fault s_outside = {9, [](Asked &a) { a.s = 2; }}, t_outside = {9, [](Asked &a) { a.t = 2; }};
inline const Fault no_drive = {10, [](Asked &a) { a.drive = {}; }}, node_3 = {10, [](Asked &a) { a.drive = {0, 3}; }};
inline const Fault not_joined = {10, [](Asked &a) { a.drive = {1, 0}; }};
inline const Fault too_long = {11, [](Asked &a) { a.by = 1; }}, too_short = {11, [](Asked &a) { a.by = -1; }};
inline const Fault no_room = {12, [](Asked &a) { a.room = 0; }};

inline const Told one_arc = arcs({{0, 1, 1, 1}, {1}, {1}});
inline const std::vector<FaultsRow> faults_rows = {
    {Call::cover, points(all(3)), {no_weight, last_start, own_tail, k_0, repeat, too_long}},
    {Call::cover, points(all(3)), {weight_more, first_start, heavy, k_33, order_3, too_short}},
    {Call::overlay, one_arc, {no_weight, last_start, own_tail, byte_2, too_long, no_room}},
    {Call::overlay, one_arc, {weight_more, first_start, heavy, short_set, too_short, no_room}},
    {Call::handheld, way(5), {no_set, byte_2, over_loop, no_s, t_outside, too_long}},
    {Call::handheld, way(5), {set_of_4097, byte_2, over_outside, no_t, s_outside, too_long}},
    {Call::handheld, way(5), {set_of_4097, byte_2, over_heavy, no_s, t_outside, too_short}},
    {Call::any_pair, way(1), {no_weight, last_start, own_tail, byte_2, over_loop, no_s, too_long}},
    {Call::any_pair, way(1), {weight_more, first_start, heavy, short_set, over_outside, no_t, too_short}},
    {Call::thin, kept({0, 1}), {no_weight, last_start, own_tail, byte_2, not_joined, too_long}},
    {Call::thin, kept({0, 1}), {weight_more, first_start, heavy, byte_2, node_3, too_short}},
    {Call::thin, kept({0, 1}), {no_weight, last_start, own_tail, short_set, no_drive, too_long}},
};

} // namespace edges
