// Sends random graphs, whole and damaged, through the archive's five calls and through the independent
// implementations, and compares the answers and every slice afterwards. Half of the time goes to graphs of
// up to 7 nodes, judged by the reference, with which the efficient implementation must agree; the other
// half to larger ones, road-like and adversarial, judged by the efficient implementation.
//   differential SECONDS [SEED]
#include "efficient.hpp"
#include "lent.hpp"
#include "maps.hpp"
#include "reference.hpp"

#include <chrono>
#include <cstdio>
#include <cstdlib>
#include <map>
#include <numeric>
#include <set>
#include <string>
#include <unistd.h>

using namespace graphs;

static std::mt19937_64 draw;
static uint64_t below(uint64_t n) { return draw() % n; }
static bool chance(unsigned in) { return below(in) == 0; }
static uint32_t between(uint32_t least, uint32_t most) { return uint32_t(least + below(most - least + 1)); }

static efficient::Calls fast;
static bool small; // whether the reference judges too
static uint64_t rounds;
static std::map<std::string, std::map<uint32_t, uint64_t>> seen;

static void differs(const char *call, const char *what) {
  std::printf("differential: %s: %s differs in round %llu of the %s graphs\n", call, what, (unsigned long long)rounds, small ? "small" : "larger");
  std::exit(1);
}

static void agree(const char *call, const char *what, bool alike) {
  if (!alike) differs(call, what);
}

// A slice of junk, now and then of a length one off.
template <class T> static std::vector<T> junk(size_t n) {
  if (chance(60)) n = n && chance(2) ? n - 1 : n + 1;
  std::vector<T> l(n);
  for (T &entry : l) entry = T(draw());
  return l;
}

template <class Work> static Work junk_work(size_t n, size_t m) {
  Work work(n, m);
  work.each([](auto &slice) { slice = junk<typename std::decay_t<decltype(slice)>::value_type>(slice.size()); });
  return work;
}

// The answer, and the work after the call: as it was, or zeros.
template <class Is, class Told, class Work> static void judge(const char *call, const Is &is, const Told &told, Work &work, const Work &was) {
  seen[call][is.refusal]++;
  agree(call, "the answer", lent::same(is, told));
  const bool searched = told.refusal == 0 || told.refusal == 12;
  agree(call, "the work", searched ? work.zero() && work.lengths() == Work(was).lengths() : work.slices == was.slices);
}

static void try_cover(const Graph &g, size_t n, size_t m, size_t k) {
  if (chance(25)) k = chance(2) ? 0 : 33;
  Nodes order(n);
  std::iota(order.begin(), order.end(), 0);
  if (!chance(5)) std::shuffle(order.begin(), order.end(), draw);
  if (chance(25)) order[below(n)] = uint32_t(below(n + 1));
  if (chance(40)) order.push_back(0);
  auto points = junk<uint8_t>(n), told_points = points;
  auto work = junk_work<lent::CoverWork>(n, m);
  const auto was = work;
  Lengths lengths = work.lengths();
  lengths.push_back({points.size(), n});
  const Count told = fast.cover(g, k, order, told_points, lengths);
  if (small) {
    auto slow_points = points;
    agree("cover", "the reference", reference::cover(g, k, order, slow_points, lengths) == told && slow_points == told_points);
  }
  judge("cover", lent::cover(g, k, order, points, work), told, work, was);
  agree("cover", "the points", points == told_points);
}

static void try_overlay(const Graph &g, const Bytes &set, size_t n, size_t room) {
  Graph o;
  o.starts = junk<uint32_t>(n + 1), o.heads = junk<uint32_t>(room), o.weights = junk<uint32_t>(o.heads.size());
  Graph made = o;
  auto work = junk_work<lent::OverlayWork>(n, 0);
  const auto was = work;
  Lengths lengths = work.lengths();
  lengths.push_back({o.starts.size(), n + 1}), lengths.push_back({o.heads.size(), o.weights.size()});
  const Count told = fast.overlay(g, set, made, lengths);
  if (small) {
    Graph slow = o;
    agree("overlay", "the reference", reference::overlay(g, set, slow, lengths) == told && slow == made);
  }
  judge("overlay", lent::overlay(g, set, o, work), told, work, was);
  agree("overlay", "the result", o == made);
}

static void try_handheld(const Bytes &set, const Graph &o, uint32_t s, uint32_t t) {
  auto work = junk_work<lent::HandheldWork>(set.size(), 0);
  const auto was = work;
  const Lengths lengths = work.lengths();
  const Distance told = fast.handheld(set, o, s, t, lengths);
  if (small) agree("handheld", "the reference", reference::handheld(set, o, s, t, lengths) == told);
  judge("handheld", lent::handheld(set, o, s, t, work), told, work, was);
}

static void try_any_pair(const Graph &g, const Bytes &set, const Graph &o, size_t n, size_t m, uint32_t s, uint32_t t) {
  auto work = junk_work<lent::AnyPairWork>(n, m);
  const auto was = work;
  const Lengths lengths = work.lengths();
  const Distance told = fast.any_pair(g, set, o, s, t, lengths);
  if (small) agree("any_pair", "the reference", reference::any_pair(g, set, o, s, t, lengths) == told);
  judge("any_pair", lent::any_pair(g, set, o, s, t, work), told, work, was);
}

static void try_thin(const Graph &g, const Bytes &set, const Nodes &drive) {
  auto positions = junk<uint32_t>(drive.size()), kept = positions;
  const Count told = fast.thin(g, set, drive, kept);
  if (small) {
    auto slow = positions;
    agree("thin", "the reference", reference::thin(g, set, drive, slow) == told && slow == kept);
  }
  const gulvane_count is = lent::thin(g, set, drive, positions);
  seen["thin"][is.refusal]++;
  agree("thin", "the answer", lent::same(is, told));
  agree("thin", "the positions", positions == kept);
}

static uint32_t weight() {
  switch (below(4)) {
  case 0: return 0;
  case 1: return uint32_t(below(4));
  case 2: return uint32_t(below(1000));
  default: return uint32_t(below(1000001));
  }
}

static const uint32_t most_road = 1000000, most_overlay = 4095000000u;

// One fault, of any kind, in one place out of ten graphs.
static void damage(Graph &g, uint32_t heaviest) {
  if (!chance(10)) return;
  auto any = [](Nodes &l) -> uint32_t & { return l[below(l.size())]; };
  switch (below(10)) {
  case 0: g.starts.clear(); break;
  case 1: g.starts.resize(1); break;
  case 2: if (!g.heads.empty()) g.heads.pop_back(); break;
  case 3: g.weights.push_back(1); break;
  case 4: if (!g.starts.empty()) any(g.starts) = uint32_t(below(g.heads.size() + 3)); break;
  case 5: if (!g.heads.empty()) any(g.heads) = uint32_t(below(g.starts.size() + 2)); break;
  case 6: if (!g.weights.empty()) any(g.weights) = heaviest + 1; break;
  case 7: if (!g.starts.empty()) g.starts.push_back(g.starts.back()); break;
  case 8: if (!g.heads.empty()) any(g.heads) = uint32_t(draw()); break;
  default: g.starts.assign(4098, 0); break;
  }
}

static void damage(Bytes &set) {
  if (chance(30)) set.push_back(0);
  if (chance(30) && !set.empty()) set[below(set.size())] = 2;
  if (chance(60)) set.assign(chance(2) ? 0 : 4097, 0);
}

static void damage(Nodes &drive, size_t n) {
  if (chance(30)) drive.clear();
  else if (chance(30)) drive.resize(4097);
  else if (chance(10)) drive[below(drive.size())] = uint32_t(below(n + 2));
}

static Bytes some_nodes(size_t n) {
  Bytes set(n);
  const unsigned in = between(1, 4);
  for (uint8_t &byte : set) byte = chance(in);
  return set;
}

static void weigh(Graph &g) {
  const uint64_t style = below(6);
  for (uint32_t &w : g.weights) switch (style) {
    case 0: w = 0; break;
    case 1: w = chance(2) ? 0 : most_road; break;
    case 2: w = 7; break;
    case 3: w = most_road; break;
    case 4: w = weight(); break;
    default: break;
    }
}

// An overlay of another graph: scattered arcs between the set's nodes, or one long way through all of them.
static Graph foreign(const Bytes &set) {
  Nodes members;
  for (uint32_t v = 0; v < set.size(); v++)
    if (set[v]) members.push_back(v);
  std::shuffle(members.begin(), members.end(), draw);
  maps::Arcs arcs;
  if (chance(3)) {
    for (size_t i = 1; i < members.size(); i++) arcs.one_way(members[i - 1], members[i], most_overlay);
    return arcs.graph(uint32_t(set.size()));
  }
  const unsigned percent = between(0, members.size() > 30 ? 10 : 100);
  for (uint32_t a : members)
    for (uint32_t b : members)
      if (maps::chance(draw, percent)) arcs.one_way(a, b, chance(3) ? uint32_t(below(most_overlay + 1ull)) : weight());
  return arcs.graph(uint32_t(set.size()));
}

// The road's own overlay, of a whole graph and set.
static Graph own(const Graph &g, const Bytes &set) {
  Graph o;
  o.starts.resize(g.starts.size()), o.heads.resize(65536), o.weights.resize(65536);
  const size_t count = fast.overlay(g, set, o, {}).count;
  o.heads.resize(count), o.weights.resize(count);
  return o;
}

static bool whole(const Graph &g, const Bytes &set) {
  return !efficient::fault_of_graph(g, efficient::road_limits) && efficient::is_set(set, g.starts.size() - 1);
}

static uint32_t question(size_t n) { return uint32_t(chance(30) ? n + below(2) : below(n)); }

// Mostly a node of the set, if there is one.
static uint32_t handheld_question(const Bytes &set, size_t n) {
  uint32_t v = question(n);
  for (size_t tries = 0; tries < 20 && v < set.size() && set[v] != 1; tries++) v = uint32_t(below(n));
  return v;
}

// All five calls on a graph and a set, with or without faults.
static void try_all(Graph g, Bytes set, size_t k) {
  Graph o = foreign(set);
  // Most overlays are foreign; half of those that can be are the road's own.
  if (chance(2)) o = own(g, set);
  Nodes drive = maps::wander(g, 1 + below(2 * set.size() + 2), draw);
  damage(g, most_road), damage(o, most_overlay), damage(set), damage(drive, g.starts.size());
  const size_t n = g.starts.size() < 2 ? 1 : g.starts.size() - 1, m = g.heads.size();
  size_t room = below(std::min<size_t>(n * n, 64) + 2);
  // Often the room is just enough, or one too few; where there may be too many arcs it is all that counts, or more.
  if (whole(g, set) && !chance(3)) room = own(g, set).heads.size();
  if (room > 0 && chance(6)) room--;
  if (n > 256 && chance(2)) room = 65536 + below(3);
  try_cover(g, n, m, k);
  try_overlay(g, set, n, room);
  for (size_t i = small ? 1 : 4; i > 0; i--) {
    try_handheld(set, o, chance(20) ? question(n) : handheld_question(set, n), handheld_question(set, n));
    try_any_pair(g, set, o, n, m, question(n), question(n));
  }
  try_thin(g, set, drive);
}

static void small_round() {
  const uint32_t n = between(1, 7);
  Graph g = maps::scattered(n, 100 / between(1, 5), draw);
  for (uint32_t &w : g.weights) w = weight();
  try_all(g, some_nodes(n), between(1, n + 2));
}

// A larger map, and the most nodes of a path for which pruning does not look at too many.
static std::pair<Graph, uint32_t> larger_map() {
  const uint32_t n = chance(4) ? between(61, 200) : between(8, 60);
  switch (below(9)) {
  case 0: return {maps::chain(n, true, chance(2), draw), 32};
  case 1: return {maps::chain(n, false, chance(2), draw), 32};
  case 2: return {maps::fan(between(1, 30), between(1, 30), chance(2), draw), 5};
  case 3: return {maps::scattered(between(2, 40), 100, draw), 8};
  case 4: return {maps::scattered(between(8, 60), between(0, 6), draw), 7};
  case 5: return {maps::grid(between(2, 10), between(2, 10), draw), 16};
  default: return {maps::road_like(n, draw), 32};
  }
}

// Sources and sinks whose overlay has 65,536 arcs, or with one arc from source to source one more.
static std::pair<Graph, Bytes> full_overlay() {
  Graph g = maps::fan(256, 256, false, draw);
  Bytes set(g.starts.size() - 1, 1);
  set[0] = 0;
  if (chance(2)) {
    g.heads.insert(g.heads.begin() + g.starts[2], 2), g.weights.insert(g.weights.begin() + g.starts[2], 1);
    for (size_t v = 2; v < g.starts.size(); v++) g.starts[v]++;
  }
  return {g, set};
}

static std::pair<Graph, Bytes> longest_chain() {
  Bytes set(4096, 0);
  for (size_t i = below(4); i > 0; i--) set[below(4096)] = 1;
  set.front() = set.back() = 1;
  return {maps::chain(4096, chance(2), chance(2), draw), set};
}

static void larger_round() {
  if (chance(100)) {
    auto [g, set] = chance(2) ? full_overlay() : longest_chain();
    weigh(g);
    try_all(g, set, 3);
    return;
  }
  auto [g, most_k] = larger_map();
  weigh(g);
  const size_t n = g.starts.size() - 1;
  Bytes set = chance(10) ? Bytes(n, chance(2)) : some_nodes(n);
  const size_t k = between(1, most_k);
  if (chance(3)) {
    Nodes order(n);
    std::iota(order.begin(), order.end(), 0);
    fast.cover(g, k, order, set, {});
  }
  try_all(g, set, k);
}

// Rounds for so long; then what was answered and refused, how often, and whether any number never was.
static bool run(double seconds, void round()) {
  rounds = 0, seen.clear();
  const auto begin = std::chrono::steady_clock::now();
  while (std::chrono::duration<double>(std::chrono::steady_clock::now() - begin).count() < seconds) round(), rounds++;
  const std::map<std::string, std::set<uint32_t>> wanted = {{"cover", {0, 1, 2, 3, 4, 5, 11}},
                                                            {"overlay", {0, 1, 2, 3, 6, 11, 12}},
                                                            {"handheld", {0, 1, 6, 7, 8, 9, 11}},
                                                            {"any_pair", {0, 1, 2, 3, 6, 7, 8, 11}},
                                                            {"thin", {0, 1, 2, 3, 6, 10, 11}}};
  bool all = true;
  std::printf("differential: %llu %s graphs alike; answers (0) and refusals by number:\n", (unsigned long long)rounds, small ? "small" : "larger");
  for (auto &[call, numbers] : wanted) {
    std::printf("  %-8s", call.c_str());
    for (uint32_t number : numbers) {
      std::printf(" %u:%llu", number, (unsigned long long)seen[call][number]);
      all = all && seen[call][number] > 0;
    }
    std::printf("\n");
  }
  if (!all) std::printf("differential: a number was never told\n");
  return all;
}

int main(int argc, char **argv) {
  if (argc < 2) return 2;
  const double seconds = std::atof(argv[1]);
  draw.seed(argc > 2 ? std::strtoull(argv[2], nullptr, 10) : 1);
  // A graph on which pruning never ends must not hold up the tests.
  alarm(unsigned(seconds) + 300);
  small = true;
  bool all = run(seconds / 2, small_round);
  small = false;
  all = run(seconds / 2, larger_round) && all;
  return all ? 0 : 1;
}
