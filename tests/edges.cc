// Lends the archive's five calls what stands at an edge of the rules and one past it, and compares the answer and every
// slice afterwards with what the rules say.
#include "lent.hpp"
#include "tables.hpp"

#include <cstdio>

using namespace edges;

// The calls' names, and of each the results and the work in the order lent.
struct Shape {
  const char *call;
  std::vector<const char *> slices;
};
static const Shape shapes[] = {
    {"cover", {"points", "starts_back", "heads_back", "weights_back", "marks", "pieces", "sizes"}},
    {"overlay", {"over_starts", "over_heads", "over_weights", "labels", "heap", "places", "touched"}},
    {"handheld", {"labels", "heap", "places", "touched", "blocked"}},
    {"any_pair", {"starts_back", "heads_back", "weights_back", "outward", "inward", "labels", "heap", "places", "touched", "blocked"}},
    {"thin", {"positions"}},
};
static const Shape &shape(Call call) { return shapes[size_t(call)]; }

// What a call may not write: the slices that are only lent, and their names.
static const char *const lent_names[] = {"starts", "heads", "weights", "set", "over_starts", "over_heads", "over_weights", "order", "drive"};
static Slices only_lent(const Asked &a) {
  const Graph &g = a.road, &o = a.over;
  return {wide(g.starts), wide(g.heads), wide(g.weights), wide(a.set), wide(o.starts), wide(o.heads), wide(o.weights), wide(a.order), wide(a.drive)};
}

static void differs(const Case &c, const std::string &what, const std::string &is, const std::string &told) {
  std::printf("differs: %s: %s: %s is %s and should be %s\n", shape(c.call).call, c.name.c_str(), what.c_str(), is.c_str(), told.c_str());
}

static Told said(const gulvane_count &is) { return {is.refusal, 0, is.count}; }
static Told said(const gulvane_distance &is) { return {is.refusal, is.way, is.weight}; }

static std::string text(Call call, const Told &told) {
  const bool distance = call == Call::handheld || call == Call::any_pair;
  const std::string values = distance ? "way " + std::to_string(told.way) + ", weight " : "count ";
  return "(refusal " + std::to_string(told.refusal) + ", " + values + std::to_string(told.number) + ")";
}

static bool same_answer(const Case &c, const Told &is) {
  if (is.refusal == c.told.refusal && is.way == c.told.way && is.number == c.told.number) return true;
  differs(c, "the answer", text(c.call, is), text(c.call, c.told));
  return false;
}

static bool same_slice(const Case &c, const std::string &slice, const Longs &is, const Longs &told) {
  if (is == told) return true;
  const size_t i = size_t(std::mismatch(is.begin(), is.end(), told.begin(), told.end()).first - is.begin());
  if (i == is.size() || i == told.size()) differs(c, "the length of " + slice, std::to_string(is.size()), std::to_string(told.size()));
  else differs(c, slice + "[" + std::to_string(i) + "]", std::to_string(is[i]), std::to_string(told[i]));
  return false;
}

// What the results and the work hold after a call, of what they held before: a refusal leaves all of it, but 12 leaves
// the work zero; so does an answer, which stands at the front of the results.
static Slices left(const Told &told, Slices slices, size_t results) {
  if (told.refusal != 0 && told.refusal != 12) return slices;
  for (size_t i = results; i < slices.size(); i++) slices[i].assign(slices[i].size(), 0);
  for (size_t i = 0; i < told.results.size(); i++) {
    if (slices[i].size() < told.results[i].size()) slices[i].resize(told.results[i].size());
    std::copy(told.results[i].begin(), told.results[i].end(), slices[i].begin());
  }
  return slices;
}

// Fills the results and the work with what no answer leaves, asks, and compares.
template <class Work, class Ask, class... Results> static bool asked_alike(const Case &c, Work work, Ask ask, Results &...results) {
  auto each = [&](auto f) { (f(results), ...), work.each(f); };
  size_t place = 0;
  each([&](auto &slice) {
    const size_t length = slice.size() + size_t(place++ == c.asked.wrong ? c.asked.by : 0);
    slice.assign(length, sizeof(slice[0]) == 1 ? 77 : 7777);
  });
  auto all = [&] {
    Slices slices;
    each([&](auto &slice) { slices.push_back(wide(slice)); });
    return slices;
  };
  const Slices told = left(c.told, all(), sizeof...(results)), lent = only_lent(c.asked);
  const Told answer = said(ask(work));
  const Slices is = all(), still = only_lent(c.asked);
  bool same = same_answer(c, answer);
  for (size_t i = 0; same && i < is.size(); i++) same = same_slice(c, shape(c.call).slices[i], is[i], told[i]);
  for (size_t i = 0; same && i < still.size(); i++) same = same_slice(c, lent_names[i], still[i], lent[i]);
  return same;
}

struct NoWork {
  template <class F> void each(F) {}
};

static bool alike(const Case &c) {
  const Asked &a = c.asked;
  const size_t n = c.call == Call::handheld ? a.set.size() : std::max<size_t>(a.road.starts.size(), 1) - 1, m = a.road.heads.size();
  Bytes points(n);
  Graph o = {Nodes(n + 1), Nodes(a.room), Nodes(a.room)};
  Nodes positions(a.drive.size());
  auto cover = [&](auto &work) { return lent::cover(a.road, a.k, a.order, points, work); };
  auto overlay = [&](auto &work) { return lent::overlay(a.road, a.set, o, work); };
  auto handheld = [&](auto &work) { return lent::handheld(a.set, a.over, a.s, a.t, work); };
  auto any_pair = [&](auto &work) { return lent::any_pair(a.road, a.set, a.over, a.s, a.t, work); };
  auto thin = [&](auto &) { return lent::thin(a.road, a.set, a.drive, positions); };
  switch (c.call) {
  case Call::cover: return asked_alike(c, lent::CoverWork(n, m), cover, points);
  case Call::overlay: return asked_alike(c, lent::OverlayWork(n, m), overlay, o.starts, o.heads, o.weights);
  case Call::handheld: return asked_alike(c, lent::HandheldWork(n, m), handheld);
  case Call::any_pair: return asked_alike(c, lent::AnyPairWork(n, m), any_pair);
  default: return asked_alike(c, NoWork(), thin, positions);
  }
}

// The nodes of a graph, well formed or not, as far as a set may have them.
static size_t nodes(const Graph &g) { return std::clamp<size_t>(g.starts.size(), 2, 4097) - 1; }

// Each graph as the road of four calls, with nothing else wrong and with all that is judged later.
static std::vector<Case> roads() {
  std::vector<Case> cases;
  for (const GraphRow &row : graph_rows) {
    const size_t n = nodes(row.graph);
    const Asked alone = {row.graph, none(n), bare(n), 0, 0, 1, ascending(n), {0}};
    const Asked spoilt = {row.graph, Bytes(n, 2), {}, 5000, 5000, 33, {}, {}, 0, 0, 1};
    auto tell = [&](Call call, const Told &answer, uint32_t later) {
      cases.push_back({call, row.name, alone, row.road ? refused(row.road) : answer});
      cases.push_back({call, std::string(row.name) + ", all else wrong", spoilt, refused(row.road ? row.road : later)});
    };
    tell(Call::cover, points(all(n)), 4);
    tell(Call::overlay, arcs(bare(n)), 6);
    tell(Call::any_pair, way(0), 6);
    tell(Call::thin, kept({}), 6);
  }
  return cases;
}

// Each set beside its road, with later faults, one of which is told if the set passes; alone where its length is n.
static std::vector<Case> sets() {
  std::vector<Case> cases;
  for (const SetRow &row : set_rows) {
    const Asked asked = {row.road, row.set, {}, 0, 0, 1, {}, {}, 0, 0, 1};
    auto tell = [&](Call call, uint32_t later) { cases.push_back({call, row.name, asked, refused(row.number ? row.number : later)}); };
    tell(Call::overlay, 11), tell(Call::any_pair, 7), tell(Call::thin, 10);
    if (row.set.size() == nodes(row.road)) tell(Call::handheld, 7);
  }
  for (const LoneSetRow &row : lone_set_rows) cases.push_back({Call::handheld, row.name, {{}, row.set, {}}, refused(row.number ? row.number : 7)});
  return cases;
}

// An overlay lent to both questions about a node that is none, of which 8 is told if the overlay passes.
static void lend_overlay(std::vector<Case> &cases, const std::string &name, const Bytes &set, const Graph &over, uint32_t number) {
  const uint32_t n = uint32_t(set.size());
  for (Call call : {Call::handheld, Call::any_pair}) cases.push_back({call, name, {bare(n), set, over, n, 0}, refused(number ? number : 8)});
}

static std::vector<Case> lent_overlays() {
  std::vector<Case> cases;
  for (const GraphRow &row : graph_rows) {
    const size_t n = nodes(row.graph);
    lend_overlay(cases, std::string(row.name) + ", from no node", all(n), row.graph, row.over);
    for (Call call : {Call::handheld, Call::any_pair})
      cases.push_back({call, row.name, {bare(n), all(n), row.graph}, row.over ? refused(row.over) : way(0)});
  }
  for (const OverlayRow &row : overlay_rows) lend_overlay(cases, row.name, row.set, row.over, row.number);
  return cases;
}

static std::vector<Case> lent_again() {
  std::vector<Case> cases;
  for (const Case &c : overlays) {
    if (c.told.refusal) continue;
    auto built = [&](size_t i) { return Nodes(c.told.results[i].begin(), c.told.results[i].end()); };
    lend_overlay(cases, c.name, c.asked.set, {built(0), built(1), built(2)}, 0);
  }
  return cases;
}

static std::vector<Case> question_nodes() {
  std::vector<Case> cases;
  for (const NodesRow &row : nodes_rows) {
    const Graph g = bare(row.set.size());
    cases.push_back(handheld(row.name, row.set, g, row.s, row.t, row.handheld));
    cases.push_back(any_pair(row.name, g, row.set, g, row.s, row.t, row.any_pair));
  }
  return cases;
}

// Each result and each work slice in turn one entry too long, and one too short.
static std::vector<Case> lengths() {
  std::vector<Case> cases;
  for (auto &[name, whole] : length_rows)
    for (Call call : every_call)
      for (size_t i = 0; i < shape(call).slices.size(); i++)
        for (int by : {1, -1}) {
          cases.push_back({call, std::string(name) + ", " + shape(call).slices[i] + (by > 0 ? " too long" : " too short"), whole, refused(11)});
          cases.back().asked.wrong = i, cases.back().asked.by = by;
        }
  return cases;
}

// Every choice of a call's faults at once: the lowest number is told, and of none the answer.
static std::vector<Case> choices() {
  std::vector<Case> cases;
  for (const FaultsRow &row : faults_rows)
    for (size_t choice = 0; choice < size_t(1) << row.faults.size(); choice++) {
      Case c = {row.call, "", three_nodes, row.answer};
      // From the last to the first, since the first may leave nothing for the others to change.
      for (size_t i = row.faults.size(); i-- > 0;) {
        if (!(choice >> i & 1)) continue;
        row.faults[i].put(c.asked);
        c.name = " " + std::to_string(row.faults[i].number) + c.name;
        c.told = refused(row.faults[i].number);
      }
      c.name = choice ? "faults" + c.name : "no fault";
      cases.push_back(c);
    }
  return cases;
}

static size_t total, differing;

static void run(const char *table, const std::vector<Case> &cases) {
  for (const Case &c : cases) differing += !alike(c);
  total += cases.size();
  std::printf("%6zu  %s\n", cases.size(), table);
}

int main() {
  // What ran is told even if a call should end the program.
  std::setvbuf(stdout, nullptr, _IOLBF, BUFSIZ);
  std::printf("edges: cases of each table, and the refusals that it is about\n");
  run("graphs as the road of four calls: 1 2 3", roads());
  run("k, orders and covers: 4 5", covers);
  run("sets: 1 6", sets());
  run("overlays lent to both questions: 7", lent_overlays());
  run("overlays that were built, lent again: 7", lent_again());
  run("the nodes of a question: 8 9", question_nodes());
  run("drives: 10", drives);
  run("each result and work slice too long and too short: 11", lengths());
  run("overlays, and the room for them: 12", overlays);
  run("distances", questions);
  run("every choice of a call's faults at once", choices());
  if (differing) std::printf("edges: %zu of %zu cases differ\n", differing, total);
  else std::printf("edges: %zu cases, every answer and every slice as the rules say\n", total);
  return differing ? 1 : 0;
}
