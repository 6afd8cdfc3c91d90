// Times the archive's calls and the efficient implementation's on the same maps in the same run, the sides
// in turn, and prints tables of medians. The answers are compared too; a difference ends the program.
//   bench [--quick]
#define LEMON_ONLY_TEMPLATES
#include "efficient.hpp"
#include "lent.hpp"
#include "maps.hpp"

#include <lemon/dijkstra.h>
#include <lemon/static_graph.h>

#include <chrono>
#include <csignal>
#include <cstdio>
#include <cstdlib>
#include <cstring>
#include <functional>
#include <memory>
#include <numeric>
#include <string>
#include <sys/mman.h>
#include <sys/wait.h>
#include <unistd.h>

using namespace graphs;

static const unsigned most_seconds = 20; // for one call of the cover
static double cell_seconds = 1;          // for all repetitions of a cell, roughly
static const size_t least_repetitions = 5, most_repetitions = 201;
static const size_t questions = 32, drive_nodes = 1000;

static efficient::Calls fast;

using Side = std::function<void()>;

using Clock = std::chrono::steady_clock;
static double seconds_since(Clock::time_point begin) { return std::chrono::duration<double>(Clock::now() - begin).count(); }

static double median(std::vector<double> all) {
  std::sort(all.begin(), all.end());
  return all[all.size() / 2];
}

// Medians of the sides' seconds, the sides in turn: until the cell's time is over, and for the least number of
// repetitions as long as that does not take five times as long.
static std::vector<double> in_turn(const std::vector<Side> &sides) {
  std::vector<std::vector<double>> all(sides.size());
  const auto begin = Clock::now();
  do {
    for (size_t i = 0; i < sides.size(); i++) {
      const auto before = Clock::now();
      sides[i]();
      all[i].push_back(seconds_since(before));
    }
  } while (all[0].size() < most_repetitions && seconds_since(begin) < cell_seconds * (all[0].size() < least_repetitions ? 5 : 1));
  std::vector<double> medians;
  for (auto &side : all) medians.push_back(median(side));
  return medians;
}

static void agree(const char *call, bool alike) {
  if (alike) return;
  std::fflush(stdout);
  std::fprintf(stderr, "bench: %s: the answers differ\n", call);
  std::exit(1);
}

// Tables.

static std::string number(double x) {
  char text[32];
  std::snprintf(text, sizeof text, x < 10 ? "%.2f" : x < 100 ? "%.1f" : "%.0f", x);
  return text;
}

static std::string time_text(double seconds) {
  if (seconds < 1e-3) return number(seconds * 1e6) + " µs";
  if (seconds < 1) return number(seconds * 1e3) + " ms";
  return number(seconds) + " s";
}

static void row(const std::vector<std::string> &cells) {
  for (auto &cell : cells) std::printf("| %s ", cell.c_str());
  std::printf("|\n");
  std::fflush(stdout);
}

static void heading(const char *title, const std::vector<std::string> &columns) {
  std::printf("\n### %s\n\n", title);
  row(columns);
  row(std::vector<std::string>(columns.size(), "---"));
}

// Maps, and what is made of them once for all tables.

struct Road {
  std::string kind;
  Graph g;
  std::vector<std::string> cells() const { return {kind, std::to_string(g.starts.size() - 1)}; }
  size_t n() const { return g.starts.size() - 1; }
  size_t m() const { return g.heads.size(); }
};

// A map with a cover, and with the cover's overlay if that is not refused.
struct Covered {
  const Road *road;
  size_t k;
  Bytes points;
  Graph overlay;
  bool joined = false;

  std::vector<std::string> cells() const {
    auto cells = road->cells();
    cells.push_back(std::to_string(k));
    return cells;
  }
};

static void finish(std::vector<std::string> cells, const std::vector<double> &seconds, double calls) {
  for (double s : seconds) cells.push_back(time_text(s / calls));
  for (size_t i = 1; i < seconds.size(); i++) cells.push_back(number(seconds[0] / seconds[i]));
  row(cells);
}

// The cover, in a child that an alarm ends, since pruning may look at very many paths.

struct Trial {
  bool ended[2];
  double seconds[2];
  gulvane_count ours;
  Count theirs;
  uint8_t points[2][4096];
};

static Trial *shared_trial() {
  static void *place = mmap(nullptr, sizeof(Trial), PROT_READ | PROT_WRITE, MAP_SHARED | MAP_ANONYMOUS, -1, 0);
  if (place == MAP_FAILED) std::exit(1);
  return static_cast<Trial *>(place);
}

// Fills the trial for the sides named, ours 0 and theirs 1.
static void run_cover(const Road &road, size_t k, const Nodes &order, Trial &trial, const std::vector<int> &sides) {
  std::fflush(stdout);
  const pid_t child = fork();
  if (child != 0) {
    int status = 0;
    if (child < 0 || waitpid(child, &status, 0) < 0) std::exit(1);
    agree("cover", status == 0 || (WIFSIGNALED(status) && WTERMSIG(status) == SIGALRM));
    return;
  }
  lent::CoverWork work(road.n(), road.m());
  Bytes points[2] = {Bytes(road.n()), Bytes(road.n())};
  std::vector<Side> runs;
  for (int side : sides)
    runs.push_back([&, side] {
      trial.ended[side] = false;
      alarm(most_seconds);
      if (side == 0) trial.ours = lent::cover(road.g, k, order, points[0], work);
      else trial.theirs = fast.cover(road.g, k, order, points[1], {});
      trial.ended[side] = true;
    });
  const auto medians = in_turn(runs);
  for (size_t i = 0; i < sides.size(); i++) {
    trial.seconds[sides[i]] = medians[i];
    std::memcpy(trial.points[sides[i]], points[sides[i]].data(), road.n());
  }
  _exit(0);
}

static void cover_row(const Road &road, size_t k, bool shuffled, std::vector<Covered> &covered) {
  Nodes order(road.n());
  std::iota(order.begin(), order.end(), 0);
  maps::Draw draw(k);
  if (shuffled) std::shuffle(order.begin(), order.end(), draw);
  Trial &trial = *shared_trial();
  trial.ended[0] = trial.ended[1] = true;
  run_cover(road, k, order, trial, {0, 1});
  // If one side was too long, the other is tried alone.
  const bool in_time[2] = {trial.ended[0], trial.ended[1]};
  for (int side : {0, 1})
    if (in_time[side] && !in_time[1 - side]) run_cover(road, k, order, trial, {side});
  const bool both = trial.ended[0] && trial.ended[1];
  if (both) agree("cover", lent::same(trial.ours, trial.theirs) && std::memcmp(trial.points[0], trial.points[1], road.n()) == 0);
  const size_t count = trial.ended[1] ? trial.theirs.count : trial.ours.count;
  auto cells = road.cells();
  cells.push_back(std::to_string(road.m()));
  cells.push_back(std::to_string(k));
  cells.push_back(shuffled ? "shuffled" : "ascending");
  cells.push_back(trial.ended[0] || trial.ended[1] ? std::to_string(count) : "?");
  for (int side : {0, 1}) cells.push_back(trial.ended[side] ? time_text(trial.seconds[side]) : "over " + std::to_string(most_seconds) + " s");
  cells.push_back(both ? number(trial.seconds[0] / trial.seconds[1]) : "?");
  row(cells);
  if (!shuffled && (trial.ended[0] || trial.ended[1])) {
    const uint8_t *points = trial.points[trial.ended[1] ? 1 : 0];
    covered.push_back({&road, k, Bytes(points, points + road.n()), {}, false});
  }
}

static void overlay_row(Covered &c) {
  const Road &road = *c.road;
  Graph room[2];
  for (Graph &o : room) o.starts.assign(road.n() + 1, 0), o.heads.assign(65536, 0), o.weights.assign(65536, 0);
  lent::OverlayWork work(road.n(), road.m());
  gulvane_count ours;
  Count theirs;
  const auto medians = in_turn({[&] { ours = lent::overlay(road.g, c.points, room[0], work); }, [&] { theirs = fast.overlay(road.g, c.points, room[1], {}); }});
  agree("overlay", lent::same(ours, theirs) && room[0] == room[1]);
  c.joined = ours.refusal == 0;
  c.overlay = room[0];
  c.overlay.heads.resize(ours.count), c.overlay.weights.resize(ours.count);
  auto cells = c.cells();
  cells.push_back(c.joined ? std::to_string(ours.count) : "refused by " + std::to_string(ours.refusal));
  finish(cells, medians, 1);
}

// A graph as LEMON has it, made once; each question is one run of its Dijkstra.
class Lemon {
public:
  Lemon(const Graph &from) {
    std::vector<std::pair<int, int>> arcs;
    for (size_t v = 0; v + 1 < from.starts.size(); v++)
      for (uint32_t at = from.starts[v]; at < from.starts[v + 1]; at++) arcs.push_back({int(v), int(from.heads[at])});
    g.build(int(from.starts.size() - 1), arcs.begin(), arcs.end());
    weights = std::make_unique<Weights>(g);
    for (size_t at = 0; at < arcs.size(); at++) (*weights)[g.arc(int(at))] = from.weights[at];
    search = std::make_unique<lemon::Dijkstra<lemon::StaticDigraph, Weights>>(g, *weights);
  }
  Distance ask(uint32_t s, uint32_t t) {
    search->run(g.node(int(s)), g.node(int(t)));
    if (!search->reached(g.node(int(t)))) return {0, {}};
    return {0, uint64_t(search->dist(g.node(int(t))))};
  }

private:
  using Weights = lemon::StaticDigraph::ArcMap<long long>;
  lemon::StaticDigraph g;
  std::unique_ptr<Weights> weights;
  std::unique_ptr<lemon::Dijkstra<lemon::StaticDigraph, Weights>> search;
};

struct Question {
  uint32_t s, t;
};

static std::vector<Question> some_questions(const Nodes &from) {
  maps::Draw draw(7);
  std::vector<Question> all;
  while (all.size() < questions) all.push_back({from[maps::below(draw, from.size())], from[maps::below(draw, from.size())]});
  return all;
}

// All questions by each side: theirs are told first, and ours and LEMON's compared with them.
static void distance_row(const Covered &c, const char *call, const std::vector<Question> &asked, const std::function<gulvane_distance(Question)> &ours,
                         const std::function<Distance(Question)> &theirs, Lemon &lemon) {
  std::vector<Distance> told;
  size_t ways = 0;
  for (Question q : asked) told.push_back(theirs(q)), ways += told.back().weight.has_value();
  auto all = [&](auto ask, auto same) {
    return [&, ask, same] {
      bool alike = true;
      for (size_t i = 0; i < asked.size(); i++) alike = same(ask(asked[i]), told[i]) && alike;
      agree(call, alike);
    };
  };
  auto equal = [](const Distance &a, const Distance &b) { return a == b; };
  auto said = [](const gulvane_distance &a, const Distance &b) { return lent::same(a, b); };
  auto cells = c.cells();
  cells.push_back(std::to_string(c.overlay.heads.size()));
  cells.push_back(std::to_string(ways) + " of " + std::to_string(asked.size()));
  finish(cells, in_turn({all(ours, said), all(theirs, equal), all([&](Question q) { return lemon.ask(q.s, q.t); }, equal)}), double(asked.size()));
}

static void handheld_row(const Covered &c) {
  Nodes members;
  for (uint32_t v = 0; v < c.points.size(); v++)
    if (c.points[v]) members.push_back(v);
  lent::HandheldWork work(c.points.size(), 0);
  Lemon lemon(c.overlay);
  distance_row(
      c, "handheld", some_questions(members), [&](Question q) { return lent::handheld(c.points, c.overlay, q.s, q.t, work); },
      [&](Question q) { return fast.handheld(c.points, c.overlay, q.s, q.t, {}); }, lemon);
}

static void any_pair_row(const Covered &c) {
  const Road &road = *c.road;
  Nodes all(road.n());
  std::iota(all.begin(), all.end(), 0);
  lent::AnyPairWork work(road.n(), road.m());
  Lemon lemon(road.g);
  distance_row(
      c, "any_pair", some_questions(all), [&](Question q) { return lent::any_pair(road.g, c.points, c.overlay, q.s, q.t, work); },
      [&](Question q) { return fast.any_pair(road.g, c.points, c.overlay, q.s, q.t, {}); }, lemon);
}

static void thin_row(const Covered &c) {
  const Road &road = *c.road;
  maps::Draw draw(9);
  Nodes drive;
  while (drive.size() < drive_nodes) drive = maps::wander(road.g, drive_nodes, draw);
  Nodes positions[2] = {Nodes(drive.size()), Nodes(drive.size())};
  gulvane_count ours;
  Count theirs;
  const auto medians = in_turn({[&] { ours = lent::thin(road.g, c.points, drive, positions[0]); }, [&] { theirs = fast.thin(road.g, c.points, drive, positions[1]); }});
  agree("thin", lent::same(ours, theirs) && positions[0] == positions[1]);
  auto cells = c.cells();
  cells.push_back(std::to_string(ours.count));
  finish(cells, medians, 1);
}

// Calls lent one entry too many, so that all checks run, the last one refuses, and nothing is searched.
static void check_row(const Covered &c) {
  const Graph &g = c.road->g, &o = c.overlay;
  const Bytes &set = c.points;
  const size_t n = c.road->n(), m = c.road->m();
  Nodes order(n), drive(1, 0), positions(2);
  std::iota(order.begin(), order.end(), 0);
  Bytes points(n + 1);
  Graph room = o;
  room.starts.push_back(0);
  const uint32_t s = uint32_t(std::find(set.begin(), set.end(), 1) - set.begin());
  lent::CoverWork cover_work(n, m);
  lent::OverlayWork overlay_work(n, m);
  lent::HandheldWork handheld_work(n + 1, m);
  lent::AnyPairWork any_pair_work(n + 1, m);
  const Lengths wrong = {{n + 1, n}};
  using Refused = std::function<uint32_t()>;
  const std::vector<std::pair<Refused, Refused>> calls = {
      {[&] { return lent::cover(g, c.k, order, points, cover_work).refusal; }, [&] { return fast.cover(g, c.k, order, points, {}).refusal; }},
      {[&] { return lent::overlay(g, set, room, overlay_work).refusal; }, [&] { return fast.overlay(g, set, room, {}).refusal; }},
      {[&] { return lent::handheld(set, o, s, s, handheld_work).refusal; }, [&] { return fast.handheld(set, o, s, s, wrong).refusal; }},
      {[&] { return lent::any_pair(g, set, o, s, s, any_pair_work).refusal; }, [&] { return fast.any_pair(g, set, o, s, s, wrong).refusal; }},
      {[&] { return lent::thin(g, set, drive, positions).refusal; }, [&] { return fast.thin(g, set, drive, positions).refusal; }},
  };
  auto cells = c.cells();
  for (auto &[ours, theirs] : calls) {
    auto refused = [](const Refused &side) { return [&side] { agree("a call to be refused", side() == 11); }; };
    const auto medians = in_turn({refused(ours), refused(theirs)});
    cells.push_back(time_text(medians[0]) + ", " + time_text(medians[1]) + ": " + number(medians[0] / medians[1]));
  }
  row(cells);
}

int main(int argc, char **argv) {
  const bool quick = argc > 1 && std::string(argv[1]) == "--quick";
  if (quick) cell_seconds = 0.2;
  std::vector<Road> roads;
  for (uint32_t side : quick ? std::vector<uint32_t>{16} : std::vector<uint32_t>{16, 32, 64}) {
    maps::Draw draw(1);
    roads.push_back({"road-like", maps::road_like(side * side, draw)});
    roads.push_back({"grid", maps::grid(side, side, draw)});
  }
  std::vector<Covered> covered;
  heading("Cover", {"map", "nodes", "arcs", "k", "order", "points", "ours", "C++", "ours / C++"});
  for (const Road &road : roads)
    for (size_t k : {4, 8, 16, 32})
      for (bool shuffled : {false, true}) cover_row(road, k, shuffled, covered);
  heading("Overlay of the cover", {"map", "nodes", "k", "overlay arcs", "ours", "C++", "ours / C++"});
  for (Covered &c : covered) overlay_row(c);
  covered.erase(std::remove_if(covered.begin(), covered.end(), [](const Covered &c) { return !c.joined; }), covered.end());
  const std::vector<std::string> distance_columns = {"map", "nodes", "k", "overlay arcs", "with a way", "ours", "C++", "LEMON", "ours / C++", "ours / LEMON"};
  heading("Handheld question, LEMON over the same overlay", distance_columns);
  for (const Covered &c : covered) handheld_row(c);
  heading("Any-pair question, LEMON over the road graph", distance_columns);
  for (const Covered &c : covered) any_pair_row(c);
  heading("Thinning a drive of 1,000 nodes", {"map", "nodes", "k", "kept", "ours", "C++", "ours / C++"});
  for (const Covered &c : covered) thin_row(c);
  heading("Checks alone, each call refused by 11: ours, C++: ours / C++",
          {"map", "nodes", "k", "cover", "overlay", "handheld", "any-pair", "thin"});
  for (const Covered &c : covered) check_row(c);
  return 0;
}
