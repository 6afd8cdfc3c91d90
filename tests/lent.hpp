// The archive's calls with all that they are lent in vectors, and whether an answer is the one told.
#pragma once
#include "graph.hpp"
#include "gulvane.h"
#include <algorithm>
#include <array>
#include <tuple>

namespace lent {

using namespace graphs;

// A slice of no entries may stand anywhere but at NULL.
template <class T> T *pointer(std::vector<T> &slice) {
  static T none[1];
  return slice.empty() ? none : slice.data();
}
template <class T> const T *pointer(const std::vector<T> &slice) {
  static const T none[1] = {};
  return slice.empty() ? none : slice.data();
}

#define LENT(slice) lent::pointer(slice), (slice).size()
#define LENT_GRAPH(g) LENT((g).starts), LENT((g).heads), LENT((g).weights)

// The work slices of one call, made of the lengths asked.
template <class... T> struct Work {
  std::tuple<std::vector<T>...> slices;
  std::array<size_t, sizeof...(T)> asked;

  Work(const std::array<size_t, sizeof...(T)> &asked) : asked(asked) {
    auto length = asked.begin();
    each([&](auto &slice) { slice.resize(*length++); });
  }
  template <class F> void each(F f) {
    std::apply([&](auto &...slice) { (f(slice), ...); }, slices);
  }
  Lengths lengths() {
    Lengths all;
    each([&](auto &slice) { all.push_back({slice.size(), asked[all.size()]}); });
    return all;
  }
  bool zero() {
    bool all = true;
    each([&](auto &slice) { all = all && std::all_of(slice.begin(), slice.end(), [](auto entry) { return entry == 0; }); });
    return all;
  }
};

struct CoverWork : Work<uint32_t, uint32_t, uint32_t, uint8_t, uint32_t, uint32_t> {
  CoverWork(size_t n, size_t m) : Work({n + 1, m, m, n, n, n}) {}
};

struct OverlayWork : Work<uint64_t, uint32_t, uint32_t, uint32_t> {
  OverlayWork(size_t n, size_t) : Work({n, 2 * n, n, n}) {}
};

struct HandheldWork : Work<uint64_t, uint32_t, uint32_t, uint32_t, uint8_t> {
  HandheldWork(size_t n, size_t) : Work({n, 2 * n, n, n, n}) {}
};

struct AnyPairWork : Work<uint32_t, uint32_t, uint32_t, uint64_t, uint64_t, uint64_t, uint32_t, uint32_t, uint32_t, uint8_t> {
  AnyPairWork(size_t n, size_t m) : Work({n + 1, m, m, n, n, n, 2 * n, n, n, n}) {}
};

inline gulvane_count cover(const Graph &g, size_t k, const Nodes &order, Bytes &points, CoverWork &work) {
  auto &[starts_back, heads_back, weights_back, marks, pieces, sizes] = work.slices;
  return gulvane_cover(LENT_GRAPH(g), k, LENT(order), LENT(points), LENT(starts_back), LENT(heads_back), LENT(weights_back), LENT(marks), LENT(pieces),
                       LENT(sizes));
}

inline gulvane_count overlay(const Graph &g, const Bytes &set, Graph &o, OverlayWork &work) {
  auto &[labels, heap, places, touched] = work.slices;
  return gulvane_overlay(LENT_GRAPH(g), LENT(set), LENT_GRAPH(o), LENT(labels), LENT(heap), LENT(places), LENT(touched));
}

inline gulvane_distance handheld(const Bytes &set, const Graph &o, uint32_t s, uint32_t t, HandheldWork &work) {
  auto &[labels, heap, places, touched, blocked] = work.slices;
  return gulvane_handheld(LENT(set), LENT_GRAPH(o), s, t, LENT(labels), LENT(heap), LENT(places), LENT(touched), LENT(blocked));
}

inline gulvane_distance any_pair(const Graph &g, const Bytes &set, const Graph &o, uint32_t s, uint32_t t, AnyPairWork &work) {
  auto &[starts_back, heads_back, weights_back, outward, inward, labels, heap, places, touched, blocked] = work.slices;
  return gulvane_any_pair(LENT_GRAPH(g), LENT(set), LENT_GRAPH(o), s, t, LENT(starts_back), LENT(heads_back), LENT(weights_back), LENT(outward), LENT(inward),
                          LENT(labels), LENT(heap), LENT(places), LENT(touched), LENT(blocked));
}

inline gulvane_count thin(const Graph &g, const Bytes &set, const Nodes &drive, Nodes &positions) {
  return gulvane_thin(LENT_GRAPH(g), LENT(set), LENT(drive), LENT(positions));
}

inline bool same(const gulvane_count &is, const Count &told) { return is.refusal == told.refusal && is.count == told.count; }

inline bool same(const gulvane_distance &is, const Distance &told) {
  return is.refusal == told.refusal && is.way == (told.weight ? 1u : 0u) && is.weight == told.weight.value_or(0);
}

} // namespace lent
