/* Picks points on a line of five junctions, builds the overlay, asks two distances and thins a drive. */
#include "gulvane.h"

#include <inttypes.h>
#include <stdio.h>

enum { N = 5, M = 8, ROOM = 16 };

static const uint32_t starts[N + 1] = {0, 1, 3, 5, 7, 8};
static const uint32_t heads[M] = {1, 0, 2, 1, 3, 2, 4, 3};
static const uint32_t weights[M] = {5, 5, 7, 7, 9, 9, 11, 11};

/* Work. It may hold anything before a call; the calls can share it. */
static uint32_t starts_back[N + 1], heads_back[M], weights_back[M];
static uint32_t pieces[N], sizes[N], heap[GULVANE_HEAP(N)], places[N], touched[N];
static uint64_t outward[N], inward[N], labels[N];
static uint8_t marks[N], blocked[N];

#define LENT(slice) slice, sizeof(slice) / sizeof((slice)[0])

static int refused(const char *call, uint32_t number) {
  printf("%s: refused by %" PRIu32 "\n", call, number);
  return 1;
}

int main(void) {
  const uint32_t order[N] = {0, 1, 2, 3, 4};
  uint8_t points[N];
  gulvane_count picked = gulvane_cover(LENT(starts), LENT(heads), LENT(weights), 2, LENT(order), LENT(points), LENT(starts_back),
                                       LENT(heads_back), LENT(weights_back), LENT(marks), LENT(pieces), LENT(sizes));
  if (picked.refusal) return refused("cover", picked.refusal);
  printf("%zu points:", picked.count);
  for (uint32_t v = 0; v < N; v++)
    if (points[v]) printf(" %" PRIu32, v);
  printf("\n");

  uint32_t over_starts[N + 1], over_heads[ROOM], over_weights[ROOM];
  gulvane_count built = gulvane_overlay(LENT(starts), LENT(heads), LENT(weights), LENT(points), LENT(over_starts), LENT(over_heads),
                                        LENT(over_weights), LENT(labels), LENT(heap), LENT(places), LENT(touched));
  if (built.refusal) return refused("overlay", built.refusal);
  for (uint32_t v = 0; v < N; v++)
    for (uint32_t p = over_starts[v]; p < over_starts[v + 1]; p++)
      printf("overlay arc from %" PRIu32 " to %" PRIu32 " of weight %" PRIu32 "\n", v, over_heads[p], over_weights[p]);

  gulvane_distance near = gulvane_handheld(LENT(points), LENT(over_starts), over_heads, built.count, over_weights, built.count, 1, 3,
                                           LENT(labels), LENT(heap), LENT(places), LENT(touched), LENT(blocked));
  if (near.refusal) return refused("handheld", near.refusal);
  printf("from 1 to 3: %" PRIu64 "\n", near.weight);

  gulvane_distance far = gulvane_any_pair(LENT(starts), LENT(heads), LENT(weights), LENT(points), LENT(over_starts), over_heads, built.count,
                                          over_weights, built.count, 0, 4, LENT(starts_back), LENT(heads_back), LENT(weights_back),
                                          LENT(outward), LENT(inward), LENT(labels), LENT(heap), LENT(places), LENT(touched), LENT(blocked));
  if (far.refusal) return refused("any_pair", far.refusal);
  printf("from 0 to 4: %" PRIu64 "\n", far.weight);

  const uint32_t drive[] = {0, 1, 2, 3};
  uint32_t positions[4];
  gulvane_count kept = gulvane_thin(LENT(starts), LENT(heads), LENT(weights), LENT(points), LENT(drive), LENT(positions));
  if (kept.refusal) return refused("thin", kept.refusal);
  printf("%zu positions kept:", kept.count);
  for (size_t i = 0; i < kept.count; i++) printf(" %" PRIu32, positions[i]);
  printf("\n");
  return 0;
}
