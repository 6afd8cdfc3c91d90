/*
 * gulvane: sync points that no drive misses, the overlay between them, exact distances, thinned drives.
 *
 * Every call takes any input and checks it itself. A refusal has the number of its first fault and
 * changes nothing that is lent (12 alone leaves the work zero); an answer leaves the work zero. Work
 * may hold anything before a call. No call allocates, and none keeps a pointer.
 *
 * A slice is a pointer and the number of its entries. A slice of no entries may be lent at any
 * pointer that is not NULL. No slice that a call writes may overlap another that it is lent.
 *
 * A graph of n nodes and m arcs is three slices: n + 1 starts, m heads, m weights. The arcs with
 * tail v are at the places starts[v] up to, but not including, starts[v + 1], heads strictly ascending.
 */
#ifndef GULVANE_H
#define GULVANE_H

#include <stddef.h>
#include <stdint.h>

#ifdef __cplusplus
extern "C" {
#endif

/* The most that is taken. */
#define GULVANE_MOST_NODES 4096u
#define GULVANE_MOST_ROAD_ARCS 16384u
#define GULVANE_MOST_ROAD_WEIGHT 1000000u
#define GULVANE_MOST_OVERLAY_ARCS 65536u
#define GULVANE_MOST_OVERLAY_WEIGHT 4095000000u
#define GULVANE_MOST_K 32u
#define GULVANE_MOST_DRIVE 4096u

/* Lengths of slices that depend on n, the number of nodes. */
#define GULVANE_HEAP(n) (2 * (size_t)(n))
#define GULVANE_STARTS(n) ((size_t)(n) + 1)

/* Why a call is refused: 0 is an answer. */
enum gulvane_refusal {
  GULVANE_ANSWERED = 0,
  GULVANE_BAD_SIZES = 1,     /* the graph's slices, or a lone set, of wrong lengths */
  GULVANE_BAD_STARTS = 2,    /* first start not 0, a start below the one before, last start not m */
  GULVANE_BAD_ARCS = 3,      /* a head outside the graph, equal to its tail or not ascending, or a weight over its limit */
  GULVANE_BAD_K = 4,         /* k is 0 or above 32 */
  GULVANE_BAD_ORDER = 5,     /* the order is no permutation of all nodes */
  GULVANE_BAD_SET = 6,       /* the set is not of length n, or has a byte other than 0 or 1 */
  GULVANE_BAD_OVERLAY = 7,   /* the overlay lent is faulty, or an arc of it ends outside the set */
  GULVANE_NO_NODE = 8,       /* a question's node at or above n */
  GULVANE_NOT_IN_SET = 9,    /* a handheld question's node outside the set */
  GULVANE_BAD_DRIVE = 10,    /* the drive is empty, too long, leaves the graph, or has neighbours that no arc joins */
  GULVANE_BAD_LENGTHS = 11,  /* a result or work slice of another length than asked */
  GULVANE_NO_ROOM = 12       /* more overlay arcs than the lent room or than 65,536 */
};

/* A count, or a refusal: where refusal is not 0 it is the refusal's number, and count is 0. */
typedef struct gulvane_count {
  uint32_t refusal;
  size_t count;
} gulvane_count;

/* A distance, or a refusal: where refusal is 0, way is 1 and weight the weight, or both are 0
   for no way; beside a refusal both are 0 too. */
typedef struct gulvane_distance {
  uint32_t refusal;
  uint32_t way;
  uint64_t weight;
} gulvane_distance;

/*
 * Picks the points: the cover of the paths of k nodes that pruning in the order lent yields.
 * points[v] is then 1 if v is a point and 0 if not; the count is that of the points.
 * Refusals: 1 2 3 4 5 11.
 *
 * Lengths:
 *   starts        lent    n + 1
 *   heads         lent    m
 *   weights       lent    m
 *   order         lent    n
 *   points        result  n
 *   starts_back   work    n + 1
 *   heads_back    work    m
 *   weights_back  work    m
 *   marks         work    n
 *   pieces        work    n
 *   sizes         work    n
 */
gulvane_count gulvane_cover(
    const uint32_t *starts, size_t starts_len,
    const uint32_t *heads, size_t heads_len,
    const uint32_t *weights, size_t weights_len,
    size_t k,
    const uint32_t *order, size_t order_len,
    uint8_t *points, size_t points_len,
    uint32_t *starts_back, size_t starts_back_len,
    uint32_t *heads_back, size_t heads_back_len,
    uint32_t *weights_back, size_t weights_back_len,
    uint8_t *marks, size_t marks_len,
    uint32_t *pieces, size_t pieces_len,
    uint32_t *sizes, size_t sizes_len);

/*
 * Builds the overlay of any set of nodes: an arc from a to b exactly if both are different nodes of
 * the set and some road path from a to b has no node of the set strictly between them, at the least
 * weight of such a path. The two rooms have equal lengths; entries past the last arc keep what they
 * held. The count is that of the arcs: lend later calls the rooms up to it.
 * Refusals: 1 2 3 6 11, and 12 if there are more arcs than room or than 65,536; 12 leaves the
 * results as they were and the work zero.
 *
 * Lengths:
 *   starts        lent    n + 1
 *   heads         lent    m
 *   weights       lent    m
 *   set           lent    n
 *   over_starts   result  n + 1
 *   over_heads    result  room
 *   over_weights  result  room
 *   labels        work    n
 *   heap          work    2 * n
 *   places        work    n
 *   touched       work    n
 */
gulvane_count gulvane_overlay(
    const uint32_t *starts, size_t starts_len,
    const uint32_t *heads, size_t heads_len,
    const uint32_t *weights, size_t weights_len,
    const uint8_t *set, size_t set_len,
    uint32_t *over_starts, size_t over_starts_len,
    uint32_t *over_heads, size_t over_heads_len,
    uint32_t *over_weights, size_t over_weights_len,
    uint64_t *labels, size_t labels_len,
    uint32_t *heap, size_t heap_len,
    uint32_t *places, size_t places_len,
    uint32_t *touched, size_t touched_len);

/*
 * The distance from s to t in the overlay, lent the set and the overlay alone; n is the set's length.
 * Refusals: 1 6 7 8 9 11.
 *
 * Lengths:
 *   set           lent    n
 *   over_starts   lent    n + 1
 *   over_heads    lent    arcs
 *   over_weights  lent    arcs
 *   labels        work    n
 *   heap          work    2 * n
 *   places        work    n
 *   touched       work    n
 *   blocked       work    n
 */
gulvane_distance gulvane_handheld(
    const uint8_t *set, size_t set_len,
    const uint32_t *over_starts, size_t over_starts_len,
    const uint32_t *over_heads, size_t over_heads_len,
    const uint32_t *over_weights, size_t over_weights_len,
    uint32_t s,
    uint32_t t,
    uint64_t *labels, size_t labels_len,
    uint32_t *heap, size_t heap_len,
    uint32_t *places, size_t places_len,
    uint32_t *touched, size_t touched_len,
    uint8_t *blocked, size_t blocked_len);

/*
 * The least of the road's ways from s to t with no node of the set strictly inside, and of the ways
 * into the set, through the overlay, and out.
 * Refusals: 1 2 3 6 7 8 11.
 *
 * Lengths:
 *   starts        lent    n + 1
 *   heads         lent    m
 *   weights       lent    m
 *   set           lent    n
 *   over_starts   lent    n + 1
 *   over_heads    lent    arcs
 *   over_weights  lent    arcs
 *   starts_back   work    n + 1
 *   heads_back    work    m
 *   weights_back  work    m
 *   outward       work    n
 *   inward        work    n
 *   labels        work    n
 *   heap          work    2 * n
 *   places        work    n
 *   touched       work    n
 *   blocked       work    n
 */
gulvane_distance gulvane_any_pair(
    const uint32_t *starts, size_t starts_len,
    const uint32_t *heads, size_t heads_len,
    const uint32_t *weights, size_t weights_len,
    const uint8_t *set, size_t set_len,
    const uint32_t *over_starts, size_t over_starts_len,
    const uint32_t *over_heads, size_t over_heads_len,
    const uint32_t *over_weights, size_t over_weights_len,
    uint32_t s,
    uint32_t t,
    uint32_t *starts_back, size_t starts_back_len,
    uint32_t *heads_back, size_t heads_back_len,
    uint32_t *weights_back, size_t weights_back_len,
    uint64_t *outward, size_t outward_len,
    uint64_t *inward, size_t inward_len,
    uint64_t *labels, size_t labels_len,
    uint32_t *heap, size_t heap_len,
    uint32_t *places, size_t places_len,
    uint32_t *touched, size_t touched_len,
    uint8_t *blocked, size_t blocked_len);

/*
 * Thins a drive: the ascending positions, from 0, whose node is in the set, at the front of
 * positions; entries past them keep what they held. The count is that of the positions.
 * Refusals: 1 2 3 6 10 11.
 *
 * Lengths:
 *   starts        lent    n + 1
 *   heads         lent    m
 *   weights       lent    m
 *   set           lent    n
 *   drive         lent    p
 *   positions     result  p
 */
gulvane_count gulvane_thin(
    const uint32_t *starts, size_t starts_len,
    const uint32_t *heads, size_t heads_len,
    const uint32_t *weights, size_t weights_len,
    const uint8_t *set, size_t set_len,
    const uint32_t *drive, size_t drive_len,
    uint32_t *positions, size_t positions_len);

#ifdef __cplusplus
}
#endif

#endif
