//! Calls from several threads.
use gulvane::{NodeSet, Overlay, Refusal, RoadGraph};
use std::thread;

const SIDE: u32 = 8;
const NODES: u32 = SIDE * SIDE;

/// A square grid with roads both ways, of different weights.
fn grid() -> RoadGraph {
    let mut arcs = Vec::new();
    for v in 0..NODES {
        if v % SIDE + 1 < SIDE {
            arcs.extend([(v, v + 1, 3 + v % 7), (v + 1, v, 2 + v % 5)]);
        }
        if v + SIDE < NODES {
            arcs.extend([(v, v + SIDE, 1 + v % 11), (v + SIDE, v, 4 + v % 3)]);
        }
    }
    RoadGraph::from_arcs(NODES as usize, &arcs).unwrap()
}

fn points(graph: &mut RoadGraph) -> NodeSet {
    graph.cover(4, &(0..NODES).collect::<Vec<_>>()).unwrap()
}

fn distances(graph: &mut RoadGraph, overlay: &mut Overlay) -> Vec<Result<Option<u64>, Refusal>> {
    let pairs = (0..NODES).flat_map(|s| (0..NODES).map(move |t| (s, t)));
    pairs.flat_map(|(s, t)| [graph.distance(overlay, s, t), overlay.distance(s, t)]).collect()
}

#[test]
fn all_may_go_to_a_thread() {
    fn goes<T: Send + Sync + 'static>() {}
    goes::<RoadGraph>();
    goes::<NodeSet>();
    goes::<Overlay>();
    goes::<Refusal>();

    let mut graph = grid();
    let here = points(&mut graph);
    let there = thread::spawn(move || points(&mut graph)).join().unwrap();
    assert_eq!(there, here);
}

#[test]
fn many_threads_with_clones_answer_as_one() {
    let mut graph = grid();
    let set = points(&mut graph);
    let mut overlay = graph.overlay(&set).unwrap();
    let alone = distances(&mut graph, &mut overlay);
    let threads: Vec<_> = (0..8)
        .map(|_| {
            let (mut graph, mut overlay) = (graph.clone(), overlay.clone());
            thread::spawn(move || (points(&mut graph), distances(&mut graph, &mut overlay)))
        })
        .collect();
    for thread in threads {
        let (points, answers) = thread.join().unwrap();
        assert_eq!(points, set);
        assert_eq!(answers, alone);
    }
}

#[test]
fn many_threads_thin_over_one_graph() {
    let mut graph = grid();
    let set = points(&mut graph);
    let drive: Vec<u32> = (0..SIDE).chain((1..SIDE).map(|row| row * SIDE + SIDE - 1)).collect();
    let alone = graph.thin(&set, &drive).unwrap();
    thread::scope(|scope| {
        for _ in 0..8 {
            scope.spawn(|| assert_eq!(graph.thin(&set, &drive).unwrap(), alone));
        }
    });
}
