//! The small graphs of the requirements.
use gulvane::{NodeSet, Overlay, Refusal, RoadGraph};

fn line() -> RoadGraph {
    RoadGraph::new(vec![0, 1, 3, 5, 7, 8], vec![1, 0, 2, 1, 3, 2, 4, 3], vec![5, 5, 7, 7, 9, 9, 11, 11]).unwrap()
}

fn ring() -> RoadGraph {
    RoadGraph::from_arcs(3, &[(0, 1, 1), (1, 2, 2), (2, 0, 4)]).unwrap()
}

fn wedge() -> RoadGraph {
    RoadGraph::from_arcs(3, &[(0, 1, 10), (0, 2, 3), (2, 1, 4)]).unwrap()
}

fn points(graph: &mut RoadGraph, k: usize, order: &[u32]) -> Vec<u32> {
    graph.cover(k, order).unwrap().nodes().collect()
}

#[test]
fn covers() {
    let up = [0, 1, 2, 3, 4];
    assert_eq!(points(&mut line(), 2, &up), [1, 3]);
    assert_eq!(points(&mut line(), 2, &[1, 3, 0, 2, 4]), [0, 2, 4]);
    assert_eq!(points(&mut line(), 3, &up), [2]);
    assert_eq!(points(&mut line(), 5, &up), [4]);
    assert_eq!(points(&mut line(), 6, &up), []);
    let mut pair = RoadGraph::from_arcs(2, &[(0, 1, 1), (1, 0, 1)]).unwrap();
    assert_eq!(points(&mut pair, 3, &[0, 1]), []);
    assert_eq!(points(&mut ring(), 3, &[0, 1, 2]), [2]);
}

#[test]
fn sets() {
    let set = NodeSet::new(5, &[3, 1, 3]).unwrap();
    assert_eq!((set.node_count(), set.len(), set.is_empty()), (5, 2, false));
    assert_eq!(set.nodes().collect::<Vec<_>>(), [1, 3]);
    assert!(set.contains(3) && !set.contains(2) && !set.contains(u32::MAX));
    assert!(NodeSet::new(5, &[]).unwrap().is_empty());
}

#[test]
fn distances() {
    let set = NodeSet::new(3, &[2]).unwrap();
    let mut graph = ring();
    let overlay = graph.overlay(&set).unwrap();
    assert_eq!(overlay.parts().1, []);
    assert_eq!(graph.distance(&overlay, 1, 0), Ok(Some(6)));
    let mut graph = wedge();
    let overlay = graph.overlay(&set).unwrap();
    assert_eq!(graph.distance(&overlay, 0, 1), Ok(Some(7)));
    assert_eq!(graph.distance(&overlay, 1, 0), Ok(None));
}

#[test]
fn an_overlay_goes_to_a_handheld_in_parts() {
    let mut graph = line();
    let built = graph.overlay(&NodeSet::new(5, &[1, 3]).unwrap()).unwrap();
    let (starts, heads, weights) = built.parts();
    assert_eq!((starts, heads, weights), (&[0, 0, 1, 1, 2, 2][..], &[3, 1][..], &[16, 16][..]));
    let mut sent = Overlay::from_parts(built.set().clone(), starts.to_vec(), heads.to_vec(), weights.to_vec()).unwrap();
    assert_eq!(sent.distance(1, 3), Ok(Some(16)));
    assert_eq!(sent.distance(3, 3), Ok(Some(0)));
}

#[test]
fn an_overlay_from_another_graph() {
    let set = NodeSet::new(3, &[0, 1, 2]).unwrap();
    let overlay = Overlay::from_parts(set, vec![0, 0, 1, 1], vec![2], vec![1]).unwrap();
    let mut road = RoadGraph::from_arcs(3, &[(0, 1, 1)]).unwrap();
    assert_eq!(road.distance(&overlay, 0, 2), Ok(None));
}

#[test]
fn drives() {
    let set = NodeSet::new(3, &[2]).unwrap();
    assert_eq!(ring().thin(&set, &[2, 0, 1, 2]), Ok(vec![0, 3]));
    assert_eq!(ring().thin(&set, &[2, 1]), Err(Refusal::Drive));
}
