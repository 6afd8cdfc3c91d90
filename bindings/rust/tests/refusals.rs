//! Each refusal that the wrapper can give, and arguments far out of range: none panics.
use gulvane::{NodeSet, Overlay, Refusal, RoadGraph};

fn line() -> RoadGraph {
    RoadGraph::from_arcs(4, &[(0, 1, 5), (1, 0, 5), (1, 2, 7), (2, 1, 7), (2, 3, 9), (3, 2, 9)]).unwrap()
}

fn set(n: usize, nodes: &[u32]) -> NodeSet {
    NodeSet::new(n, nodes).unwrap()
}

#[test]
fn of_a_set() {
    for n in [0, 4_097, 1 << 40, usize::MAX] {
        assert_eq!(NodeSet::new(n, &[]), Err(Refusal::Sizes));
        assert_eq!(NodeSet::new(n, &[7, u32::MAX]), Err(Refusal::Sizes));
    }
    assert_eq!(NodeSet::new(5, &[1, 5]), Err(Refusal::Set));
    assert_eq!(NodeSet::new(5, &[u32::MAX]), Err(Refusal::Set));
    assert_eq!(set(4_096, &[4_095]).len(), 1);
}

#[test]
fn of_a_graph_in_slices() {
    let refusal = |starts, heads, weights| RoadGraph::new(starts, heads, weights).unwrap_err();
    assert_eq!(refusal(vec![], vec![], vec![]), Refusal::Sizes);
    assert_eq!(refusal(vec![0], vec![], vec![]), Refusal::Sizes);
    assert_eq!(refusal(vec![0; 4_098], vec![], vec![]), Refusal::Sizes);
    assert_eq!(refusal(vec![0; 1 << 20], vec![0; 1 << 20], vec![0; 1 << 20]), Refusal::Sizes);
    assert_eq!(refusal(vec![0, 1, 1], vec![1], vec![]), Refusal::Sizes);
    assert_eq!(refusal(vec![1, 0], vec![], vec![]), Refusal::Starts);
    assert_eq!(refusal(vec![0, u32::MAX, 0], vec![], vec![]), Refusal::Starts);
    assert_eq!(refusal(vec![0, 1], vec![0], vec![1]), Refusal::Arcs);
    assert_eq!(refusal(vec![0, 1, 1], vec![u32::MAX], vec![1]), Refusal::Arcs);
    assert_eq!(RoadGraph::new(vec![0; 4_097], vec![], vec![]).unwrap().node_count(), 4_096);
}

#[test]
fn of_a_graph_of_arcs() {
    let refusal = |n, arcs: &[(u32, u32, u32)]| RoadGraph::from_arcs(n, arcs).unwrap_err();
    for n in [0, 4_097, 1 << 40, usize::MAX] {
        assert_eq!(refusal(n, &[]), Refusal::Sizes);
        assert_eq!(refusal(n, &[(u32::MAX, 0, 0)]), Refusal::Sizes);
    }
    assert_eq!(refusal(2, &[(u32::MAX, 0, 0); 16_385]), Refusal::Sizes);
    assert_eq!(refusal(2, &[(0, 1, 0); 16_384]), Refusal::Arcs);
    assert_eq!(refusal(2, &[(2, 1, 0)]), Refusal::Arcs);
    assert_eq!(refusal(2, &[(0, 2, 0)]), Refusal::Arcs);
    assert_eq!(refusal(2, &[(0, 0, 0)]), Refusal::Arcs);
    assert_eq!(refusal(2, &[(0, 1, 1_000_001)]), Refusal::Arcs);
    assert_eq!(refusal(2, &[(0, 1, 1), (0, 1, 2)]), Refusal::Arcs);
    assert_eq!(RoadGraph::from_arcs(2, &[(0, 1, 1_000_000)]).unwrap().arc_count(), 1);
}

#[test]
fn of_a_cover() {
    let up = [0, 1, 2, 3];
    for k in [0, 33, usize::MAX] {
        assert_eq!(line().cover(k, &up), Err(Refusal::K));
    }
    for order in [&[][..], &[0, 1, 2, 2], &[0, 1, 2, u32::MAX], &[0; 5_000]] {
        assert_eq!(line().cover(2, order), Err(Refusal::Order));
    }
    assert!(line().cover(32, &up).unwrap().is_empty());
}

#[test]
fn of_an_overlay() {
    let mut graph = line();
    assert_eq!(graph.overlay(&set(3, &[])).unwrap_err(), Refusal::Set);
    assert_eq!(graph.overlay(&set(4_096, &[])).unwrap_err(), Refusal::Set);
    let refusal = |starts, heads, weights| Overlay::from_parts(set(4, &[1, 3]), starts, heads, weights).unwrap_err();
    assert_eq!(refusal(vec![], vec![], vec![]), Refusal::Overlay);
    assert_eq!(refusal(vec![0; 4], vec![], vec![]), Refusal::Overlay);
    assert_eq!(refusal(vec![0; 1 << 20], vec![], vec![]), Refusal::Overlay);
    assert_eq!(refusal(vec![0, 0, 1, 1, 1], vec![2], vec![1]), Refusal::Overlay);
    assert_eq!(refusal(vec![0, 0, 1, 1, 1], vec![3], vec![4_095_000_001]), Refusal::Overlay);
    assert!(Overlay::from_parts(set(4, &[1, 3]), vec![0, 0, 1, 1, 1], vec![3], vec![4_095_000_000]).is_ok());
}

#[test]
fn of_a_question() {
    let mut graph = line();
    let mut overlay = graph.overlay(&set(4, &[1, 3])).unwrap();
    for node in [4, u32::MAX] {
        assert_eq!(graph.distance(&overlay, node, 0), Err(Refusal::Node));
        assert_eq!(graph.distance(&overlay, 0, node), Err(Refusal::Node));
        assert_eq!(overlay.distance(1, node), Err(Refusal::Node));
    }
    assert_eq!(overlay.distance(1, 0), Err(Refusal::Outside));
    let mut other = RoadGraph::from_arcs(5, &[]).unwrap();
    assert_eq!(other.distance(&overlay, 0, 0), Err(Refusal::Set));
    // After refusals the work still serves.
    assert_eq!(graph.distance(&overlay, 0, 3), Ok(Some(21)));
}

#[test]
fn of_a_drive() {
    let graph = line();
    let points = set(4, &[1, 3]);
    let to_and_fro: Vec<u32> = (0..4_097).map(|i| i % 2).collect();
    for drive in [&[][..], &[0, 2], &[4], &[u32::MAX], &to_and_fro, &vec![0; 1 << 20]] {
        assert_eq!(graph.thin(&points, drive), Err(Refusal::Drive));
    }
    assert_eq!(graph.thin(&set(5, &[]), &[]), Err(Refusal::Set));
    assert_eq!(graph.thin(&points, &to_and_fro[1..]).unwrap().len(), 2_048);
}

#[test]
fn more_arcs_than_an_overlay_may_have() {
    // 257 nodes around a hub see each other: 65,792 arcs.
    let arcs: Vec<_> = (1..258).map(|v| (0, v, 1)).chain((1..258).map(|v| (v, 0, 1))).collect();
    let mut graph = RoadGraph::from_arcs(258, &arcs).unwrap();
    let rim: Vec<u32> = (1..258).collect();
    assert_eq!(graph.overlay(&set(258, &rim)).unwrap_err(), Refusal::Room);
    assert_eq!(graph.overlay(&set(258, &rim[1..])).unwrap().parts().1.len(), 256 * 255);
}

#[test]
fn in_words() {
    let refusal: Box<dyn std::error::Error + Send + Sync> = Refusal::Outside.into();
    assert_eq!(refusal.to_string(), "refused by 9: a question's node is not in the set");
    assert_eq!((Refusal::Sizes.number(), Refusal::Room.number()), (1, 12));
}
