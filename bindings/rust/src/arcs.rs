//! What graphs and overlays are kept in, and the work of a search.

/// Arcs in the archive's layout: n + 1 starts, m heads and m weights.
#[derive(Clone, Debug)]
pub struct Arcs {
    pub starts: Vec<u32>,
    pub heads: Vec<u32>,
    pub weights: Vec<u32>,
}

impl Arcs {
    pub fn zeros(n: usize, m: usize) -> Arcs {
        Arcs { starts: vec![0; n + 1], heads: vec![0; m], weights: vec![0; m] }
    }

    /// Leaves only the first m, and gives the room of the others back.
    pub fn keep(&mut self, m: usize) {
        for room in [&mut self.heads, &mut self.weights] {
            room.truncate(m);
            room.shrink_to_fit();
        }
    }
}

/// The queue and what goes with it.
#[derive(Clone, Debug)]
pub struct Queue {
    pub labels: Vec<u64>,
    pub heap: Vec<u32>,
    pub places: Vec<u32>,
    pub touched: Vec<u32>,
    pub blocked: Vec<u8>,
}

impl Queue {
    pub fn new(n: usize) -> Queue {
        Queue { labels: vec![0; n], heap: vec![0; 2 * n], places: vec![0; n], touched: vec![0; n], blocked: vec![0; n] }
    }
}
