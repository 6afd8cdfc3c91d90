use crate::arcs::{Arcs, Queue};
use crate::{sys, NodeSet, Refusal};

/// A set and an overlay between its nodes: what a handheld holds.
#[derive(Clone, Debug)]
pub struct Overlay {
    set: NodeSet,
    arcs: Arcs,
    queue: Queue,
}

impl Overlay {
    /// An overlay from its parts, as they come from a server: the set, and n + 1 starts, heads and
    /// weights in the layout of [`RoadGraph::new`](crate::RoadGraph::new).
    ///
    /// # Errors
    ///
    /// [`Refusal::Overlay`].
    pub fn from_parts(set: NodeSet, starts: Vec<u32>, heads: Vec<u32>, weights: Vec<u32>) -> Result<Overlay, Refusal> {
        // Where set and overlay are without fault a node that no graph has is refused by 8, before
        // the work is looked at.
        let none = u32::MAX;
        let judged = sys::gulvane_handheld(
            set.bytes(), &starts, &heads, &weights, none, none, &mut [], &mut [], &mut [], &mut [], &mut [],
        );
        match judged.answer() {
            Err(why) if why != Refusal::Node => Err(why),
            _ => Ok(Overlay::judged(set, Arcs { starts, heads, weights })),
        }
    }

    pub(crate) fn judged(set: NodeSet, arcs: Arcs) -> Overlay {
        let queue = Queue::new(set.node_count());
        Overlay { set, arcs, queue }
    }

    /// The set.
    pub fn set(&self) -> &NodeSet {
        &self.set
    }

    /// Its starts, heads and weights.
    pub fn parts(&self) -> (&[u32], &[u32], &[u32]) {
        (&self.arcs.starts, &self.arcs.heads, &self.arcs.weights)
    }

    /// The distance in the overlay from s to t, two nodes of the set, or `None` for no way. Where
    /// the overlay was built from a road graph it is the road's own distance.
    ///
    /// # Errors
    ///
    /// [`Refusal::Node`] or [`Refusal::Outside`].
    pub fn distance(&mut self, s: u32, t: u32) -> Result<Option<u64>, Refusal> {
        let (arcs, queue) = (&self.arcs, &mut self.queue);
        sys::gulvane_handheld(
            self.set.bytes(), &arcs.starts, &arcs.heads, &arcs.weights, s, t,
            &mut queue.labels, &mut queue.heap, &mut queue.places, &mut queue.touched, &mut queue.blocked,
        )
        .answer()
    }
}
