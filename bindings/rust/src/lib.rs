//! Sync points on a road map that no drive misses, the overlay between them, exact distances, and
//! thinned drives. A safe wrapper over the proved archive `libgulvane.a`.
//!
//! ```
//! use gulvane::{NodeSet, Refusal, RoadGraph};
//!
//! // Five junctions in a line, joined both ways.
//! let mut graph = RoadGraph::from_arcs(
//!     5,
//!     &[(0, 1, 5), (1, 0, 5), (1, 2, 7), (2, 1, 7), (2, 3, 9), (3, 2, 9), (3, 4, 11), (4, 3, 11)],
//! )?;
//!
//! // Every drive over two different junctions meets a point.
//! let points = graph.cover(2, &[0, 1, 2, 3, 4])?;
//! assert_eq!(points, NodeSet::new(5, &[1, 3])?);
//!
//! // From the points and the overlay alone the distances are the road's own.
//! let mut overlay = graph.overlay(&points)?;
//! assert_eq!(overlay.distance(1, 3)?, Some(16));
//! assert_eq!(graph.distance(&overlay, 0, 4)?, Some(32));
//!
//! // What the van sends of a drive.
//! assert_eq!(graph.thin(&points, &[0, 1, 2, 3])?, [1, 3]);
//!
//! // A refusal says why.
//! let refusal = overlay.distance(1, 2).unwrap_err();
//! assert_eq!(refusal, Refusal::Outside);
//! assert_eq!(refusal.to_string(), "refused by 9: a question's node is not in the set");
//! # Ok::<(), Refusal>(())
//! ```
//!
//! Any argument may be handed to any call: what is wrong is refused, and nothing panics. A graph and
//! an overlay own the work that their calls need, so the calls that use it take `&mut self`; to ask
//! from several threads at once, give each a clone.

#![deny(missing_docs, unsafe_code)]

#[cfg(not(target_arch = "x86_64"))]
compile_error!("libgulvane.a is for x86-64: build for a target of that processor");

mod arcs;
mod graph;
mod node_set;
mod overlay;
mod refusal;
#[allow(unsafe_code)]
mod sys;

pub use graph::RoadGraph;
pub use node_set::NodeSet;
pub use overlay::Overlay;
pub use refusal::Refusal;

const MOST_NODES: usize = 4_096;
const MOST_ROAD_ARCS: usize = 16_384;
const MOST_OVERLAY_ARCS: usize = 65_536;
const MOST_DRIVE: usize = 4_096;
