use crate::{Refusal, MOST_NODES};

/// A set of a graph's nodes.
#[derive(Clone, Debug, PartialEq, Eq, Hash)]
pub struct NodeSet {
    bytes: Vec<u8>,
}

impl NodeSet {
    /// The set of those of a graph's n nodes that are listed, in any order, once or more.
    ///
    /// # Errors
    ///
    /// [`Refusal::Sizes`] if n is 0 or above 4,096, and [`Refusal::Set`] if a node is not below n.
    pub fn new(n: usize, nodes: &[u32]) -> Result<NodeSet, Refusal> {
        if n == 0 || n > MOST_NODES {
            return Err(Refusal::Sizes);
        }
        let mut bytes = vec![0; n];
        for &v in nodes {
            *bytes.get_mut(v as usize).ok_or(Refusal::Set)? = 1;
        }
        Ok(NodeSet { bytes })
    }

    /// The set of the nodes whose byte is 1, of bytes that are 0 or 1.
    pub(crate) fn of_bytes(bytes: Vec<u8>) -> NodeSet {
        NodeSet { bytes }
    }

    pub(crate) fn bytes(&self) -> &[u8] {
        &self.bytes
    }

    /// How many nodes the graph has.
    pub fn node_count(&self) -> usize {
        self.bytes.len()
    }

    /// Whether v is in the set.
    pub fn contains(&self, v: u32) -> bool {
        self.bytes.get(v as usize) == Some(&1)
    }

    /// Its nodes, ascending.
    pub fn nodes(&self) -> impl Iterator<Item = u32> + '_ {
        (0u32..).zip(&self.bytes).filter(|(_, &b)| b == 1).map(|(v, _)| v)
    }

    /// How many nodes it has.
    pub fn len(&self) -> usize {
        self.nodes().count()
    }

    /// Whether it has none.
    pub fn is_empty(&self) -> bool {
        self.len() == 0
    }
}
