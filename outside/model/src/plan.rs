//! The table of plans, and the way of a key through them.

/// The places of one node.
pub const NODE_PLACES: usize = 64;
/// The nodes that a store has room for.
pub const ALL_NODES: usize = 8;

/// An edge: the keys that it holds, both ends included, and the node that it leads to.
#[derive(Clone, Copy, Debug)]
#[allow(missing_docs)]
pub struct Edge {
    pub lowest: u32,
    pub highest: u32,
    pub target: usize,
}

impl Edge {
    /// Whether the edge's range holds the key.
    pub fn holds(&self, key: u32) -> bool {
        self.lowest <= key && key <= self.highest
    }
}

/// A plan: for each node its capacity and its edges.
#[derive(Debug)]
#[allow(missing_docs)]
pub struct Plan {
    pub capacities: &'static [usize],
    pub edges: &'static [&'static [Edge]],
}

const fn edge(lowest: u32, highest: u32, target: usize) -> Edge {
    Edge { lowest, highest, target }
}

const fn all_keys(target: usize) -> Edge {
    edge(0, u32::MAX, target)
}

const HALVES: &[Edge] = &[edge(0, 0x7fff_ffff, 1), edge(0x8000_0000, u32::MAX, 2)];

/// The table of plans, numbered from 1.
pub static PLANS: &[Plan] = &[
    Plan { capacities: &[8, 16, 32, 64], edges: &[&[all_keys(1)], &[all_keys(2)], &[all_keys(3)], &[]] },
    Plan { capacities: &[8, 32, 32], edges: &[HALVES, &[], &[]] },
    Plan { capacities: &[8, 16, 16, 64], edges: &[HALVES, &[all_keys(3)], &[all_keys(3)], &[]] },
];

impl Plan {
    /// The plan with this number, if the table has it.
    pub fn numbered(number: u32) -> Option<&'static Plan> {
        PLANS.get((number as usize).checked_sub(1)?)
    }

    /// How many nodes the plan has.
    pub fn nodes(&self) -> usize {
        self.capacities.len()
    }

    /// The target of the first edge of the node, in edge order, whose range holds the key.
    pub fn next(&self, node: usize, key: u32) -> Option<usize> {
        self.edges[node].iter().find(|edge| edge.holds(key)).map(|edge| edge.target)
    }

    /// How many nodes of the key's path are above the node; none if the node is not on the path.
    pub fn depth(&self, node: usize, key: u32) -> Option<u32> {
        let mut at = 0;
        let mut above = 0;
        while at < node {
            at = self.next(at, key)?;
            above += 1;
        }
        (at == node).then_some(above)
    }
}
