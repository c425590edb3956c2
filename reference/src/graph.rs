//! Two ads side by side: links between their nodes, circular references, needs, and
//! the list. 01, "References, loops and the list".

use crate::bounds;
use crate::tree::{Ad, Expression, Node, Numbered, Scope};

/// A node of one of the two ads: "each a side and a node". Side 0 is the first ad,
/// and nodes are numbered in post-order from 0 on each side.
#[derive(Clone, Copy, Debug, PartialEq, Eq, PartialOrd, Ord, Hash)]
pub struct NodeId {
    pub side: usize,
    pub node: usize,
}

impl NodeId {
    /// 01: "Every node of each side has its own slot, 1,024 a side."
    pub fn slot(self) -> usize {
        bounds::NODES * self.side + self.node
    }
}

/// The names whose expressions are entered, with their sides, in order: "for the first
/// ad's Requirements, the second's, the first's Rank, the second's".
pub const ROOTS: [(usize, &[u8]); 4] = [
    (0, b"Requirements"),
    (1, b"Requirements"),
    (0, b"Rank"),
    (1, b"Rank"),
];

/// 01: "The two sides are distinct even if the same ad is lent twice."
pub struct Pair<'a> {
    ads: [&'a Ad; 2],
    sides: [Numbered<'a>; 2],
    /// By slot: the nodes that a node leads to.
    links: Vec<Vec<NodeId>>,
    /// By slot: whether the node is a circular reference.
    circular: Vec<bool>,
}

impl<'a> Pair<'a> {
    pub fn new(first: &'a Ad, second: &'a Ad) -> Pair<'a> {
        Pair::searched(first, second, Pair::circular_by_reachability)
    }

    /// With another search for circular references, whose answer goes by slot.
    pub fn searched(
        first: &'a Ad,
        second: &'a Ad,
        circular: impl Fn(&Pair<'a>) -> Vec<bool>,
    ) -> Pair<'a> {
        let mut pair = Pair {
            ads: [first, second],
            sides: [first.numbered(), second.numbered()],
            links: vec![Vec::new(); bounds::SLOTS],
            circular: Vec::new(),
        };
        for id in pair.nodes() {
            pair.links[id.slot()] = pair.find_links(id);
        }
        pair.circular = circular(&pair);
        pair
    }

    /// All nodes of both sides.
    pub fn nodes(&self) -> Vec<NodeId> {
        let mut all = Vec::new();
        for (side, numbered) in self.sides.iter().enumerate() {
            all.extend((0..numbered.nodes.len()).map(|node| NodeId { side, node }));
        }
        all
    }

    pub fn node(&self, id: NodeId) -> &Node<'a> {
        &self.sides[id.side].nodes[id.node]
    }

    pub fn is_reference(&self, id: NodeId) -> bool {
        matches!(self.node(id).expression, Expression::Reference(..))
    }

    /// The root of a definition's expression.
    pub fn definition_root(&self, side: usize, name: &[u8]) -> Option<NodeId> {
        let definition = self.ads[side].find(name)?;
        let node = self.sides[side].roots[definition];
        Some(NodeId { side, node })
    }

    /// 01: "`name` finds its definition in its own ad, `other.name` in the other; none
    /// found is Undefined. Inside a definition, names belong to the ad that holds it."
    fn target(&self, id: NodeId) -> Option<NodeId> {
        match self.node(id).expression {
            Expression::Reference(Scope::Own, name) => self.definition_root(id.side, name),
            Expression::Reference(Scope::Other, name) => self.definition_root(1 - id.side, name),
            _ => None,
        }
    }

    /// 01: "An operator leads to all its operands, arms not taken included ... A
    /// reference leads to its definition."
    fn find_links(&self, id: NodeId) -> Vec<NodeId> {
        if self.is_reference(id) {
            return self.target(id).into_iter().collect();
        }
        let same_side = |&node| NodeId {
            side: id.side,
            node,
        };
        self.node(id).operands.iter().map(same_side).collect()
    }

    pub fn links(&self, id: NodeId) -> &[NodeId] {
        &self.links[id.slot()]
    }

    /// Plain reachability, in one or more steps, breadth first.
    fn leads_to(&self, from: NodeId, wanted: NodeId) -> bool {
        let mut seen = vec![false; bounds::SLOTS];
        let mut reached: Vec<NodeId> = self.links(from).to_vec();
        let mut next = 0;
        while next < reached.len() {
            let id = reached[next];
            next += 1;
            if id == wanted {
                return true;
            }
            if !seen[id.slot()] {
                seen[id.slot()] = true;
                reached.extend(self.links(id));
            }
        }
        false
    }

    fn circular_by_reachability(&self) -> Vec<bool> {
        let mut circular = vec![false; bounds::SLOTS];
        for id in self.nodes() {
            circular[id.slot()] = self.is_reference(id) && self.leads_to(id, id);
        }
        circular
    }

    /// 01: "A reference that leads, in one or more steps, back to itself is circular
    /// and is Undefined, whatever its definition gives."
    pub fn is_circular(&self, id: NodeId) -> bool {
        self.circular[id.slot()]
    }

    /// All circular references of both ads, reached from a root or not.
    pub fn circular_references(&self) -> Vec<NodeId> {
        let all = self.nodes();
        all.into_iter().filter(|&id| self.is_circular(id)).collect()
    }

    /// 01: "Needs are the same links, but a circular reference needs nothing."
    pub fn needs(&self, id: NodeId) -> &[NodeId] {
        if self.is_circular(id) {
            &[]
        } else {
            self.links(id)
        }
    }

    /// 01: "The list: for the first ad's Requirements, the second's, the first's Rank,
    /// the second's, those that exist, its expression is entered."
    pub fn evaluation_order(&self) -> Vec<NodeId> {
        let mut order = Vec::new();
        let mut entered = vec![false; bounds::SLOTS];
        for (side, name) in ROOTS {
            if let Some(root) = self.definition_root(side, name) {
                self.enter(root, &mut entered, &mut order);
            }
        }
        order
    }

    /// 01: "To enter a node not yet in the list is to enter what it needs, operands
    /// left to right, and then at once the node itself; a node already in the list is
    /// not entered again."
    fn enter(&self, id: NodeId, entered: &mut [bool], order: &mut Vec<NodeId>) {
        if entered[id.slot()] {
            return;
        }
        for &need in self.needs(id) {
            self.enter(need, entered, order);
        }
        entered[id.slot()] = true;
        order.push(id);
    }
}
