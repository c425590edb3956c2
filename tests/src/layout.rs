//! The memory of a stored ad, written here by docs/LAYOUT.md from the reference's tree.

use reference::tree::{Ad, BinaryOperator, Expression, Literal, Node, Scope, UnaryOperator};

pub const NODE_WORDS: usize = 4_096;
pub const WORDS: usize = 4_864;
pub const BYTES: usize = 16_384;

/// What a stored ad's words and bytes hold, unused room included.
#[derive(Clone, PartialEq, Eq)]
pub struct Stored {
    pub words: Vec<u64>,
    pub bytes: Vec<u8>,
}

impl Stored {
    pub fn zero() -> Stored {
        Stored {
            words: vec![0; WORDS],
            bytes: vec![0; BYTES],
        }
    }

    pub fn of(ad: &Ad) -> Stored {
        let mut stored = Stored::zero();
        let mut used = 0;
        let mut nodes = 0;
        let numbered = ad.numbered();
        for (number, definition) in ad.definitions.iter().enumerate() {
            let [offset, length] = stored.keep(&definition.name, &mut used);
            let root = numbered.roots[number];
            let at = NODE_WORDS + 3 * number;
            stored.words[at..at + 3].copy_from_slice(&[offset, length, root as u64]);
            stored.put_nodes(nodes, &numbered.nodes[nodes..=root], &mut used);
            nodes = root + 1;
        }
        stored
    }

    /// Puts the nodes of a definition, the first of which has this number.
    fn put_nodes(&mut self, first: usize, nodes: &[Node], used: &mut usize) {
        for (number, node) in nodes.iter().enumerate() {
            let at = 4 * (first + number);
            let words = self.node(node, used);
            self.words[at..at + 4].copy_from_slice(&words);
        }
    }

    /// Puts a name or string behind those before it; answers its offset and length.
    fn keep(&mut self, content: &[u8], used: &mut usize) -> [u64; 2] {
        let offset = *used;
        *used += content.len();
        self.bytes[offset..*used].copy_from_slice(content);
        [offset as u64, content.len() as u64]
    }

    fn node(&mut self, node: &Node, used: &mut usize) -> [u64; 4] {
        let operand = |number: usize| node.operands.get(number).map_or(0, |&it| it as u64);
        let operator = |kind: u64| [kind, operand(0), operand(1), operand(2)];
        match node.expression {
            Expression::Literal(literal) => self.literal(literal, used),
            Expression::Reference(scope, name) => {
                let [offset, length] = self.keep(name, used);
                [scope_kind(*scope), offset, length, 0]
            }
            Expression::Unary(it, _) => operator(unary_kind(*it)),
            Expression::Binary(it, ..) => operator(binary_kind(*it)),
            Expression::Conditional(..) => operator(12),
        }
    }

    fn literal(&mut self, literal: &Literal, used: &mut usize) -> [u64; 4] {
        match literal {
            Literal::Undefined => [1, 0, 0, 0],
            Literal::Error => [2, 0, 0, 0],
            Literal::Boolean(value) => [3, u64::from(*value), 0, 0],
            Literal::Integer(value) => [4, u64::from(*value), 0, 0],
            Literal::Real { digits, places } => [5, *digits, u64::from(*places), 0],
            Literal::String(content) => {
                let [offset, length] = self.keep(content, used);
                [6, offset, length, 0]
            }
        }
    }
}

fn scope_kind(scope: Scope) -> u64 {
    match scope {
        Scope::Own => 7,
        Scope::Other => 8,
    }
}

/// Operators have consecutive kinds, in the order of `ALL`.
pub fn unary_kind(operator: UnaryOperator) -> u64 {
    9 + operator as u64
}

pub fn binary_kind(operator: BinaryOperator) -> u64 {
    13 + operator as u64
}
