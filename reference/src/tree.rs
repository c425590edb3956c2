//! The tree of an ad. 01: "A node is a literal, a reference or an operator. A real
//! literal's node keeps its digits read as one whole number and the count after the
//! point. Two trees are equal when definitions, order, names as written, kinds and
//! literals are equal."

#[derive(Clone, Debug, PartialEq, Eq, Default)]
pub struct Ad {
    pub definitions: Vec<Definition>,
}

#[derive(Clone, Debug, PartialEq, Eq)]
pub struct Definition {
    /// As written.
    pub name: Vec<u8>,
    pub expression: Expression,
}

#[derive(Clone, Debug, PartialEq, Eq)]
pub enum Expression {
    Literal(Literal),
    Reference(Scope, Vec<u8>),
    Unary(UnaryOperator, Box<Expression>),
    Binary(BinaryOperator, Box<Expression>, Box<Expression>),
    Conditional(Box<Expression>, Box<Expression>, Box<Expression>),
}

#[derive(Clone, Debug, PartialEq, Eq)]
pub enum Literal {
    Undefined,
    Error,
    Boolean(bool),
    Integer(u32),
    Real { digits: u64, places: u32 },
    String(Vec<u8>),
}

/// 01: "Reference: `name` or `other.name`".
#[derive(Clone, Copy, Debug, PartialEq, Eq)]
pub enum Scope {
    Own,
    Other,
}

/// 01: "unary `! + -`".
#[derive(Clone, Copy, Debug, PartialEq, Eq)]
pub enum UnaryOperator {
    Not,
    Plus,
    Minus,
}

#[derive(Clone, Copy, Debug, PartialEq, Eq)]
pub enum BinaryOperator {
    Or,
    And,
    Equal,
    NotEqual,
    Is,
    Isnt,
    Less,
    LessOrEqual,
    Greater,
    GreaterOrEqual,
    Add,
    Subtract,
    Multiply,
    Divide,
    Remainder,
}

impl UnaryOperator {
    pub const ALL: [UnaryOperator; 3] = [
        UnaryOperator::Not,
        UnaryOperator::Plus,
        UnaryOperator::Minus,
    ];

    pub fn spelling(self) -> &'static str {
        match self {
            UnaryOperator::Not => "!",
            UnaryOperator::Plus => "+",
            UnaryOperator::Minus => "-",
        }
    }
}

/// How tightly an expression binds. 01: "Binding, loosest first: `?:`; `||`; `&&`;
/// `== != is isnt`; `< <= > >=`; `+ -`; `* / %`; unary `! + -`; then literals,
/// references and parentheses."
pub mod binding {
    pub const CONDITIONAL: u8 = 0;
    pub const OR: u8 = 1;
    pub const AND: u8 = 2;
    pub const EQUALITY: u8 = 3;
    pub const ORDER: u8 = 4;
    pub const SUM: u8 = 5;
    pub const PRODUCT: u8 = 6;
    pub const UNARY: u8 = 7;
    pub const PRIMARY: u8 = 8;
}

impl BinaryOperator {
    pub const ALL: [BinaryOperator; 15] = [
        BinaryOperator::Or,
        BinaryOperator::And,
        BinaryOperator::Equal,
        BinaryOperator::NotEqual,
        BinaryOperator::Is,
        BinaryOperator::Isnt,
        BinaryOperator::Less,
        BinaryOperator::LessOrEqual,
        BinaryOperator::Greater,
        BinaryOperator::GreaterOrEqual,
        BinaryOperator::Add,
        BinaryOperator::Subtract,
        BinaryOperator::Multiply,
        BinaryOperator::Divide,
        BinaryOperator::Remainder,
    ];

    pub fn binding(self) -> u8 {
        match self {
            BinaryOperator::Or => binding::OR,
            BinaryOperator::And => binding::AND,
            BinaryOperator::Equal
            | BinaryOperator::NotEqual
            | BinaryOperator::Is
            | BinaryOperator::Isnt => binding::EQUALITY,
            BinaryOperator::Less
            | BinaryOperator::LessOrEqual
            | BinaryOperator::Greater
            | BinaryOperator::GreaterOrEqual => binding::ORDER,
            BinaryOperator::Add | BinaryOperator::Subtract => binding::SUM,
            BinaryOperator::Multiply | BinaryOperator::Divide | BinaryOperator::Remainder => {
                binding::PRODUCT
            }
        }
    }

    /// 01, "Printing": "`is` and `isnt` as words".
    pub fn spelling(self) -> &'static str {
        match self {
            BinaryOperator::Or => "||",
            BinaryOperator::And => "&&",
            BinaryOperator::Equal => "==",
            BinaryOperator::NotEqual => "!=",
            BinaryOperator::Is => "is",
            BinaryOperator::Isnt => "isnt",
            BinaryOperator::Less => "<",
            BinaryOperator::LessOrEqual => "<=",
            BinaryOperator::Greater => ">",
            BinaryOperator::GreaterOrEqual => ">=",
            BinaryOperator::Add => "+",
            BinaryOperator::Subtract => "-",
            BinaryOperator::Multiply => "*",
            BinaryOperator::Divide => "/",
            BinaryOperator::Remainder => "%",
        }
    }
}

impl Expression {
    pub fn binding(&self) -> u8 {
        match self {
            Expression::Conditional(..) => binding::CONDITIONAL,
            Expression::Binary(operator, ..) => operator.binding(),
            Expression::Unary(..) => binding::UNARY,
            Expression::Literal(_) | Expression::Reference(..) => binding::PRIMARY,
        }
    }

    /// The operands, left to right.
    pub fn operands(&self) -> Vec<&Expression> {
        match self {
            Expression::Literal(_) | Expression::Reference(..) => vec![],
            Expression::Unary(_, operand) => vec![operand],
            Expression::Binary(_, left, right) => vec![left, right],
            Expression::Conditional(condition, second, third) => vec![condition, second, third],
        }
    }

    /// Calls `visit` for every node, operands first, left to right, then the node.
    pub fn walk<'a>(&'a self, visit: &mut dyn FnMut(&'a Expression)) {
        for operand in self.operands() {
            operand.walk(visit);
        }
        visit(self);
    }
}

/// One node of an ad's post-order, with the numbers of its operands.
#[derive(Clone, Debug)]
pub struct Node<'a> {
    pub expression: &'a Expression,
    pub operands: Vec<usize>,
}

/// All nodes of an ad, numbered from 0 in post-order over the definitions in text
/// order, and for each definition the number of its expression's root.
#[derive(Clone, Debug, Default)]
pub struct Numbered<'a> {
    pub nodes: Vec<Node<'a>>,
    pub roots: Vec<usize>,
}

impl Ad {
    pub fn numbered(&self) -> Numbered<'_> {
        let mut numbered = Numbered::default();
        for definition in &self.definitions {
            let root = number_expression(&definition.expression, &mut numbered.nodes);
            numbered.roots.push(root);
        }
        numbered
    }

    /// Every node of the ad in post-order.
    pub fn walk<'a>(&'a self, visit: &mut dyn FnMut(&'a Expression)) {
        for definition in &self.definitions {
            definition.expression.walk(visit);
        }
    }

    pub fn node_count(&self) -> usize {
        let mut count = 0;
        self.walk(&mut |_| count += 1);
        count
    }

    /// All names and strings in text order: a definition's name, then those of its
    /// expression. Only leaves carry any, so post-order is text order here.
    pub fn names_and_strings(&self) -> Vec<&[u8]> {
        let mut found: Vec<&[u8]> = Vec::new();
        for definition in &self.definitions {
            found.push(&definition.name);
            definition.expression.walk(&mut |node| match node {
                Expression::Reference(_, name) => found.push(name),
                Expression::Literal(Literal::String(content)) => found.push(content),
                _ => {}
            });
        }
        found
    }

    /// The definition of this name, case apart.
    pub fn find(&self, name: &[u8]) -> Option<usize> {
        self.definitions
            .iter()
            .position(|definition| crate::bytes::same_name(&definition.name, name))
    }
}

/// Numbers an expression's nodes behind those already there; answers its root.
fn number_expression<'a>(expression: &'a Expression, nodes: &mut Vec<Node<'a>>) -> usize {
    let mut operands = Vec::new();
    for operand in expression.operands() {
        operands.push(number_expression(operand, nodes));
    }
    nodes.push(Node {
        expression,
        operands,
    });
    nodes.len() - 1
}
