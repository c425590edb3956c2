//! Text to tree, with every refusal of reading. 01: "Checks go 1, 2, then tokens left
//! to right; the first token that breaks a rule decides, its first byte is the place,
//! for a 4 where text ends early the text's length". So no token is looked at before
//! all checks of the one before it are made.

use crate::bounds::{self, AdRoom};
use crate::bytes;
use crate::refusal::{Reason, Refusal};
use crate::token::{next_token, Placed, Symbol, Token, Word};
use crate::tree::UnaryOperator;
use crate::tree::{binding, Ad, BinaryOperator, Definition, Expression, Literal, Scope};

/// Reads a text into memory of the required size.
pub fn read(text: &[u8]) -> Result<Ad, Refusal> {
    read_into(AdRoom::REQUIRED, text)
}

/// 01: "Checks go 1, 2, then tokens left to right".
pub fn read_into(room: AdRoom, text: &[u8]) -> Result<Ad, Refusal> {
    if !room.suffices() {
        return Err(Refusal::whole(Reason::RoomTooSmall));
    }
    if text.len() > bounds::TEXT_BYTES {
        return Err(Refusal::whole(Reason::TextTooLong));
    }
    read_any_length(text)
}

/// Reading "were its length not bounded": the same without refusals 1 and 2.
pub fn read_any_length(text: &[u8]) -> Result<Ad, Refusal> {
    Reader::new(text).ad()
}

struct Reader<'t> {
    text: &'t [u8],
    /// Behind the last token taken.
    position: usize,
    /// Definitions read so far; the one being read has only its name in `names`.
    names: Vec<Vec<u8>>,
    nodes: usize,
}

impl<'t> Reader<'t> {
    fn new(text: &'t [u8]) -> Reader<'t> {
        Reader {
            text,
            position: 0,
            names: Vec::new(),
            nodes: 0,
        }
    }

    // Tokens.

    /// The next token, not taken. Refusals 3, 7 and 5 come from here, before the
    /// grammar has its say.
    fn peek(&self) -> Result<Placed, Refusal> {
        next_token(self.text, self.position)
    }

    fn take(&mut self, placed: &Placed) {
        self.position = placed.end;
    }

    fn next_is(&self, symbol: Symbol) -> Result<bool, Refusal> {
        Ok(self.peek()?.token == Token::Symbol(symbol))
    }

    /// Refusal 4: "token does not fit the grammar, or text ends early".
    fn expect(&mut self, symbol: Symbol) -> Result<(), Refusal> {
        let placed = self.peek()?;
        if placed.token != Token::Symbol(symbol) {
            return Err(does_not_fit(&placed));
        }
        self.take(&placed);
        Ok(())
    }

    /// A name that is not reserved, with its place.
    fn expect_name(&mut self) -> Result<(Vec<u8>, usize), Refusal> {
        let placed = self.peek()?;
        self.take(&placed);
        match placed.token {
            Token::Name(ref name) => Ok((name.clone(), placed.start)),
            _ => Err(does_not_fit(&placed)),
        }
    }

    // Counting.

    /// 01: "Nodes are counted in text order: each literal, each reference (at `other`
    /// where it has one), each operator (a conditional at its `?`)". Refusal 9:
    /// "1,025th node".
    fn count_node(&mut self, place: usize) -> Result<(), Refusal> {
        if self.nodes == bounds::NODES {
            return Err(Refusal::at(Reason::TooMany, place));
        }
        self.nodes += 1;
        Ok(())
    }

    /// "a definition at its name". Refusal 8: "name defined twice"; refusal 9: "257th
    /// definition"; 8 before 9 at one token.
    fn count_definition(&mut self, name: &[u8], place: usize) -> Result<(), Refusal> {
        if self.names.iter().any(|known| bytes::same_name(known, name)) {
            return Err(Refusal::at(Reason::DefinedTwice, place));
        }
        if self.names.len() == bounds::DEFINITIONS {
            return Err(Refusal::at(Reason::TooMany, place));
        }
        self.names.push(name.to_vec());
        Ok(())
    }

    // The ad.

    /// 01: "`[`, then definitions `name = expression` parted by `;`, one further `;`
    /// allowed after the last, then `]`. `[]` is an ad; `[;]` is not."
    fn ad(&mut self) -> Result<Ad, Refusal> {
        let mut ad = Ad::default();
        self.expect(Symbol::OpenBracket)?;
        while !self.next_is(Symbol::CloseBracket)? {
            ad.definitions.push(self.definition()?);
            if !self.next_is(Symbol::CloseBracket)? {
                self.expect(Symbol::Semicolon)?;
            }
        }
        self.expect(Symbol::CloseBracket)?;
        self.end_of_text()?;
        Ok(ad)
    }

    fn end_of_text(&self) -> Result<(), Refusal> {
        let placed = self.peek()?;
        match placed.token {
            Token::End => Ok(()),
            _ => Err(does_not_fit(&placed)),
        }
    }

    /// 01: "A definition's expression starts at level 0."
    fn definition(&mut self) -> Result<Definition, Refusal> {
        let (name, place) = self.expect_name()?;
        self.count_definition(&name, place)?;
        self.expect(Symbol::Assign)?;
        let expression = self.expression(0)?;
        Ok(Definition { name, expression })
    }

    // Expressions, loosest binding first.

    /// 01: "A conditional is an `||`-expression, `?`, an expression, `:`, an
    /// expression." Its arms are one level deeper, refused at the `?`.
    fn expression(&mut self, level: usize) -> Result<Expression, Refusal> {
        let condition = self.binary(binding::OR, level)?;
        let placed = self.peek()?;
        if placed.token != Token::Symbol(Symbol::Question) {
            return Ok(condition);
        }
        let inside = deeper(level, placed.start)?;
        self.count_node(placed.start)?;
        self.take(&placed);
        let second = self.expression(inside)?;
        self.expect(Symbol::Colon)?;
        let third = self.expression(inside)?;
        Ok(Expression::Conditional(
            Box::new(condition),
            Box::new(second),
            Box::new(third),
        ))
    }

    /// 01: "Binary operators group to the left." One call for each binding.
    fn binary(&mut self, own: u8, level: usize) -> Result<Expression, Refusal> {
        if own == binding::UNARY {
            return self.unary(level);
        }
        let mut left = self.binary(own + 1, level)?;
        loop {
            let placed = self.peek()?;
            let operator = match binary_operator(&placed.token) {
                Some(operator) if operator.binding() == own => operator,
                _ => return Ok(left),
            };
            self.count_node(placed.start)?;
            self.take(&placed);
            let right = self.binary(own + 1, level)?;
            left = Expression::Binary(operator, Box::new(left), Box::new(right));
        }
    }

    /// 01: "the operand of a unary operator [is] one level deeper".
    fn unary(&mut self, level: usize) -> Result<Expression, Refusal> {
        let placed = self.peek()?;
        let Some(operator) = unary_operator(&placed.token) else {
            return self.primary(placed, level);
        };
        let inside = deeper(level, placed.start)?;
        self.count_node(placed.start)?;
        self.take(&placed);
        let operand = self.unary(inside)?;
        Ok(Expression::Unary(operator, Box::new(operand)))
    }

    /// "then literals, references and parentheses". 01: "An expression in parentheses
    /// is again a whole expression and leaves no node."
    fn primary(&mut self, placed: Placed, level: usize) -> Result<Expression, Refusal> {
        if placed.token == Token::Symbol(Symbol::OpenParenthesis) {
            return self.parentheses(placed, level);
        }
        if placed.token == Token::Word(Word::Other) {
            return self.other_reference(placed);
        }
        let leaf = match &placed.token {
            Token::Word(Word::Undefined) => Expression::Literal(Literal::Undefined),
            Token::Word(Word::Error) => Expression::Literal(Literal::Error),
            Token::Word(Word::True) => Expression::Literal(Literal::Boolean(true)),
            Token::Word(Word::False) => Expression::Literal(Literal::Boolean(false)),
            Token::Integer(value) => Expression::Literal(Literal::Integer(*value)),
            Token::Real { digits, places } => Expression::Literal(Literal::Real {
                digits: *digits,
                places: *places,
            }),
            Token::String(content) => Expression::Literal(Literal::String(content.clone())),
            Token::Name(name) => Expression::Reference(Scope::Own, name.clone()),
            _ => return Err(does_not_fit(&placed)),
        };
        self.count_node(placed.start)?;
        self.take(&placed);
        Ok(leaf)
    }

    /// 01: "The inside of parentheses [is] one level deeper", refused at the `(`.
    fn parentheses(&mut self, placed: Placed, level: usize) -> Result<Expression, Refusal> {
        let inside = deeper(level, placed.start)?;
        self.take(&placed);
        let expression = self.expression(inside)?;
        self.expect(Symbol::CloseParenthesis)?;
        Ok(expression)
    }

    /// 01: "`other.name`, blanks allowed around the point"; counted at `other`.
    fn other_reference(&mut self, placed: Placed) -> Result<Expression, Refusal> {
        self.count_node(placed.start)?;
        self.take(&placed);
        self.expect(Symbol::Point)?;
        let (name, _) = self.expect_name()?;
        Ok(Expression::Reference(Scope::Other, name))
    }
}

fn does_not_fit(placed: &Placed) -> Refusal {
    Refusal::at(Reason::DoesNotFit, placed.start)
}

/// 01: "Level 65 is refused at its `(`, unary operator or `?`."
fn deeper(level: usize, place: usize) -> Result<usize, Refusal> {
    if level == bounds::LEVEL {
        return Err(Refusal::at(Reason::TooDeep, place));
    }
    Ok(level + 1)
}

fn unary_operator(token: &Token) -> Option<UnaryOperator> {
    match token {
        Token::Symbol(Symbol::Not) => Some(UnaryOperator::Not),
        Token::Symbol(Symbol::Plus) => Some(UnaryOperator::Plus),
        Token::Symbol(Symbol::Minus) => Some(UnaryOperator::Minus),
        _ => None,
    }
}

fn binary_operator(token: &Token) -> Option<BinaryOperator> {
    match token {
        Token::Symbol(Symbol::Or) => Some(BinaryOperator::Or),
        Token::Symbol(Symbol::And) => Some(BinaryOperator::And),
        Token::Symbol(Symbol::Equal) => Some(BinaryOperator::Equal),
        Token::Symbol(Symbol::NotEqual) => Some(BinaryOperator::NotEqual),
        Token::Word(Word::Is) => Some(BinaryOperator::Is),
        Token::Word(Word::Isnt) => Some(BinaryOperator::Isnt),
        Token::Symbol(Symbol::Less) => Some(BinaryOperator::Less),
        Token::Symbol(Symbol::LessOrEqual) => Some(BinaryOperator::LessOrEqual),
        Token::Symbol(Symbol::Greater) => Some(BinaryOperator::Greater),
        Token::Symbol(Symbol::GreaterOrEqual) => Some(BinaryOperator::GreaterOrEqual),
        Token::Symbol(Symbol::Plus) => Some(BinaryOperator::Add),
        Token::Symbol(Symbol::Minus) => Some(BinaryOperator::Subtract),
        Token::Symbol(Symbol::Times) => Some(BinaryOperator::Multiply),
        Token::Symbol(Symbol::Divide) => Some(BinaryOperator::Divide),
        Token::Symbol(Symbol::Remainder) => Some(BinaryOperator::Remainder),
        _ => None,
    }
}
