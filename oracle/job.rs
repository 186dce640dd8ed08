//! The text of a job, read call by call into the types of the source.

use crate::numeric::{
    ArgumentId, Binding, ConstantId, Expression, ExpressionId, Guard, Head, PredicateId, Rule,
};
use crate::{Limits, Widening};
use themelios_program::program::{AggregateFunction, Relation};
use themelios_program::term::{BinaryOp, UnaryOp};

/// A key of document 01's reader. The derived order is its order: numbers before names,
/// numbers by value, names by bytes with a proper prefix first.
#[derive(Clone, Debug, PartialEq, Eq, PartialOrd, Ord)]
pub enum Key {
    Number(i32),
    Name(Vec<u8>),
}

pub enum Call {
    Fresh(Limits),
    Context(u32),
    Work(u64),
    Predicate(usize),
    Argument(PredicateId, usize),
    Constant(Key),
    Expression(Expression),
    SeedValue(ArgumentId, ConstantId),
    SeedInterval(ArgumentId, i32, i32),
    Rule(Rule),
    Run,
    ReadArgument(usize),
    ReadContexts(usize),
    ReadSlot(usize, usize),
    ReadConstant(usize),
    Counts,
    StopContext,
}

/// The text is no job from here on.
pub struct Malformed;
type Read<T> = Result<T, Malformed>;

/// What can be read; the sizes that the port takes are smaller and meet 1.
const MOST_BYTES: usize = 128;
const MOST_PARTS: usize = 64;

const UNARY: [UnaryOp; 2] = [UnaryOp::Negate, UnaryOp::BitwiseNot];
const BINARY: [BinaryOp; 9] = [
    BinaryOp::Add,
    BinaryOp::Sub,
    BinaryOp::Mul,
    BinaryOp::Div,
    BinaryOp::Mod,
    BinaryOp::Pow,
    BinaryOp::BitAnd,
    BinaryOp::BitOr,
    BinaryOp::BitXor,
];
const RELATIONS: [Relation; 6] = [
    Relation::Lt,
    Relation::Le,
    Relation::Gt,
    Relation::Ge,
    Relation::Eq,
    Relation::Neq,
];
const FUNCTIONS: [AggregateFunction; 5] = [
    AggregateFunction::Count,
    AggregateFunction::Sum,
    AggregateFunction::SumPlus,
    AggregateFunction::Min,
    AggregateFunction::Max,
];
/// The reasons 1 to 6, in the order of `Widening`.
pub const REASONS: [Widening; 6] = [
    Widening::HeadForm,
    Widening::HeadTerm,
    Widening::UnboundVariable,
    Widening::SymbolSize,
    Widening::ValueWidth,
    Widening::Dependency,
];

pub struct Job<'t> {
    rest: &'t [u8],
}

impl<'t> Job<'t> {
    pub fn new(text: &'t [u8]) -> Self {
        Self { rest: text }
    }

    /// The next call, read whole before any of it is carried out; None at the end of the text.
    pub fn call(&mut self) -> Read<Option<Call>> {
        let Some(word) = self.word() else {
            return Ok(None);
        };
        let call = match integer(word).ok_or(Malformed)? {
            1 => Call::Fresh(self.limits()?),
            2 => Call::Context(self.number()?),
            3 => Call::Work(self.number()?),
            4 => Call::Predicate(self.number()?),
            5 => Call::Argument(PredicateId(self.number()?), self.number()?),
            6 => Call::Constant(Key::Number(self.number()?)),
            7 => Call::Constant(Key::Name(self.list(MOST_BYTES, Self::number)?)),
            10 => Call::Expression(Expression::Constant(ConstantId(self.number()?))),
            11 => Call::Expression(Expression::Slot(self.number()?)),
            12 => Call::Expression(Expression::Unary(self.code(&UNARY)?, self.expression()?)),
            13 => Call::Expression(Expression::Absolute(self.expression()?)),
            14 => Call::Expression(Expression::Binary(
                self.code(&BINARY)?,
                self.expression()?,
                self.expression()?,
            )),
            15 => Call::Expression(Expression::Unknown {
                integer: self.code(&[false, true])?,
                reason: self.reason()?,
            }),
            20 => Call::SeedValue(self.argument()?, ConstantId(self.number()?)),
            21 => Call::SeedInterval(self.argument()?, self.number()?, self.number()?),
            22 => Call::Rule(self.rule()?),
            30 => Call::Run,
            40 => Call::ReadArgument(self.number()?),
            41 => Call::ReadContexts(self.number()?),
            42 => Call::ReadSlot(self.number()?, self.number()?),
            43 => Call::ReadConstant(self.number()?),
            50 => Call::Counts,
            51 => Call::StopContext,
            _ => return Err(Malformed),
        };
        Ok(Some(call))
    }

    /// Words are parted by spaces and line feeds, by nothing else.
    fn word(&mut self) -> Option<&'t [u8]> {
        let parts = |byte: &u8| matches!(byte, b' ' | b'\n');
        let start = self.rest.iter().position(|byte| !parts(byte))?;
        let rest = &self.rest[start..];
        let end = rest.iter().position(parts).unwrap_or(rest.len());
        self.rest = &rest[end..];
        Some(&rest[..end])
    }

    /// A number of the type that stands at this place.
    fn number<T: TryFrom<i128>>(&mut self) -> Read<T> {
        let value = self.word().and_then(integer).ok_or(Malformed)?;
        T::try_from(value).map_err(|_| Malformed)
    }

    fn code<T: Copy>(&mut self, table: &[T]) -> Read<T> {
        let at: usize = self.number()?;
        table.get(at).copied().ok_or(Malformed)
    }

    fn reason(&mut self) -> Read<Widening> {
        let at: usize = self.number()?;
        let before = at.checked_sub(1).ok_or(Malformed)?;
        REASONS.get(before).copied().ok_or(Malformed)
    }

    fn list<T>(&mut self, most: usize, item: impl Fn(&mut Self) -> Read<T>) -> Read<Vec<T>> {
        let count: usize = self.number()?;
        if count > most {
            return Err(Malformed);
        }
        (0..count).map(|_| item(self)).collect()
    }

    fn argument(&mut self) -> Read<ArgumentId> {
        Ok(ArgumentId(self.number()?))
    }

    fn expression(&mut self) -> Read<ExpressionId> {
        Ok(ExpressionId(self.number()?))
    }

    /// The reader of 01 has neither nodes nor depth, so these two never refuse.
    fn limits(&mut self) -> Read<Limits> {
        Ok(Limits {
            max_work: self.number()?,
            max_predicates: self.number()?,
            max_positions: self.number()?,
            max_links: self.number()?,
            max_values_per_argument: self.number()?,
            max_value_entries: self.number()?,
            max_rounds: self.number()?,
            max_inspected_bytes: self.number()?,
            max_symbol_bytes: self.number()?,
            max_symbol_nodes: usize::MAX,
            max_symbol_depth: usize::MAX,
        })
    }

    fn rule(&mut self) -> Read<Rule> {
        Ok(Rule {
            slots: self.number()?,
            bindings: self.list(MOST_PARTS, Self::binding)?,
            guards: self.list(MOST_PARTS, Self::guard)?,
            heads: self.list(MOST_PARTS, Self::head)?,
            integer_queries: self.list(MOST_PARTS, Self::expression)?,
        })
    }

    fn binding(&mut self) -> Read<Binding> {
        match self.number()? {
            0_u8 => Ok(Binding::Positive {
                slot: self.number()?,
                argument: self.argument()?,
            }),
            1 => Ok(Binding::Assign {
                slot: self.number()?,
                value: self.expression()?,
            }),
            2 => Ok(Binding::Range {
                slot: self.number()?,
                low: self.expression()?,
                high: self.expression()?,
            }),
            3 => Ok(Binding::Aggregate {
                slot: self.number()?,
                function: self.code(&FUNCTIONS)?,
            }),
            _ => Err(Malformed),
        }
    }

    fn guard(&mut self) -> Read<Guard> {
        match self.number()? {
            0_u8 => Ok(Guard::Compare {
                left: self.expression()?,
                relation: self.code(&RELATIONS)?,
                right: self.expression()?,
            }),
            1 => Ok(Guard::Membership {
                slot: self.number()?,
                low: self.expression()?,
                high: self.expression()?,
            }),
            _ => Err(Malformed),
        }
    }

    fn head(&mut self) -> Read<Head> {
        Ok(Head {
            argument: self.argument()?,
            value: self.expression()?,
        })
    }
}

/// Digits with an optional minus. Stays at 2^100 from there on: that lies outside every type.
fn integer(word: &[u8]) -> Option<i128> {
    let (sign, digits) = match word {
        [b'-', digits @ ..] => (-1, digits),
        digits => (1, digits),
    };
    if digits.is_empty() || !digits.iter().all(u8::is_ascii_digit) {
        return None;
    }
    let append = |sum: i128, digit: &u8| (sum * 10 + i128::from(digit - b'0')).min(1 << 100);
    Some(sign * digits.iter().fold(0, append))
}
