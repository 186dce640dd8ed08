//! A stand-in for `themelios_program`: the operators that the engine tells apart, as plain enums,
//! and empty types for what value.rs only mentions.

pub mod term {
    #[derive(Clone, Copy, Debug, PartialEq, Eq)]
    pub enum UnaryOp {
        Negate,
        BitwiseNot,
    }
    #[derive(Clone, Copy, Debug, PartialEq, Eq)]
    pub enum BinaryOp {
        Add,
        Sub,
        Mul,
        Div,
        Mod,
        Pow,
        BitAnd,
        BitOr,
        BitXor,
    }
}

pub mod program {
    #[derive(Clone, Copy, Debug, PartialEq, Eq)]
    pub enum AggregateFunction {
        Count,
        Sum,
        SumPlus,
        Min,
        Max,
    }
    #[derive(Clone, Copy, Debug, PartialEq, Eq)]
    pub enum Relation {
        Lt,
        Le,
        Gt,
        Ge,
        Eq,
        Neq,
    }
    #[derive(Debug)]
    pub struct Part;
    #[derive(Debug)]
    pub struct Program;
    #[derive(Debug)]
    pub struct Statement;
}

pub mod provenance {
    #[derive(Debug)]
    pub struct WithProvenance<T>(pub T);
}

pub mod symbol {
    #[derive(Debug, PartialEq, Eq, PartialOrd, Ord)]
    pub struct Signature {
        pub arity: u32,
    }
    #[derive(Debug, PartialEq, Eq, PartialOrd, Ord)]
    pub struct Symbol;
}
