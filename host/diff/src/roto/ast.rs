//! A hand-made syntax tree: what the Rust's rules look at, for the node kinds of document 01.

use std::fmt;
use std::ops::Deref;

/// A name. The Rust's are interned strings; here they are the strings that its text names, and a pack's numbers.
#[derive(Clone, Copy, Debug, PartialEq, Eq, PartialOrd, Ord, Hash)]
pub enum Identifier {
    Std(&'static str),
    Name(usize),
    Slot(usize),
    Definition(usize),
    Explicit(usize),
    Value(usize),
    Root,
}

impl From<&'static str> for Identifier {
    fn from(name: &'static str) -> Self {
        Identifier::Std(name)
    }
}

impl fmt::Display for Identifier {
    fn fmt(&self, f: &mut fmt::Formatter<'_>) -> fmt::Result {
        write!(f, "{self:?}")
    }
}

#[derive(Clone, Copy, Debug, PartialEq, Eq, PartialOrd, Ord, Hash)]
pub struct MetaId(pub usize);

#[derive(Clone, Debug, PartialEq, Eq, Hash)]
pub struct Meta<T> {
    pub node: T,
    pub id: MetaId,
}

impl<T> Deref for Meta<T> {
    type Target = T;

    fn deref(&self) -> &T {
        &self.node
    }
}

pub struct Block {
    pub stmts: Vec<Meta<Stmt>>,
    pub last: Option<Box<Meta<Expr>>>,
}

pub enum Stmt {
    /// Named by the text; no pack has one.
    #[allow(dead_code)]
    Import(()),
    Let(Meta<Identifier>, Option<TypeExpr>, Meta<Expr>),
    Expr(Meta<Expr>),
}

/// A written type: a type row, and the let that has it.
pub struct TypeExpr {
    pub row: usize,
    pub place: MetaId,
}

pub enum Expr {
    Literal(Meta<Literal>),
    Slot(Meta<Identifier>),
    Block(Meta<Block>),
    Match(Box<Meta<Match>>),
    BinOp(Box<Meta<Expr>>, BinOp, Box<Meta<Expr>>),
    Record(usize, Record),
    Access(Box<Meta<Expr>>, Meta<Identifier>),
    Return(Option<Box<Meta<Expr>>>),
}

pub enum Literal {
    String(()),
    Char(()),
    Asn(()),
    IpAddress(()),
    Bool(()),
    Integer((), Option<IntType>),
    Float((), Option<FloatType>),
    Unit,
}

pub enum IntType {
    I8,
    I16,
    I32,
    I64,
    U8,
    U16,
    U32,
    U64,
}

pub enum FloatType {
    F32,
    F64,
}

pub struct Match {
    pub expr: Meta<Expr>,
    pub arms: Meta<Vec<Meta<MatchArm>>>,
}

pub struct MatchArm {
    pub pattern: Meta<Pattern>,
    pub guard: Option<Meta<Expr>>,
    pub body: Meta<Expr>,
}

pub enum Pattern {
    Underscore,
    EnumVariant { variant: Meta<Identifier>, fields: Option<Meta<Vec<Meta<Identifier>>>> },
}

pub struct Record {
    pub fields: Vec<RecordField>,
}

pub struct RecordField {
    pub name: Meta<Identifier>,
    pub expr: Meta<Expr>,
}

#[derive(Clone, Copy, PartialEq, Eq)]
pub enum BinOp {
    And,
    Or,
    Lt,
    Le,
    Gt,
    Ge,
    Eq,
    Ne,
    Add,
    Sub,
    Mul,
    Div,
    Mod,
    Exp,
}
