//! Policies, requests, withdrawals and hierarchies as trees. One shape serves both forms: in `Text` names stand as they are written, in `Numbers` as the bytes have them.
use std::fmt::Debug;

/// A part of a text, by offsets; in a tree that was read from bytes it is empty.
#[derive(Debug, Clone, Copy, PartialEq, Eq, Default)]
pub struct Span {
    pub start: usize,
    pub end: usize,
}

impl Span {
    /// From the start of this part to the end of another.
    pub fn to(self, other: Span) -> Span {
        Span { start: self.start, end: other.end }
    }
}

#[derive(Debug, Clone, Copy, PartialEq, Eq, PartialOrd, Ord)]
pub enum Kind {
    Principal = 1,
    Thing,
    Day,
    Quantity,
}

impl Kind {
    pub const ALL: [Kind; 4] = [Kind::Principal, Kind::Thing, Kind::Day, Kind::Quantity];

    pub fn word(self) -> &'static str {
        ["principal", "thing", "day", "quantity"][self as usize - 1]
    }

    pub fn of_byte(byte: u8) -> Option<Kind> {
        Kind::ALL.into_iter().find(|kind| *kind as u8 == byte)
    }

    pub fn of_word(word: &str) -> Option<Kind> {
        Kind::ALL.into_iter().find(|kind| kind.word() == word)
    }
}

/// How a form names constants, variables and verbs.
pub trait Form: Debug + Clone {
    type Expression: Debug + Clone;
    type Verb: Debug + Clone;
    type Variable: Debug + Clone;
}

#[derive(Debug, Clone)]
pub struct Text;

#[derive(Debug, Clone)]
pub struct Numbers;

impl Form for Text {
    type Expression = Name;
    type Verb = VerbName;
    type Variable = Variable;
}

/// Expressions as in the bytes: a constant's number, `VARIABLE` and up, or `TODAY`.
impl Form for Numbers {
    type Expression = u16;
    type Verb = u8;
    type Variable = u8;
}

pub const TODAY: u16 = 0x4000;
pub const VARIABLE: u16 = 0x8000;

#[derive(Debug, Clone, PartialEq, Eq)]
pub enum Variable {
    Numbered(u8),
    Named(String),
}

#[derive(Debug, Clone, PartialEq, Eq)]
pub enum Name {
    /// A principal or thing; the kind is written only where both have this label.
    Label(Option<Kind>, String),
    Day(u32),
    Quantity(u32),
    Variable(Variable),
    Today,
}

#[derive(Debug, Clone, PartialEq, Eq)]
pub enum VerbName {
    CanActAs,
    Label(String),
}

/// A value with the part of the text where it stands.
#[derive(Debug, Clone)]
pub struct At<T> {
    pub it: T,
    pub span: Span,
}

#[derive(Debug, Clone)]
pub struct Speaker<F: Form> {
    pub who: At<F::Expression>,
    pub unlimited: bool,
}

#[derive(Debug, Clone)]
pub struct Fact<F: Form> {
    /// outermost first
    pub speakers: Vec<Speaker<F>>,
    pub subject: At<F::Expression>,
    pub verb: At<F::Verb>,
    pub parameters: Vec<At<F::Expression>>,
    pub span: Span,
}

#[derive(Debug, Clone)]
pub struct Constraint<F: Form> {
    pub operator: u8,
    pub left: At<F::Expression>,
    pub right: At<F::Expression>,
    pub span: Span,
}

/// How operators 1 to 5 are written.
pub const OPERATORS: [&str; 5] = ["=", "!=", "<=", "begins-with", "within-year-of"];

#[derive(Debug, Clone)]
pub struct Assertion<F: Form> {
    pub serial: u32,
    pub issuer: At<F::Expression>,
    pub head: Fact<F>,
    pub body: Vec<Fact<F>>,
    pub constraints: Vec<Constraint<F>>,
    pub span: Span,
}

/// An entry that takes back what its issuer said under a serial, while its constraints hold.
#[derive(Debug, Clone)]
pub struct Withdrawal<F: Form> {
    pub issuer: At<F::Expression>,
    pub serial: u32,
    pub constraints: Vec<Constraint<F>>,
    pub span: Span,
}

/// What is below a constant as a parameter of a verb, counted from 1: an entry for each child.
#[derive(Debug, Clone)]
pub struct Family<F: Form> {
    pub verb: At<F::Verb>,
    pub position: At<u8>,
    pub parent: At<F::Expression>,
    pub children: Vec<At<F::Expression>>,
    pub span: Span,
}

#[derive(Debug, Clone)]
pub enum Part<F: Form> {
    Says(At<F::Expression>, Fact<F>),
    Constraint(Constraint<F>),
    All(Vec<Node<F>>),
    Any(Vec<Node<F>>),
    Not(Box<Node<F>>),
    Exists(At<F::Variable>, Box<Node<F>>),
}

#[derive(Debug, Clone)]
pub struct Node<F: Form> {
    pub part: Part<F>,
    pub span: Span,
}

#[derive(Debug, Clone, PartialEq, Eq, Hash)]
pub enum Constant {
    Label(KindOfLabel, String),
    Day(u32),
    Quantity(u32),
}

#[derive(Debug, Clone, Copy, PartialEq, Eq, Hash)]
pub enum KindOfLabel {
    Principal,
    Thing,
}

impl Constant {
    pub fn kind(&self) -> Kind {
        match self {
            Constant::Label(KindOfLabel::Principal, _) => Kind::Principal,
            Constant::Label(KindOfLabel::Thing, _) => Kind::Thing,
            Constant::Day(_) => Kind::Day,
            Constant::Quantity(_) => Kind::Quantity,
        }
    }
}

#[derive(Debug, Clone)]
pub struct Verb {
    pub label: String,
    pub kinds: Vec<Kind>,
}

/// A policy: in `Text`, days and quantities that are used need not stand among the constants.
#[derive(Debug, Clone)]
pub struct Policy<F: Form> {
    pub version: At<u8>,
    pub constants: Vec<At<Constant>>,
    pub verbs: Vec<At<Verb>>,
    pub assertions: Vec<Assertion<F>>,
}

#[derive(Debug, Clone)]
pub struct Request<F: Form> {
    pub version: At<u8>,
    pub today: At<u32>,
    pub node: Node<F>,
}

#[derive(Debug, Clone)]
pub struct Withdrawals<F: Form> {
    pub version: At<u8>,
    pub entries: Vec<Withdrawal<F>>,
}

#[derive(Debug, Clone)]
pub struct Hierarchy<F: Form> {
    pub version: At<u8>,
    pub families: Vec<Family<F>>,
}
