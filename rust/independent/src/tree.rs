//! Statements as trees (01 "Statements").

use crate::cards::StatementNumber;
use crate::format::Field;

pub type Name = String;

/// One statement.
#[derive(Clone, Debug, PartialEq, Eq)]
pub enum Form {
    /// `v=e`, `v(s)=e`, `v(s,s)=e`
    Assign {
        target: Reference,
        value: Expression,
    },
    /// `GOTOn`
    GoTo(StatementNumber),
    /// `GOTO(n,..,n),v`
    Computed {
        exits: Vec<StatementNumber>,
        selector: Name,
    },
    /// `IF(e)n,n,n`: below, at, above 0
    If {
        value: Expression,
        exits: [StatementNumber; 3],
    },
    /// `DOnv=m,m` or `DOnv=m,m,m`
    Do(Do),
    Continue,
    Stop,
    End,
    /// `DIMENSIONv(c),v(c,c)..`
    Dimension(Vec<Array>),
    /// `READn`, `READn,list`
    Read(Transfer),
    /// `PRINTn`, `PRINTn,list`
    Print(Transfer),
    /// `FORMAT(list)`
    Format(Vec<Field>),
}

/// A READ's or PRINT's FORMAT, and its list: "names, elements and whole arrays".
#[derive(Clone, Debug, PartialEq, Eq)]
pub struct Transfer {
    pub format: StatementNumber,
    pub list: Vec<Reference>,
}

#[derive(Clone, Debug, PartialEq, Eq)]
pub struct Do {
    pub last: StatementNumber,
    pub variable: Name,
    pub first: Parameter,
    pub limit: Parameter,
    pub step: Option<Parameter>,
}

/// "each m a c or a v"
#[derive(Clone, Debug, PartialEq, Eq)]
pub enum Parameter {
    Constant(u32),
    Name(Name),
}

#[derive(Clone, Debug, PartialEq, Eq)]
pub struct Array {
    pub name: Name,
    pub rows: u32,
    /// None: one dimension.
    pub columns: Option<u32>,
}

/// A name with no, one or two subscripts: "a plain cell or an element".
#[derive(Clone, Debug, PartialEq, Eq)]
pub struct Reference {
    pub name: Name,
    pub subscripts: Vec<Subscript>,
}

impl Reference {
    /// Whether it is the plain name.
    pub fn is_plain(&self, name: &str) -> bool {
        self.subscripts.is_empty() && self.name == name
    }
}

/// "`v`, `c`, `v+c`, `v-c`, `c*v`, `c*v+c` or `c*v-c`"
#[derive(Clone, Debug, PartialEq, Eq)]
pub enum Subscript {
    Constant(u32),
    Linear { multiplier: u32, name: Name, addend: i64 },
}

/// "an optional sign, then terms joined by + -"
#[derive(Clone, Debug, PartialEq, Eq)]
pub struct Expression {
    pub minus: bool,
    pub first: Term,
    pub rest: Vec<(Sum, Term)>,
}

#[derive(Clone, Copy, Debug, PartialEq, Eq)]
pub enum Sum {
    Plus,
    Minus,
}

/// "factors joined by * /"
#[derive(Clone, Debug, PartialEq, Eq)]
pub struct Term {
    pub first: Factor,
    pub rest: Vec<(Product, Factor)>,
}

#[derive(Clone, Copy, Debug, PartialEq, Eq)]
pub enum Product {
    Times,
    Over,
}

#[derive(Clone, Debug, PartialEq, Eq)]
pub enum Factor {
    Constant(u32),
    Reference(Reference),
    Parenthesis(Box<Expression>),
}

impl Form {
    /// How deep its parentheses go: "an IF's and an element's not counted".
    pub fn levels(&self) -> usize {
        match self {
            Form::Assign { value, .. } | Form::If { value, .. } => levels(value),
            _ => 0,
        }
    }
}

fn levels(expression: &Expression) -> usize {
    let terms = expression.rest.iter().map(|(_, term)| term).chain([&expression.first]);
    let factors = terms.flat_map(|term| term.rest.iter().map(|(_, factor)| factor).chain([&term.first]));
    let level = |factor: &Factor| match factor {
        Factor::Parenthesis(inner) => levels(inner) + 1,
        _ => 0,
    };
    factors.map(level).max().unwrap_or(0)
}
