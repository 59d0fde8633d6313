//! What a text says, as it is typed: names aren't looked up yet, and nothing is numbered.

use crate::formula::Formula;

/// A name, and the offset at which it is typed.
#[derive(Clone, Debug)]
pub struct Name {
    pub text: String,
    pub at: usize,
}

/// A constant, variable or parameter with its type.
#[derive(Clone, Debug)]
pub struct Declared {
    pub name: Name,
    pub of_type: i64,
}

/// A formula with its label. A leaf that mentions a name holds the name's place in `Text::names`.
#[derive(Clone, Debug)]
pub struct Labelled {
    pub label: Name,
    pub formula: Formula,
}

#[derive(Clone, Debug)]
pub struct Action {
    pub variable: Name,
    /// 51 becomes equal, 52 becomes such that.
    pub tag: i64,
    pub body: Labelled,
}

#[derive(Clone, Debug)]
pub struct Event {
    pub name: Name,
    pub class: i64,
    pub refines: Option<Name>,
    pub parameters: Vec<Declared>,
    pub guards: Vec<Labelled>,
    pub witnesses: Vec<Labelled>,
    pub actions: Vec<Action>,
}

#[derive(Clone, Debug, Default)]
pub struct Context {
    pub name: String,
    pub constants: Vec<Declared>,
    pub axioms: Vec<Labelled>,
}

#[derive(Clone, Debug)]
pub struct Machine {
    pub name: Name,
    pub variables: Vec<Declared>,
    pub invariants: Vec<Labelled>,
    pub variant: Option<Labelled>,
    pub events: Vec<Event>,
}

/// A part of the table that a text may number by itself.
#[derive(Clone, Copy, Debug, PartialEq, Eq)]
pub enum Part {
    Identifiers,
    Nodes,
    Guards,
    Actions,
    Witnesses,
}

impl Part {
    pub const ALL: [Part; 5] = [
        Part::Identifiers,
        Part::Nodes,
        Part::Guards,
        Part::Actions,
        Part::Witnesses,
    ];

    pub fn word(self) -> &'static str {
        match self {
            Part::Identifiers => "identifiers",
            Part::Nodes => "nodes",
            Part::Guards => "guards",
            Part::Actions => "actions",
            Part::Witnesses => "witnesses",
        }
    }
}

/// The numbers that a text gives the members of a part, in the order in which they would be numbered without.
#[derive(Clone, Debug)]
pub struct Numbers {
    pub part: Part,
    pub numbers: Vec<usize>,
    pub at: usize,
}

#[derive(Clone, Debug, Default)]
pub struct Text {
    pub context: Context,
    /// The abstract machine, then its refinement.
    pub machines: Vec<Machine>,
    pub numbering: Vec<Numbers>,
    /// The names that formulas mention.
    pub names: Vec<String>,
}
