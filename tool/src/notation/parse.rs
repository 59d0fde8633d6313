//! Reads a text: its context, machines and events. Formulas are read by `formulas`.

use crate::names::INITIALISATION;
use crate::notation::syntax::*;
use crate::notation::token::{quoted, shown, tokens, Placed, Token};
use crate::notation::Mistake;
use crate::table::{class, tag, BOOLEAN, INTEGER};
use std::collections::{HashMap, HashSet};

/// Words that begin or end a part of a text; none is a name.
const KEYWORDS: [&str; 28] = [
    "context",
    "constants",
    "axioms",
    "machine",
    "refines",
    "sees",
    "variables",
    "invariants",
    "variant",
    "events",
    "event",
    "ordinary",
    "convergent",
    "anticipated",
    "any",
    "where",
    "when",
    "with",
    "then",
    "begin",
    "end",
    "numbering",
    "bool",
    "theorem",
    "theorems",
    "extends",
    "TRUE",
    "FALSE",
];

/// Reads tokens one after another.
pub struct Parser {
    tokens: Vec<Placed>,
    place: usize,
    /// The names that formulas mention, and their places in this list.
    pub names: Vec<String>,
    pub name_places: HashMap<String, usize>,
    /// How deep the formula that is being read is nested, and how many operators it has.
    pub depth: usize,
    pub size: usize,
}

type Read<T> = Result<T, Mistake>;

/// What a text says.
pub fn parse(text: &str) -> Read<Text> {
    let mut parser = Parser {
        tokens: tokens(text)?,
        place: 0,
        names: vec![],
        name_places: HashMap::new(),
        depth: 0,
        size: 0,
    };
    let mut read = parser.text()?;
    read.names = parser.names;
    Ok(read)
}

impl Parser {
    pub fn token(&self) -> &Token {
        &self.tokens[self.place].token
    }

    pub fn at(&self) -> usize {
        self.tokens[self.place].at
    }

    /// Goes on to the next token; past the end there is none.
    pub fn step(&mut self) {
        self.place = (self.place + 1).min(self.tokens.len() - 1);
    }

    /// What stands here isn't what was expected.
    pub fn expected<T>(&self, what: &str) -> Read<T> {
        let keyword = match self.token() {
            Token::Word(_) if !self.at_name() => "the keyword ",
            _ => "",
        };
        let found = shown(self.token());
        Err(Mistake::new(
            self.at(),
            &format!("expected {what}, found {keyword}{found}"),
        ))
    }

    /// Whether the keyword stands here, in small or in capital letters.
    fn at_keyword(&self, keyword: &str) -> bool {
        match self.token() {
            Token::Word(word) => word == keyword || *word == keyword.to_uppercase(),
            _ => false,
        }
    }

    /// Goes over the keyword, if it stands here.
    pub fn take(&mut self, keyword: &str) -> bool {
        let found = self.at_keyword(keyword);
        if found {
            self.step();
        }
        found
    }

    /// Goes over the sign, if it stands here.
    pub fn take_sign(&mut self, sign: &str) -> bool {
        let found = matches!(self.token(), Token::Sign(here, _) if *here == sign);
        if found {
            self.step();
        }
        found
    }

    fn need(&mut self, keyword: &str, what: &str) -> Read<()> {
        match self.take(keyword) {
            true => Ok(()),
            false => self.expected(what),
        }
    }

    /// A word that is no keyword.
    pub fn at_name(&self) -> bool {
        matches!(self.token(), Token::Word(_)) && !KEYWORDS.iter().any(|word| self.at_keyword(word))
    }

    pub fn name(&mut self, what: &str) -> Read<Name> {
        let at = self.at();
        match self.token().clone() {
            Token::Word(text) if self.at_name() => {
                self.step();
                Ok(Name { text, at })
            }
            _ => self.expected(what),
        }
    }

    fn text(&mut self) -> Read<Text> {
        let mut text = Text::default();
        if self.take("context") {
            text.context = self.context()?;
        }
        while self.take("machine") {
            if text.machines.len() == 2 {
                let message =
                    "a text has one machine and one refinement of it; this is a third machine";
                return Err(Mistake::new(self.at(), message));
            }
            let machine = self.machine(&text)?;
            text.machines.push(machine);
        }
        if self.take("numbering") {
            text.numbering = self.numbering()?;
        }
        match (self.token(), text.machines.len()) {
            (Token::End, 1..) => Ok(text),
            (_, 0) if text.context.name.is_empty() => self.expected("`context` or `machine`"),
            (_, 0) => self.expected("`machine`, after the context"),
            (_, 1) => self.expected("`machine`, for the refinement, or the end of the text"),
            _ => self.expected("the end of the text, after two machines"),
        }
    }

    fn context(&mut self) -> Read<Context> {
        let name = self.name("the context's name")?.text;
        let mut context = Context {
            name,
            ..Context::default()
        };
        if self.take("constants") {
            context.constants = self.declared("a constant's name")?;
        }
        if self.take("axioms") {
            context.axioms = self.labelled()?;
        }
        self.need(
            "end",
            "the context's next part (`constants`, `axioms`, in this order) or its `end`",
        )?;
        Ok(context)
    }

    /// The machine after its keyword; `text` has what stands before it.
    fn machine(&mut self, text: &Text) -> Read<Machine> {
        let name = self.name("the machine's name")?;
        let first = text.machines.first();
        if first.is_some_and(|first| first.name.text == name.text) {
            let message = format!("{} is the name of the first machine", quoted(&name.text));
            return Err(Mistake::new(name.at, &message));
        }
        self.machine_heads(text)?;
        let mut machine = Machine {
            name,
            variables: vec![],
            invariants: vec![],
            variant: None,
            events: vec![],
        };
        if self.take("variables") {
            machine.variables = self.declared("a variable's name")?;
        }
        if self.take("invariants") {
            machine.invariants = self.labelled()?;
        }
        if self.at_keyword("variant") && text.machines.is_empty() {
            let message = "a variant belongs to the refinement, the second machine";
            return Err(Mistake::new(self.at(), message));
        }
        if self.take("variant") {
            machine.variant = Some(self.variant()?);
        }
        let what = match self.take("events") {
            true => {
                machine.events = self.events()?;
                "`event` or the machine's `end`"
            }
            false => "the machine's next part (`variables`, `invariants`, `variant`, `events`, in this order) or its `end`",
        };
        self.need("end", what)?;
        Ok(machine)
    }

    /// `refines` with the abstract machine's name, and `sees` with the context's, in any order.
    fn machine_heads(&mut self, text: &Text) -> Read<()> {
        let first = text.machines.first().map(|machine| &machine.name.text);
        let context = Some(&text.context.name).filter(|name| !name.is_empty());
        let mut refines = false;
        loop {
            if self.take("refines") {
                refines = true;
                self.name_of("the machine before this one", first)?;
            } else if self.take("sees") {
                self.name_of("the context", context)?;
            } else {
                break;
            }
        }
        match first {
            Some(first) if !refines => {
                let what = format!("`refines {first}` (the second machine refines the first)");
                self.expected(&what)
            }
            _ => Ok(()),
        }
    }

    /// The name of something that stands before, if it does.
    fn name_of(&mut self, what: &str, wanted: Option<&String>) -> Read<()> {
        let name = self.name(&format!("the name of {what}"))?;
        if wanted == Some(&name.text) {
            return Ok(());
        }
        let wanted = match wanted {
            Some(wanted) => format!("its name is {}", quoted(wanted)),
            None => "there is none".to_string(),
        };
        let message = format!("{} isn't {what}: {wanted}", quoted(&name.text));
        Err(Mistake::new(name.at, &message))
    }

    /// The variant, whose label may be left out.
    fn variant(&mut self) -> Read<Labelled> {
        match self.token() {
            Token::Label(_) => self.one_labelled(),
            _ => Ok(Labelled {
                label: Name {
                    text: "variant".to_string(),
                    at: self.at(),
                },
                formula: self.formula()?,
            }),
        }
    }

    /// Names with their types: `a, b ∈ ℤ  c ∈ BOOL`.
    fn declared(&mut self, what: &str) -> Read<Vec<Declared>> {
        let mut declared = Vec::new();
        let mut names = vec![self.name(what)?];
        loop {
            let comma = self.take_sign(",");
            if comma || self.at_name() {
                names.push(self.name(what)?);
                continue;
            }
            if !self.take_sign("∈") {
                return self.expected("`∈` (or `:`) and the type, ℤ (INT) or BOOL");
            }
            let of_type = self.type_number()?;
            let typed = names.drain(..).map(|name| Declared { name, of_type });
            declared.extend(typed);
            let comma = self.take_sign(",");
            match comma || self.at_name() {
                true => names.push(self.name(what)?),
                false => return Ok(declared),
            }
        }
    }

    fn type_number(&mut self) -> Read<i64> {
        if self.take_sign("ℤ") {
            return Ok(INTEGER);
        }
        if self.take("BOOL") {
            return Ok(BOOLEAN);
        }
        self.expected("a type, ℤ (INT) or BOOL")
    }

    /// Formulas that each begin with a label.
    fn labelled(&mut self) -> Read<Vec<Labelled>> {
        let mut labels = HashSet::new();
        let mut all: Vec<Labelled> = Vec::new();
        while all.is_empty() || self.at_label() {
            let one = self.one_labelled()?;
            once(&mut labels, &one.label)?;
            all.push(one);
        }
        Ok(all)
    }

    fn one_labelled(&mut self) -> Read<Labelled> {
        let label = self.label()?;
        let formula = self.formula()?;
        Ok(Labelled { label, formula })
    }

    /// Whether a label stands here, or a theorem, which has none of its own.
    fn at_label(&self) -> bool {
        matches!(self.token(), Token::Label(_)) || self.at_theorem()
    }

    fn at_theorem(&self) -> bool {
        self.at_keyword("theorem") || self.at_keyword("theorems")
    }

    fn label(&mut self) -> Read<Name> {
        let at = self.at();
        if self.at_theorem() {
            return Err(Mistake::new(
                at,
                "theorems are left out: state it as an axiom, an invariant or a guard",
            ));
        }
        match self.token().clone() {
            Token::Label(text) => {
                self.step();
                Ok(Name { text, at })
            }
            _ => self.expected("a label, such as @inv1, before the formula"),
        }
    }

    fn events(&mut self) -> Read<Vec<Event>> {
        let mut names = HashSet::new();
        let mut events: Vec<Event> = Vec::new();
        loop {
            let status = ["ordinary", "convergent", "anticipated"];
            let class = status.into_iter().position(|word| self.take(word));
            if class.is_none() && !self.at_keyword("event") {
                return Ok(events);
            }
            self.need("event", "`event` after its status")?;
            let event = self.event(class.map_or(class::ORDINARY, |place| place as i64 + 1))?;
            if event.class == class::INITIALISATION && class.is_some_and(|place| place > 0) {
                return Err(Mistake::new(
                    event.name.at,
                    "INITIALISATION is neither convergent nor anticipated",
                ));
            }
            once(&mut names, &event.name)?;
            events.push(event);
        }
    }

    /// The event after its keyword.
    fn event(&mut self, class: i64) -> Read<Event> {
        let name = self.name("the event's name")?;
        let initial = name.text.eq_ignore_ascii_case(INITIALISATION);
        let mut event = Event {
            name,
            class: if initial {
                class::INITIALISATION
            } else {
                class
            },
            refines: self.refined_event()?,
            parameters: vec![],
            guards: vec![],
            witnesses: vec![],
            actions: vec![],
        };
        if self.take("any") {
            event.parameters = self.declared("a parameter's name")?;
        }
        if self.take("where") || self.take("when") {
            event.guards = self.labelled()?;
        }
        if self.take("with") {
            event.witnesses = self.labelled()?;
        }
        if self.take("then") || self.take("begin") {
            event.actions = self.actions()?;
        }
        self.need(
            "end",
            "the event's next part (`any`, `where`, `with`, `then`, in this order) or its `end`",
        )?;
        Ok(event)
    }

    /// The name of the event that an event refines, if it says so.
    fn refined_event(&mut self) -> Read<Option<Name>> {
        if self.at_keyword("extends") {
            let message =
                "`extends` isn't known here: write `refines`, and the guards and actions out";
            return Err(Mistake::new(self.at(), message));
        }
        match self.take("refines") {
            true => self.name("the name of the event that it refines").map(Some),
            false => Ok(None),
        }
    }

    fn actions(&mut self) -> Read<Vec<Action>> {
        let mut labels = HashSet::new();
        let mut actions: Vec<Action> = Vec::new();
        while actions.is_empty() || self.at_label() {
            let action = self.action()?;
            once(&mut labels, &action.body.label)?;
            actions.push(action);
        }
        Ok(actions)
    }

    fn action(&mut self) -> Read<Action> {
        let label = self.label()?;
        let variable = self.name("the name of the variable that the action sets")?;
        let tag = if self.take_sign("≔") {
            tag::BECOMES_EQUAL
        } else if self.take_sign(":∣") {
            tag::BECOMES_SUCH
        } else {
            return self
                .expected("`≔` (or `:=`) and an expression, or `:∣` (or `:|`) and a predicate");
        };
        let formula = self.formula()?;
        Ok(Action {
            variable,
            tag,
            body: Labelled { label, formula },
        })
    }

    /// Lists of numbers, each after the name of its part.
    fn numbering(&mut self) -> Read<Vec<Numbers>> {
        let mut lists: Vec<Numbers> = Vec::new();
        while !self.take("end") {
            let at = self.at();
            let Some(part) = Part::ALL.into_iter().find(|part| self.take(part.word())) else {
                return self
                    .expected("`identifiers`, `nodes`, `guards`, `actions`, `witnesses` or `end`");
            };
            if lists.iter().any(|list| list.part == part) {
                return Err(Mistake::new(at, &format!("`{}` stands twice", part.word())));
            }
            let mut numbers = Vec::new();
            while let Token::Number(digits) = self.token() {
                // a number too long to be one is none of the table's
                numbers.push(digits.parse().unwrap_or(usize::MAX));
                self.step();
            }
            lists.push(Numbers { part, numbers, at });
        }
        Ok(lists)
    }
}

/// A label or a name stands once in its list.
fn once(seen: &mut HashSet<String>, name: &Name) -> Read<()> {
    match seen.insert(name.text.clone()) {
        true => Ok(()),
        false => Err(Mistake::new(
            name.at,
            &format!("{} stands twice in this list", quoted(&name.text)),
        )),
    }
}
