//! Names to numbers. Strict: a name that is not declared is a fault, and never makes a constant.
use crate::convert::Convert;
use crate::lexer::{fault, Fault};
use crate::names::{nearest, Names};
use crate::print;
use crate::syntax::*;
use secpal::limits;

/// The numbers of the variables of an assertion or a request, in the order of the numbers.
pub type VariableNames = Vec<(u8, String)>;

/// Which variables are written by number: a name takes a number that is not among them.
#[derive(Default)]
struct Gather {
    used: [bool; limits::VARIABLES],
}

impl Gather {
    fn note(&mut self, variable: &Variable) {
        if let Variable::Numbered(number) = variable {
            self.used[*number as usize] = true;
        }
    }
}

impl Convert<Text, Numbers> for Gather {
    type Error = Fault;

    fn expression(&mut self, expression: &At<Name>) -> Result<u16, Fault> {
        if let Name::Variable(variable) = &expression.it {
            self.note(variable);
        }
        Ok(0)
    }

    fn verb(&mut self, _: &At<VerbName>) -> Result<u8, Fault> {
        Ok(0)
    }

    fn variable(&mut self, variable: &At<Variable>) -> Result<u8, Fault> {
        self.note(&variable.it);
        Ok(0)
    }
}

/// Within one assertion, request, withdrawal or family.
struct Resolver<'a> {
    names: &'a mut Names,
    /// in a policy days and quantities need no declaration; the other slices have those of their policy alone
    grows: bool,
    used: [bool; limits::VARIABLES],
    variables: VariableNames,
}

impl<'a> Resolver<'a> {
    fn new(names: &'a mut Names, grows: bool, gathered: Gather) -> Resolver<'a> {
        Resolver { names, grows, used: gathered.used, variables: vec![] }
    }

    fn numbered(&mut self, variable: &Variable, span: Span) -> Result<u8, Fault> {
        let name = match variable {
            Variable::Numbered(number) => return Ok(*number),
            Variable::Named(name) => name,
        };
        if let Some((number, _)) = self.variables.iter().find(|(_, known)| known == name) {
            return Ok(*number);
        }
        let Some(number) = self.used.iter().position(|used| !used) else {
            return fault(span, format!("this is one variable too many: at most {}", limits::VARIABLES));
        };
        self.used[number] = true;
        self.variables.push((number as u8, name.clone()));
        Ok(number as u8)
    }

    /// `no principal is declared as "Noth"`, or for a request that the policy has none.
    fn missing(&self, what: &str, name: &str) -> String {
        match self.grows {
            true => format!("no {what} is declared as {name}"),
            false => format!("the policy has no {what} {name}"),
        }
    }

    fn labelled(&self, kind: Option<Kind>, label: &str, span: Span) -> Result<u16, Fault> {
        use KindOfLabel::{Principal, Thing};
        let principal = self.names.labelled(Principal, label);
        let thing = self.names.labelled(Thing, label);
        let written = print::label(label);
        let (what, kinds, found) = match kind {
            None => ("principal or thing", &[Principal, Thing][..], principal.or(thing)),
            Some(Kind::Thing) => ("thing", &[Thing][..], thing),
            Some(_) => ("principal", &[Principal][..], principal),
        };
        match found {
            None => fault(span, self.missing(what, &written) + &nearest(label, &self.names.labels(kinds))),
            Some(_) if kind.is_none() && self.names.shared(label) => {
                fault(span, format!("{written} is a principal and a thing: write principal {written} or thing {written}"))
            }
            Some(_) if kind.is_some() && !self.names.shared(label) => {
                fault(span, format!("a kind stands before a name only where a principal and a thing share it: write {written}"))
            }
            Some(number) => Ok(number),
        }
    }

    fn valued(&mut self, constant: Constant, span: Span) -> Result<u16, Fault> {
        match self.names.number(&constant) {
            Some(number) => Ok(number),
            None if self.grows && self.names.constants.len() < limits::CONSTANTS => Ok(self.names.add(constant)),
            None if self.grows => fault(span, too_many("a policy", "constants", limits::CONSTANTS)),
            None => fault(span, self.missing(constant.kind().word(), &print::constant(&constant))),
        }
    }
}

impl Convert<Text, Numbers> for Resolver<'_> {
    type Error = Fault;

    fn expression(&mut self, expression: &At<Name>) -> Result<u16, Fault> {
        let span = expression.span;
        match &expression.it {
            Name::Label(kind, label) => self.labelled(*kind, label, span),
            Name::Day(day) => self.valued(Constant::Day(*day), span),
            Name::Quantity(quantity) => self.valued(Constant::Quantity(*quantity), span),
            Name::Variable(variable) => Ok(VARIABLE + self.numbered(variable, span)? as u16),
            Name::Today => Ok(TODAY),
        }
    }

    fn verb(&mut self, verb: &At<VerbName>) -> Result<u8, Fault> {
        let VerbName::Label(label) = &verb.it else { return Ok(0) };
        match self.names.verb(label) {
            Some(number) => Ok(number),
            None => {
                let all: Vec<&str> = self.names.verbs.iter().map(|v| v.label.as_str()).collect();
                fault(verb.span, self.missing("verb", &print::label(label)) + &nearest(label, &all))
            }
        }
    }

    fn verb_with(&mut self, verb: &At<VerbName>, parameters: &[At<Name>]) -> Result<u8, Fault> {
        let number = self.verb(verb)?;
        let kinds = self.names.kinds(number).unwrap_or_default();
        match kinds.len() == parameters.len() {
            true => Ok(number),
            false => fault(verb.span, format!("{}, and here stand {}", print::parameters(&verb.it, kinds), parameters.len())),
        }
    }

    fn variable(&mut self, variable: &At<Variable>) -> Result<u8, Fault> {
        self.numbered(&variable.it, variable.span)
    }
}

fn too_many(whole: &str, what: &str, most: usize) -> String {
    format!("this is one too many: {whole} has at most {most} {what}")
}

fn at_most<T>(items: &[T], most: usize, (whole, what): (&str, &str), span: impl Fn(&T) -> Span) -> Result<(), Fault> {
    match items.get(most) {
        Some(item) => fault(span(item), too_many(whole, what, most)),
        None => Ok(()),
    }
}

/// A policy in numbers, with the names that they stand for.
pub fn policy(text: &Policy<Text>) -> Result<(Policy<Numbers>, Names), Fault> {
    at_most(&text.constants, limits::CONSTANTS, ("a policy", "constants"), |c| c.span)?;
    at_most(&text.verbs, limits::VERBS, ("a policy", "verbs"), |v| v.span)?;
    at_most(&text.assertions, limits::ASSERTIONS, ("a policy", "statements"), |a| a.span)?;
    let declared = text.constants.iter().map(|at| at.it.clone()).collect();
    let mut names = Names::new(declared, text.verbs.iter().map(|at| at.it.clone()).collect());
    let mut assertions = vec![];
    for assertion in &text.assertions {
        let mut gather = Gather::default();
        gather.assertion(assertion)?;
        assertions.push(Resolver::new(&mut names, true, gather).assertion(assertion)?);
    }
    let mut constants = text.constants.clone();
    for constant in &names.constants[constants.len()..] {
        constants.push(At { it: constant.clone(), span: Span::default() });
    }
    Ok((Policy { version: text.version.clone(), constants, verbs: text.verbs.clone(), assertions }, names))
}

/// A request in numbers, with its variables' names.
pub fn request(names: &Names, text: &Request<Text>) -> Result<(Request<Numbers>, VariableNames), Fault> {
    let mut gather = Gather::default();
    gather.node(&text.node)?;
    let mut names = names.clone();
    let mut resolver = Resolver::new(&mut names, false, gather);
    let node = resolver.node(&text.node)?;
    Ok((Request { version: text.version.clone(), today: text.today.clone(), node }, resolver.variables))
}

/// Withdrawals in numbers. They have the constants of their policy alone, as a request has.
pub fn withdrawals(names: &Names, text: &Withdrawals<Text>) -> Result<Withdrawals<Numbers>, Fault> {
    at_most(&text.entries, limits::WITHDRAWALS, ("a file", "withdrawals"), |entry| entry.span)?;
    let mut names = names.clone();
    let mut entries = vec![];
    for entry in &text.entries {
        let mut gather = Gather::default();
        gather.withdrawal(entry)?;
        entries.push(Resolver::new(&mut names, false, gather).withdrawal(entry)?);
    }
    Ok(Withdrawals { version: text.version.clone(), entries })
}

/// A hierarchy in numbers, with the constants of its policy alone.
pub fn hierarchy(names: &Names, text: &Hierarchy<Text>) -> Result<Hierarchy<Numbers>, Fault> {
    let children: Vec<&At<Name>> = text.families.iter().flat_map(|family| &family.children).collect();
    at_most(&children, limits::HIERARCHY, ("a file", "members of families"), |child| child.span)?;
    let mut names = names.clone();
    let mut families = vec![];
    for family in &text.families {
        let mut gather = Gather::default();
        gather.family(family)?;
        families.push(Resolver::new(&mut names, false, gather).family(family)?);
    }
    Ok(Hierarchy { version: text.version.clone(), families })
}

/// The number of a constant that stands in a file of expectations.
pub fn constant(names: &Names, name: &At<Name>) -> Result<u16, Fault> {
    if matches!(name.it, Name::Variable(_) | Name::Today) {
        return fault(name.span, "a constant is wanted here");
    }
    Resolver::new(&mut names.clone(), false, Gather::default()).expression(name)
}
