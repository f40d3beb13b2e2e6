//! A refusal of the engine in words, at the part of the text that it is about. The engine judges; this only says what a person should look at.
use crate::names::Names;
use crate::syntax::*;
use crate::{print, unresolve};
use secpal::limits;

pub type Words = (Span, String);

/// What the refusals say where nothing closer is known.
pub fn general(number: u32) -> &'static str {
    match number {
        limits::BAD_VERSION => "the version is absent or not known",
        limits::BAD_LENGTH => "the length field is short or wrong",
        limits::BAD_FORM => "a count, arity, kind, label, nest, depth, operator, node, variable, day or length has no meaning",
        limits::ALIKE => "this is alike to an earlier one",
        limits::NO_FIT => "a name, a kind or a verb does not fit",
        limits::UNSAFE_ASSERTION => "the statement is not safe",
        limits::UNSAFE_REQUEST => {
            "the request is not safe: each variable must be made known by a flat \"says\" before \"can say\", a constraint or \"not\" uses it, \
             every part of an any(..) must make known what stands behind it, and an exists has a variable of its own"
        }
        limits::TOO_MANY_FACTS => "more facts are derivable than there is room for",
        limits::TOO_MANY_ANSWERS => "there are more answers than there is room for",
        limits::OPEN_WITHDRAWAL => "a withdrawal has a variable",
        limits::OWN_CHILD => "a family has itself as a member",
        _ => "refused",
    }
}

fn label_words(label: &str) -> Option<String> {
    let length = label.len();
    (!(1..=limits::LABEL).contains(&length)).then(|| format!("a label has 1 to {} characters, and this one has {length}", limits::LABEL))
}

fn too_many(count: usize, most: usize, what: &str) -> Option<String> {
    (count > most).then(|| format!("there are at most {most} {what}, and here are {count}"))
}

fn nest_words(fact: &Fact<Numbers>) -> Option<String> {
    too_many(fact.speakers.len(), limits::NEST, "\"can say\" inside each other")
}

/// What is wrong with the item that stands at `span` of a policy's text.
pub fn policy(policy: &Policy<Numbers>, names: &Names, number: u32, span: Span) -> Words {
    let words = || {
        if policy.constants.is_empty() {
            return Some((span, "a policy declares one constant or more".to_string()));
        }
        if let Some(constant) = policy.constants.iter().find(|c| c.span == span) {
            return constant_words(&constant.it, names, number).map(|words| (span, words));
        }
        if let Some(verb) = policy.verbs.iter().find(|v| v.span == span) {
            return verb_words(&verb.it, names, number).map(|words| (span, words));
        }
        let assertion = policy.assertions.iter().find(|a| a.span == span)?;
        match number {
            limits::BAD_FORM => assertion_form(assertion).map(|words| (span, words)),
            limits::NO_FIT => Fit::new(names).assertion(assertion).err(),
            _ => unsafe_assertion(assertion),
        }
    };
    words().unwrap_or((span, general(number).to_string()))
}

/// `the verb May is declared already`, and as what, where only capitals differ.
fn declared_already(what: &str, written: String, earlier: Option<String>) -> String {
    match earlier {
        Some(earlier) if earlier != written => {
            format!("the {what} {written} is declared already, as {earlier}: capitals do not tell labels apart")
        }
        _ => format!("the {what} {written} is declared already"),
    }
}

fn constant_words(constant: &Constant, names: &Names, number: u32) -> Option<String> {
    match constant {
        _ if number == limits::ALIKE => {
            let earlier = names.number(constant).map(|n| print::constant(&names.constants[n as usize]));
            Some(declared_already(constant.kind().word(), print::constant(constant), earlier))
        }
        Constant::Label(_, label) => label_words(label),
        _ => None,
    }
}

fn verb_words(verb: &Verb, names: &Names, number: u32) -> Option<String> {
    match number {
        limits::ALIKE => {
            let earlier = names.verb(&verb.label).map(|n| print::label(&names.verbs[n as usize - 1].label));
            Some(declared_already("verb", print::label(&verb.label), earlier))
        }
        _ => label_words(&verb.label).or(too_many(verb.kinds.len(), limits::ARITY, "parameters")),
    }
}

fn assertion_form(assertion: &Assertion<Numbers>) -> Option<String> {
    let nests = || std::iter::once(&assertion.head).chain(&assertion.body).find_map(nest_words);
    nests().or(too_many(assertion.body.len(), limits::BODY, "conditions after \"if\"")).or(too_many_constraints(&assertion.constraints))
}

fn too_many_constraints(constraints: &[Constraint<Numbers>]) -> Option<String> {
    too_many(constraints.len(), limits::CONSTRAINTS, "constraints after \"where\"")
}

/// What is wrong with the entry that stands at `span` of a text of withdrawals.
pub fn withdrawals(withdrawals: &Withdrawals<Numbers>, names: &Names, number: u32, span: Span) -> Words {
    let words = || {
        let entry = withdrawals.entries.iter().find(|entry| entry.span == span)?;
        match number {
            limits::BAD_FORM => too_many_constraints(&entry.constraints).map(|words| (span, words)),
            limits::NO_FIT => Fit::new(names).withdrawal(entry).err(),
            limits::OPEN_WITHDRAWAL => open_withdrawal(entry),
            _ => None,
        }
    };
    words().unwrap_or((span, general(number).to_string()))
}

fn open_withdrawal(entry: &Withdrawal<Numbers>) -> Option<Words> {
    let tested = entry.constraints.iter().flat_map(|c| [&c.left, &c.right]);
    let open = std::iter::once(&entry.issuer).chain(tested).find(is_variable)?;
    Some((open.span, "a withdrawal has no variables".to_string()))
}

/// What is wrong with the node, or with today, at `span` of a request's text.
pub fn request(request: &Request<Numbers>, names: &Names, number: u32, span: Span) -> Words {
    let general = (span, general(number).to_string());
    match number {
        limits::BAD_FORM => node_form(&request.node, 1, span).map_or(general, |words| (span, words)),
        limits::NO_FIT => Fit::new(names).node(&request.node).err().unwrap_or(general),
        _ => general,
    }
}

fn node_form(node: &Node<Numbers>, depth: usize, span: Span) -> Option<String> {
    if depth > limits::DEPTH {
        return Some(format!("parts stand at most {} deep", limits::DEPTH));
    }
    let here = node.span == span;
    match &node.part {
        Part::Says(_, fact) if here => nest_words(fact),
        Part::All(parts) | Part::Any(parts) if here && parts.len() > limits::PARTS => too_many(parts.len(), limits::PARTS, "parts"),
        Part::All(parts) | Part::Any(parts) => parts.iter().find_map(|part| node_form(part, depth + 1, span)),
        Part::Not(inner) | Part::Exists(_, inner) => node_form(inner, depth + 1, span),
        Part::Says(..) | Part::Constraint(_) => None,
    }
}

/// What is wrong with the child that stands at `span` of a text of families, or with its family.
pub fn hierarchy(hierarchy: &Hierarchy<Numbers>, names: &Names, number: u32, span: Span) -> Words {
    let child = |family: &Family<Numbers>| family.children.iter().find(|child| child.span == span).cloned();
    let found = hierarchy.families.iter().find_map(|family| Some((family, child(family)?)));
    let words = match (number, found) {
        (limits::NO_FIT, Some((family, child))) => Fit::new(names).family(family, &child).err(),
        _ => None,
    };
    words.unwrap_or((span, general(number).to_string()))
}

// ---- kinds

/// The kinds of variables so far, from front to back.
struct Fit<'a> {
    names: &'a Names,
    kinds: [Option<Kind>; limits::VARIABLES],
}

impl<'a> Fit<'a> {
    fn new(names: &'a Names) -> Fit<'a> {
        Fit { names, kinds: [None; limits::VARIABLES] }
    }

    fn kind(&self, expression: u16) -> Option<Kind> {
        match expression {
            TODAY => Some(Kind::Day),
            number if number >= VARIABLE => self.kinds[(number - VARIABLE) as usize],
            number => self.names.constants.get(number as usize).map(Constant::kind),
        }
    }

    /// An expression that must be of one of these kinds.
    fn want(&mut self, expression: &At<u16>, kinds: &[Kind]) -> Result<(), Words> {
        let words: Vec<&str> = kinds.iter().map(|kind| kind.word()).collect();
        let wanted = format!("a {} is wanted here", words.join(" or a "));
        match self.kind(expression.it) {
            Some(kind) if kinds.contains(&kind) => Ok(()),
            Some(kind) if expression.it >= VARIABLE => {
                Err((expression.span, format!("{wanted}, and elsewhere this variable stands for a {}", kind.word())))
            }
            Some(kind) => Err((expression.span, format!("{wanted}, and this is a {}", kind.word()))),
            None if expression.it >= VARIABLE && kinds.len() == 1 => {
                self.kinds[(expression.it - VARIABLE) as usize] = Some(kinds[0]);
                Ok(())
            }
            None => Ok(()),
        }
    }

    /// A place in a fact: today may not stand there.
    fn place(&mut self, expression: &At<u16>, kind: Kind) -> Result<(), Words> {
        match expression.it {
            TODAY => Err((expression.span, "today stands in constraints alone".to_string())),
            _ => self.want(expression, &[kind]),
        }
    }

    fn fact(&mut self, fact: &Fact<Numbers>) -> Result<(), Words> {
        for speaker in &fact.speakers {
            self.place(&speaker.who, Kind::Principal)?;
        }
        self.place(&fact.subject, Kind::Principal)?;
        let kinds = self.names.kinds(fact.verb.it).unwrap_or_default().to_vec();
        fact.parameters.iter().zip(kinds).try_for_each(|(parameter, kind)| self.place(parameter, kind))
    }

    fn constraint(&mut self, constraint: &Constraint<Numbers>) -> Result<(), Words> {
        let kinds: &[Kind] = match constraint.operator {
            3 => &[Kind::Day, Kind::Quantity],
            4 => &[Kind::Thing],
            5 => &[Kind::Day],
            _ => &Kind::ALL,
        };
        self.want(&constraint.left, kinds)?;
        self.want(&constraint.right, kinds)?;
        match (self.kind(constraint.left.it), self.kind(constraint.right.it)) {
            (Some(kind), _) => self.want(&constraint.right, &[kind]),
            (None, Some(kind)) => self.want(&constraint.left, &[kind]),
            (None, None) => Ok(()),
        }
    }

    fn assertion(&mut self, assertion: &Assertion<Numbers>) -> Result<(), Words> {
        if assertion.issuer.it >= TODAY {
            return Err((assertion.issuer.span, "the issuer of a statement is a principal by name".to_string()));
        }
        self.place(&assertion.issuer, Kind::Principal)?;
        self.fact(&assertion.head)?;
        assertion.body.iter().try_for_each(|fact| self.fact(fact))?;
        assertion.constraints.iter().try_for_each(|constraint| self.constraint(constraint))
    }

    fn withdrawal(&mut self, entry: &Withdrawal<Numbers>) -> Result<(), Words> {
        self.place(&entry.issuer, Kind::Principal)?;
        entry.constraints.iter().try_for_each(|constraint| self.constraint(constraint))
    }

    fn family(&mut self, family: &Family<Numbers>, child: &At<u16>) -> Result<(), Words> {
        let verb = match family.verb.it {
            0 => return Err((family.verb.span, "\"can act as\" has no families".to_string())),
            number => &self.names.verbs[number as usize - 1],
        };
        let Some(kind) = usize::from(family.position.it).checked_sub(1).and_then(|i| verb.kinds.get(i)).copied() else {
            return Err((family.position.span, print::parameters(&VerbName::Label(verb.label.clone()), &verb.kinds)));
        };
        for member in [&family.parent, child] {
            if member.it >= TODAY {
                return Err((member.span, "a family has constants alone".to_string()));
            }
            self.place(member, kind)?;
        }
        Ok(())
    }

    fn node(&mut self, node: &Node<Numbers>) -> Result<(), Words> {
        match &node.part {
            Part::Says(issuer, fact) => {
                self.place(issuer, Kind::Principal)?;
                self.fact(fact)
            }
            Part::Constraint(constraint) => self.constraint(constraint),
            Part::All(parts) | Part::Any(parts) => parts.iter().try_for_each(|part| self.node(part)),
            Part::Not(inner) | Part::Exists(_, inner) => self.node(inner),
        }
    }
}

// ---- safety of statements

fn is_variable(expression: &&At<u16>) -> bool {
    expression.it >= VARIABLE
}

fn expressions(fact: &Fact<Numbers>) -> impl Iterator<Item = &At<u16>> {
    fact.speakers.iter().map(|s| &s.who).chain([&fact.subject]).chain(&fact.parameters)
}

fn unsafe_assertion(assertion: &Assertion<Numbers>) -> Option<Words> {
    if let Some(nested) = assertion.body.iter().find(|fact| !fact.speakers.is_empty()) {
        return Some((nested.span, "a condition has no \"can say\"".to_string()));
    }
    let occurs = |wanted: &At<u16>, facts: &[Fact<Numbers>]| facts.iter().flat_map(expressions).any(|e| e.it == wanted.it);
    let heads: Vec<&At<u16>> = match assertion.head.speakers.first() {
        Some(outermost) => vec![&outermost.who],
        None => expressions(&assertion.head).collect(),
    };
    if let Some(open) = heads.into_iter().filter(is_variable).find(|e| !occurs(e, &assertion.body)) {
        return Some((open.span, "this variable must occur in a condition after \"if\"".to_string()));
    }
    let tested = assertion.constraints.iter().flat_map(|c| [&c.left, &c.right]);
    let loose = tested.filter(is_variable).find(|e| !occurs(e, &assertion.body) && !occurs(e, std::slice::from_ref(&assertion.head)));
    loose.map(|e| (e.span, "this variable occurs neither in the statement's head nor in a condition".to_string()))
}

/// A constant in words, for answers and the reach.
pub fn constant(names: &Names, number: u16) -> String {
    let unresolver = unresolve::Unresolver { names, variables: &vec![] };
    unresolver.constant(number).map_or_else(|_| format!("constant {number}"), |name| print::expression(&name))
}
