//! A file of the language as it is written: its items in order, with its comments, for the compiler and for the formatter.
use crate::lexer::{fault, Comment, Token};
use crate::parser::{Parsed, Parser};
use crate::syntax::*;

#[derive(Debug, Clone)]
pub enum Item {
    Version(u8),
    Constants(Kind, Vec<At<Constant>>),
    Verb(Verb),
    Assertion(Assertion<Text>),
    Withdrawal(Withdrawal<Text>),
    Family(Family<Text>),
    Request(Request<Text>),
    Today(u32),
    Expectation(Expectation),
}

/// A line of a file of expectations.
#[derive(Debug, Clone)]
pub struct Expectation {
    pub today: At<u32>,
    pub node: Node<Text>,
    pub expected: Expected,
}

#[derive(Debug, Clone)]
pub enum Expected {
    Allow,
    Deny,
    /// each answer as its bindings
    Answers(Vec<Vec<(At<Variable>, At<Name>)>>),
}

#[derive(Debug, Clone)]
pub struct Document {
    pub items: Vec<At<Item>>,
    pub comments: Vec<Comment>,
}

/// The parts of a policy stand in this order.
#[derive(Debug, Clone, Copy, PartialEq, Eq, PartialOrd, Ord)]
pub enum Section {
    Version,
    Constants,
    Verbs,
    Statements,
}

impl Item {
    pub fn section(&self) -> Section {
        match self {
            Item::Version(_) => Section::Version,
            Item::Constants(..) => Section::Constants,
            Item::Verb(_) => Section::Verbs,
            Item::Assertion(_) | Item::Withdrawal(_) | Item::Family(_) => Section::Statements,
            Item::Request(_) | Item::Today(_) | Item::Expectation(_) => Section::Statements,
        }
    }
}

/// The version as the first item, where one is written.
fn version(p: &mut Parser) -> Parsed<Vec<At<Item>>> {
    let version = p.version()?;
    let written = version.span.end > version.span.start;
    Ok(if written { vec![At { it: Item::Version(version.it), span: version.span }] } else { vec![] })
}

pub fn policy(text: &str) -> Parsed<Document> {
    let mut p = Parser::new(text)?;
    let mut items = version(&mut p)?;
    while p.peek().token != Token::End {
        let start = p.peek().span;
        let last = items.last().map_or(Section::Version, |at| at.it.section());
        if let Some(kind) = p.declared_kind() {
            if last > Section::Constants {
                return fault(start, "constants are declared before the verbs and before the statements");
            }
            let constants = p.declaration(kind)?;
            let end = constants.last().map_or(start, |at| at.span);
            items.push(At { it: Item::Constants(kind, constants), span: start.to(end) });
        } else if p.is_word("verb") {
            if last > Section::Verbs {
                return fault(start, "verbs are declared before the statements");
            }
            let verb = p.verb()?;
            items.push(At { it: Item::Verb(verb.it), span: verb.span });
        } else {
            let assertion = p.assertion()?;
            let span = assertion.span;
            items.push(At { it: Item::Assertion(assertion), span });
        }
    }
    Ok(Document { items, comments: p.comments })
}

/// A text of sentences of one sort.
fn sentences(text: &str, sentence: impl Fn(&mut Parser) -> Parsed<At<Item>>) -> Parsed<Document> {
    let mut p = Parser::new(text)?;
    let mut items = version(&mut p)?;
    while p.peek().token != Token::End {
        items.push(sentence(&mut p)?);
    }
    Ok(Document { items, comments: p.comments })
}

pub fn withdrawals(text: &str) -> Parsed<Document> {
    sentences(text, |p| p.withdrawal().map(|withdrawal| At { span: withdrawal.span, it: Item::Withdrawal(withdrawal) }))
}

pub fn hierarchy(text: &str) -> Parsed<Document> {
    sentences(text, |p| p.family().map(|family| At { span: family.span, it: Item::Family(family) }))
}

pub fn request(text: &str) -> Parsed<Document> {
    let mut p = Parser::new(text)?;
    let version = p.version()?;
    let start = p.peek().span;
    let today = p.today()?;
    p.word("ask")?;
    let node = p.node()?;
    p.take_symbol(".");
    p.end()?;
    let span = start.to(node.span);
    let mut items = vec![At { it: Item::Request(Request { version: version.clone(), today, node }), span }];
    if version.it != 1 {
        items.insert(0, At { it: Item::Version(version.it), span: version.span });
    }
    Ok(Document { items, comments: p.comments })
}

pub fn expectations(text: &str) -> Parsed<Document> {
    let mut p = Parser::new(text)?;
    let mut items = vec![];
    let mut today: Option<At<u32>> = None;
    while p.peek().token != Token::End {
        let start = p.peek().span;
        if p.is_word("on") {
            let day = p.today()?;
            items.push(At { it: Item::Today(day.it), span: start.to(day.span) });
            today = Some(day);
            continue;
        }
        let Some(day) = today.clone() else { return p.wanted("\"on\" and a date") };
        let (node, expected) = expectation(&mut p)?;
        let end = p.symbol(".")?;
        items.push(At { it: Item::Expectation(Expectation { today: day, node, expected }), span: start.to(end) });
    }
    Ok(Document { items, comments: p.comments })
}

fn expectation(p: &mut Parser) -> Parsed<(Node<Text>, Expected)> {
    if p.take_word("allow") {
        return Ok((p.node()?, Expected::Allow));
    }
    if p.take_word("deny") {
        return Ok((p.node()?, Expected::Deny));
    }
    if !p.take_word("answers") {
        return p.wanted("\"on\", \"allow\", \"deny\" or \"answers\"");
    }
    let node = p.node()?;
    p.word("are")?;
    let mut answers = vec![];
    if !p.take_word("none") {
        answers.push(p.list(binding)?);
        while p.take_symbol(";") {
            answers.push(p.list(binding)?);
        }
    }
    Ok((node, Expected::Answers(answers)))
}

fn binding(p: &mut Parser) -> Parsed<(At<Variable>, At<Name>)> {
    let At { it: Name::Variable(variable), span } = p.expression("a variable")? else {
        return p.wanted("a variable before this");
    };
    p.symbol("=")?;
    Ok((At { it: variable, span }, p.expression("a constant")?))
}

/// A text of any sort: one that begins with `on DATE ask` is a request, with `on` alone a file of expectations, with `withdraw` withdrawals, with
/// `family` a hierarchy.
pub fn any(text: &str) -> Parsed<Document> {
    let mut p = Parser::new(text)?;
    p.version()?;
    if p.is_word("withdraw") {
        return withdrawals(text);
    }
    if p.is_word("family") {
        return hierarchy(text);
    }
    if !p.is_word("on") {
        return policy(text);
    }
    p.today()?;
    if p.is_word("ask") {
        request(text)
    } else {
        expectations(text)
    }
}

impl Document {
    /// The policy that a document of `policy` says.
    pub fn to_policy(&self) -> Policy<Text> {
        let mut policy = Policy { version: self.version(), constants: vec![], verbs: vec![], assertions: vec![] };
        for At { it, span } in &self.items {
            match it {
                Item::Constants(_, constants) => policy.constants.extend(constants.iter().cloned()),
                Item::Verb(verb) => policy.verbs.push(At { it: verb.clone(), span: *span }),
                Item::Assertion(assertion) => policy.assertions.push(assertion.clone()),
                _ => {}
            }
        }
        policy
    }

    /// The withdrawals that a document of `withdrawals` says.
    pub fn to_withdrawals(&self) -> Withdrawals<Text> {
        let entry = |at: &At<Item>| match &at.it {
            Item::Withdrawal(withdrawal) => Some(withdrawal.clone()),
            _ => None,
        };
        Withdrawals { version: self.version(), entries: self.items.iter().filter_map(entry).collect() }
    }

    /// The hierarchy that a document of `hierarchy` says.
    pub fn to_hierarchy(&self) -> Hierarchy<Text> {
        let family = |at: &At<Item>| match &at.it {
            Item::Family(family) => Some(family.clone()),
            _ => None,
        };
        Hierarchy { version: self.version(), families: self.items.iter().filter_map(family).collect() }
    }

    /// The version that is written, or 1.
    fn version(&self) -> At<u8> {
        match self.items.first() {
            Some(At { it: Item::Version(version), span }) => At { it: *version, span: *span },
            _ => At { it: 1, span: Span::default() },
        }
    }

    /// The request that a document of `request` asks.
    pub fn to_request(&self) -> Option<Request<Text>> {
        self.items.iter().find_map(|at| match &at.it {
            Item::Request(request) => Some(request.clone()),
            _ => None,
        })
    }

    pub fn of_policy(policy: &Policy<Text>) -> Document {
        let mut items = vec![Item::Version(policy.version.it)];
        let runs = policy.constants.chunk_by(|a, b| a.it.kind() == b.it.kind());
        items.extend(runs.map(|run| Item::Constants(run[0].it.kind(), run.to_vec())));
        items.extend(policy.verbs.iter().map(|v| Item::Verb(v.it.clone())));
        items.extend(policy.assertions.iter().map(|a| Item::Assertion(a.clone())));
        Document::of_items(items)
    }

    pub fn of_request(request: &Request<Text>) -> Document {
        Document::of_items(vec![Item::Request(request.clone())])
    }

    pub fn of_withdrawals(withdrawals: &Withdrawals<Text>) -> Document {
        let mut items = vec![Item::Version(withdrawals.version.it)];
        items.extend(withdrawals.entries.iter().map(|entry| Item::Withdrawal(entry.clone())));
        Document::of_items(items)
    }

    pub fn of_hierarchy(hierarchy: &Hierarchy<Text>) -> Document {
        let mut items = vec![Item::Version(hierarchy.version.it)];
        items.extend(hierarchy.families.iter().map(|family| Item::Family(family.clone())));
        Document::of_items(items)
    }

    fn of_items(items: Vec<Item>) -> Document {
        let items = items.into_iter().map(|it| At { it, span: Span::default() }).collect();
        Document { items, comments: vec![] }
    }
}
