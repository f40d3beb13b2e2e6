//! Accepted bytes to trees in numbers. What the engine did not accept is not read: `None`.
use crate::syntax::*;
use secpal::limits;

fn at<T>(it: T) -> At<T> {
    At { it, span: Span::default() }
}

/// Reads from a place on; past the end there is nothing.
struct Reader<'a> {
    bytes: &'a [u8],
    place: usize,
    /// the number of parameters of each verb, from verb 0 on
    arities: Vec<usize>,
}

impl Reader<'_> {
    fn byte(&mut self) -> Option<u8> {
        let byte = *self.bytes.get(self.place)?;
        self.place += 1;
        Some(byte)
    }

    fn two(&mut self) -> Option<u16> {
        Some(u16::from_be_bytes([self.byte()?, self.byte()?]))
    }

    fn four(&mut self) -> Option<u32> {
        Some(u32::from_be_bytes([self.byte()?, self.byte()?, self.byte()?, self.byte()?]))
    }

    fn times<T>(&mut self, count: usize, mut item: impl FnMut(&mut Self) -> Option<T>) -> Option<Vec<T>> {
        (0..count).map(|_| item(self)).collect()
    }

    fn expression(&mut self) -> Option<At<u16>> {
        self.two().map(at)
    }

    fn speaker(&mut self) -> Option<Speaker<Numbers>> {
        Some(Speaker { who: self.expression()?, unlimited: self.byte()? == 1 })
    }

    fn fact(&mut self) -> Option<Fact<Numbers>> {
        let nest = self.byte()? as usize;
        let speakers = self.times(nest, Reader::speaker)?;
        let subject = self.expression()?;
        let verb = self.byte()?;
        let arity = *self.arities.get(verb as usize)?;
        let parameters = self.times(arity, Reader::expression)?;
        Some(Fact { speakers, subject, verb: at(verb), parameters, span: Span::default() })
    }

    fn constraint(&mut self) -> Option<Constraint<Numbers>> {
        let operator = self.byte()?;
        Some(Constraint { operator, left: self.expression()?, right: self.expression()?, span: Span::default() })
    }

    fn constraints(&mut self) -> Option<Vec<Constraint<Numbers>>> {
        let count = self.byte()? as usize;
        self.times(count, Reader::constraint)
    }

    fn assertion(&mut self) -> Option<Assertion<Numbers>> {
        self.two()?;
        let serial = self.four()?;
        let issuer = self.expression()?;
        let head = self.fact()?;
        let facts = self.byte()? as usize;
        let body = self.times(facts, Reader::fact)?;
        Some(Assertion { serial, issuer, head, body, constraints: self.constraints()?, span: Span::default() })
    }

    fn withdrawal(&mut self) -> Option<Withdrawal<Numbers>> {
        Some(Withdrawal { issuer: self.expression()?, serial: self.four()?, constraints: self.constraints()?, span: Span::default() })
    }

    /// An entry, as a family with one child.
    fn family(&mut self) -> Option<Family<Numbers>> {
        let (verb, position) = (at(self.byte()?), at(self.byte()?));
        Some(Family { verb, position, parent: self.expression()?, children: vec![self.expression()?], span: Span::default() })
    }

    fn nodes(&mut self) -> Option<Vec<Node<Numbers>>> {
        let count = self.byte()? as usize;
        self.times(count, Reader::node)
    }

    fn node(&mut self) -> Option<Node<Numbers>> {
        let part = match self.byte()? {
            1 => Part::Says(self.expression()?, self.fact()?),
            2 => Part::Constraint(self.constraint()?),
            3 => Part::All(self.nodes()?),
            4 => Part::Any(self.nodes()?),
            5 => Part::Not(Box::new(self.node()?)),
            _ => Part::Exists(at(self.byte()?), Box::new(self.node()?)),
        };
        Some(Node { part, span: Span::default() })
    }
}

fn label(bytes: &[u8]) -> Option<String> {
    String::from_utf8(bytes.to_vec()).ok()
}

/// The item whose length byte stands at an offset, without that byte.
fn item(policy: &[u8], offset: u32) -> Option<&[u8]> {
    let start = offset as usize + 1;
    policy.get(start..start + *policy.get(offset as usize)? as usize)
}

fn constant(item: &[u8]) -> Option<Constant> {
    let (kind, value) = item.split_first()?;
    let number = || Some(u32::from_be_bytes(value.try_into().ok()?));
    Some(match Kind::of_byte(*kind)? {
        Kind::Principal => Constant::Label(KindOfLabel::Principal, label(value)?),
        Kind::Thing => Constant::Label(KindOfLabel::Thing, label(value)?),
        Kind::Day => Constant::Day(number()?),
        Kind::Quantity => Constant::Quantity(number()?),
    })
}

fn verb(item: &[u8]) -> Option<Verb> {
    let (arity, rest) = item.split_first()?;
    let (kinds, name) = rest.split_at_checked(*arity as usize)?;
    let kinds = kinds.iter().map(|kind| Kind::of_byte(*kind)).collect::<Option<_>>()?;
    Some(Verb { label: label(name)?, kinds })
}

/// The constants of an accepted policy, in the order of their numbers.
pub fn constants(policy: &[u8]) -> Option<Vec<Constant>> {
    secpal::constants(policy).into_iter().map(|offset| constant(item(policy, offset)?)).collect()
}

/// The verbs of an accepted policy, from verb 1 on.
pub fn verbs(policy: &[u8]) -> Option<Vec<Verb>> {
    secpal::verbs(policy).into_iter().map(|offset| verb(item(policy, offset)?)).collect()
}

fn arities(verbs: &[Verb]) -> Vec<usize> {
    std::iter::once(1).chain(verbs.iter().map(|v| v.kinds.len())).collect()
}

/// Where the list of assertions begins: behind the last verb, or behind the count of verbs, which stands behind the last constant.
fn assertions_start(policy: &[u8]) -> Option<usize> {
    let behind = |offset: &u32| Some(*offset as usize + 1 + *policy.get(*offset as usize)? as usize);
    match secpal::verbs(policy).last() {
        Some(last) => behind(last),
        None => Some(behind(secpal::constants(policy).last()?)? + 2),
    }
}

pub fn policy(bytes: &[u8]) -> Option<Policy<Numbers>> {
    let (constants, verbs) = (constants(bytes)?, verbs(bytes)?);
    let mut reader = Reader { bytes, place: assertions_start(bytes)?, arities: arities(&verbs) };
    let count = reader.two()? as usize;
    Some(Policy {
        version: at(bytes[0]),
        constants: constants.into_iter().map(at).collect(),
        verbs: verbs.into_iter().map(at).collect(),
        assertions: reader.times(count, Reader::assertion)?,
    })
}

/// A request that is accepted under a policy with these verbs.
pub fn request(bytes: &[u8], verbs: &[Verb]) -> Option<Request<Numbers>> {
    let mut reader = Reader { bytes, place: 1 + 4, arities: arities(verbs) };
    let today = at(reader.four()?);
    Some(Request { version: at(bytes[0]), today, node: reader.node()? })
}

/// Withdrawals that are accepted under some policy.
pub fn withdrawals(bytes: &[u8]) -> Option<Withdrawals<Numbers>> {
    let mut reader = Reader { bytes, place: 1 + 4, arities: vec![] };
    let count = reader.two()? as usize;
    Some(Withdrawals { version: at(bytes[0]), entries: reader.times(count, Reader::withdrawal)? })
}

/// A hierarchy that is accepted under some policy. Entries that stand behind each other and differ in their child alone are one family.
pub fn hierarchy(bytes: &[u8]) -> Option<Hierarchy<Numbers>> {
    let mut reader = Reader { bytes, place: 1 + 4, arities: vec![] };
    let count = reader.two()? as usize;
    let mut families: Vec<Family<Numbers>> = vec![];
    for entry in reader.times(count, Reader::family)? {
        let key = |family: &Family<Numbers>| (family.verb.it, family.position.it, family.parent.it);
        match families.last_mut() {
            Some(last) if key(last) == key(&entry) => last.children.extend(entry.children),
            _ => families.push(entry),
        }
    }
    Some(Hierarchy { version: at(bytes[0]), families })
}

/// A fact of the fact buffer: its round, issuer, depth, and what is said.
pub struct Record {
    pub round: u32,
    pub issuer: u16,
    pub unlimited: bool,
    pub fact: Fact<Numbers>,
}

pub fn record(bytes: &[u8], verbs: &[Verb]) -> Option<Record> {
    let constant = |place: usize| at(bytes[place] as u16);
    let nest = bytes[limits::RECORD_NEST] as usize;
    let speakers = (0..nest).map(|level| {
        let place = limits::RECORD_SPEAKERS + 2 * level;
        Speaker { who: constant(place), unlimited: bytes[place + 1] == 1 }
    });
    let verb = bytes[limits::RECORD_VERB];
    let arity = *arities(verbs).get(verb as usize)?;
    Some(Record {
        round: u32::from(bytes[limits::RECORD_ROUND]) << 8 | u32::from(bytes[limits::RECORD_ROUND + 1]),
        issuer: bytes[limits::RECORD_ISSUER].into(),
        unlimited: bytes[limits::RECORD_DEPTH] == 1,
        fact: Fact {
            speakers: speakers.collect(),
            subject: constant(limits::RECORD_SUBJECT),
            verb: at(verb),
            parameters: (0..arity).map(|i| constant(limits::RECORD_PARAMETERS + i)).collect(),
            span: Span::default(),
        },
    })
}
