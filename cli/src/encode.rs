//! Trees in numbers to bytes (docs/FORMAT.md), noting where in the text each item of the bytes comes from.
use crate::lexer::{fault, Fault};
use crate::syntax::*;

/// Bytes, and for each item's first byte the part of the text that it comes from.
#[derive(Debug, Clone, Default)]
pub struct Compiled {
    pub bytes: Vec<u8>,
    places: Vec<(usize, Span)>,
}

impl Compiled {
    /// Where in the text the item at a place of the bytes stands.
    pub fn span(&self, place: usize) -> Option<Span> {
        self.places.iter().find(|(at, _)| *at == place).map(|(_, span)| *span)
    }

    fn note(&mut self, span: Span) {
        self.places.push((self.bytes.len(), span));
    }

    fn byte(&mut self, byte: u8) {
        self.bytes.push(byte);
    }

    fn two(&mut self, number: u16) {
        self.bytes.extend(number.to_be_bytes());
    }

    fn four(&mut self, number: u32) {
        self.bytes.extend(number.to_be_bytes());
    }

    /// A count or length in one byte. More does not fit, and far less is allowed.
    fn count(&mut self, count: usize, what: &str, span: Span) -> Result<(), Fault> {
        match u8::try_from(count) {
            Ok(count) => {
                self.byte(count);
                Ok(())
            }
            Err(_) => fault(span, format!("too many {what}")),
        }
    }

    /// The version and room for the length.
    fn start(version: &At<u8>) -> Compiled {
        let mut out = Compiled::default();
        out.note(version.span);
        out.byte(version.it);
        out.four(0);
        out
    }

    /// The length is filled in: the bytes after its own.
    fn close(mut self) -> Compiled {
        let length = self.bytes.len() as u32 - 5;
        self.bytes[1..5].copy_from_slice(&length.to_be_bytes());
        self
    }

    fn constant(&mut self, constant: &At<Constant>) -> Result<(), Fault> {
        self.note(constant.span);
        let value = match &constant.it {
            Constant::Label(_, label) => label.as_bytes().to_vec(),
            Constant::Day(number) | Constant::Quantity(number) => number.to_be_bytes().to_vec(),
        };
        self.count(1 + value.len(), "characters in a label", constant.span)?;
        self.byte(constant.it.kind() as u8);
        self.bytes.extend(value);
        Ok(())
    }

    fn verb(&mut self, verb: &At<Verb>) -> Result<(), Fault> {
        self.note(verb.span);
        self.count(1 + verb.it.kinds.len() + verb.it.label.len(), "characters in a label", verb.span)?;
        self.count(verb.it.kinds.len(), "parameters", verb.span)?;
        self.bytes.extend(verb.it.kinds.iter().map(|kind| *kind as u8));
        self.bytes.extend(verb.it.label.as_bytes());
        Ok(())
    }

    fn fact(&mut self, fact: &Fact<Numbers>) -> Result<(), Fault> {
        self.count(fact.speakers.len(), "speakers", fact.span)?;
        for speaker in &fact.speakers {
            self.two(speaker.who.it);
            self.byte(speaker.unlimited as u8);
        }
        self.two(fact.subject.it);
        self.byte(fact.verb.it);
        fact.parameters.iter().for_each(|p| self.two(p.it));
        Ok(())
    }

    fn constraint(&mut self, constraint: &Constraint<Numbers>) {
        self.byte(constraint.operator);
        self.two(constraint.left.it);
        self.two(constraint.right.it);
    }

    fn constraints(&mut self, constraints: &[Constraint<Numbers>], span: Span) -> Result<(), Fault> {
        self.count(constraints.len(), "constraints", span)?;
        constraints.iter().for_each(|c| self.constraint(c));
        Ok(())
    }

    fn withdrawal(&mut self, withdrawal: &Withdrawal<Numbers>) -> Result<(), Fault> {
        self.note(withdrawal.span);
        self.two(withdrawal.issuer.it);
        self.four(withdrawal.serial);
        self.constraints(&withdrawal.constraints, withdrawal.span)
    }

    fn family(&mut self, family: &Family<Numbers>) {
        for child in &family.children {
            self.note(child.span);
            self.byte(family.verb.it);
            self.byte(family.position.it);
            self.two(family.parent.it);
            self.two(child.it);
        }
    }

    fn assertion(&mut self, assertion: &Assertion<Numbers>) -> Result<(), Fault> {
        self.note(assertion.span);
        let from = self.bytes.len();
        self.two(0);
        self.four(assertion.serial);
        self.two(assertion.issuer.it);
        self.fact(&assertion.head)?;
        self.count(assertion.body.len(), "conditions", assertion.span)?;
        for fact in &assertion.body {
            self.fact(fact)?;
        }
        self.constraints(&assertion.constraints, assertion.span)?;
        match u16::try_from(self.bytes.len() - from - 2) {
            Ok(length) => self.bytes[from..from + 2].copy_from_slice(&length.to_be_bytes()),
            Err(_) => return fault(assertion.span, "this statement is too long"),
        }
        Ok(())
    }

    fn nodes(&mut self, byte: u8, nodes: &[Node<Numbers>], span: Span) -> Result<(), Fault> {
        self.byte(byte);
        self.count(nodes.len(), "parts", span)?;
        nodes.iter().try_for_each(|node| self.node(node))
    }

    fn node(&mut self, node: &Node<Numbers>) -> Result<(), Fault> {
        self.note(node.span);
        match &node.part {
            Part::Says(issuer, fact) => {
                self.byte(1);
                self.two(issuer.it);
                self.fact(fact)
            }
            Part::Constraint(constraint) => {
                self.byte(2);
                self.constraint(constraint);
                Ok(())
            }
            Part::All(nodes) => self.nodes(3, nodes, node.span),
            Part::Any(nodes) => self.nodes(4, nodes, node.span),
            Part::Not(inner) => {
                self.byte(5);
                self.node(inner)
            }
            Part::Exists(variable, inner) => {
                self.byte(6);
                self.byte(variable.it);
                self.node(inner)
            }
        }
    }
}

pub fn policy(policy: &Policy<Numbers>) -> Result<Compiled, Fault> {
    let mut out = Compiled::start(&policy.version);
    // a count's place is the whole text's
    out.note(Span::default());
    out.two(policy.constants.len() as u16);
    policy.constants.iter().try_for_each(|c| out.constant(c))?;
    out.two(policy.verbs.len() as u16);
    policy.verbs.iter().try_for_each(|v| out.verb(v))?;
    out.two(policy.assertions.len() as u16);
    policy.assertions.iter().try_for_each(|a| out.assertion(a))?;
    Ok(out.close())
}

pub fn request(request: &Request<Numbers>) -> Result<Compiled, Fault> {
    let mut out = Compiled::start(&request.version);
    out.note(request.today.span);
    out.four(request.today.it);
    out.node(&request.node)?;
    Ok(out.close())
}

pub fn withdrawals(withdrawals: &Withdrawals<Numbers>) -> Result<Compiled, Fault> {
    let mut out = Compiled::start(&withdrawals.version);
    out.two(withdrawals.entries.len() as u16);
    withdrawals.entries.iter().try_for_each(|entry| out.withdrawal(entry))?;
    Ok(out.close())
}

pub fn hierarchy(hierarchy: &Hierarchy<Numbers>) -> Compiled {
    let mut out = Compiled::start(&hierarchy.version);
    out.two(hierarchy.families.iter().map(|family| family.children.len() as u16).sum());
    hierarchy.families.iter().for_each(|family| out.family(family));
    out.close()
}
