//! From one form to the other: a tree is walked in the order in which it is written, and each name goes through a `Convert`.
use crate::syntax::*;

pub trait Convert<A: Form, B: Form> {
    type Error;

    fn expression(&mut self, expression: &At<A::Expression>) -> Result<B::Expression, Self::Error>;
    fn verb(&mut self, verb: &At<A::Verb>) -> Result<B::Verb, Self::Error>;
    fn variable(&mut self, variable: &At<A::Variable>) -> Result<B::Variable, Self::Error>;

    /// A verb with its parameters, where they are of interest.
    fn verb_with(&mut self, verb: &At<A::Verb>, _parameters: &[At<A::Expression>]) -> Result<B::Verb, Self::Error> {
        self.verb(verb)
    }

    fn at(&mut self, expression: &At<A::Expression>) -> Result<At<B::Expression>, Self::Error> {
        Ok(At { it: self.expression(expression)?, span: expression.span })
    }

    fn fact(&mut self, fact: &Fact<A>) -> Result<Fact<B>, Self::Error> {
        let mut speakers = vec![];
        for speaker in &fact.speakers {
            speakers.push(Speaker { who: self.at(&speaker.who)?, unlimited: speaker.unlimited });
        }
        Ok(Fact {
            speakers,
            subject: self.at(&fact.subject)?,
            verb: At { it: self.verb_with(&fact.verb, &fact.parameters)?, span: fact.verb.span },
            parameters: fact.parameters.iter().map(|p| self.at(p)).collect::<Result<_, _>>()?,
            span: fact.span,
        })
    }

    fn constraint(&mut self, constraint: &Constraint<A>) -> Result<Constraint<B>, Self::Error> {
        Ok(Constraint {
            operator: constraint.operator,
            left: self.at(&constraint.left)?,
            right: self.at(&constraint.right)?,
            span: constraint.span,
        })
    }

    fn constraints(&mut self, constraints: &[Constraint<A>]) -> Result<Vec<Constraint<B>>, Self::Error> {
        constraints.iter().map(|c| self.constraint(c)).collect()
    }

    fn assertion(&mut self, assertion: &Assertion<A>) -> Result<Assertion<B>, Self::Error> {
        Ok(Assertion {
            serial: assertion.serial,
            issuer: self.at(&assertion.issuer)?,
            head: self.fact(&assertion.head)?,
            body: assertion.body.iter().map(|f| self.fact(f)).collect::<Result<_, _>>()?,
            constraints: self.constraints(&assertion.constraints)?,
            span: assertion.span,
        })
    }

    fn withdrawal(&mut self, withdrawal: &Withdrawal<A>) -> Result<Withdrawal<B>, Self::Error> {
        Ok(Withdrawal {
            issuer: self.at(&withdrawal.issuer)?,
            serial: withdrawal.serial,
            constraints: self.constraints(&withdrawal.constraints)?,
            span: withdrawal.span,
        })
    }

    fn family(&mut self, family: &Family<A>) -> Result<Family<B>, Self::Error> {
        Ok(Family {
            verb: At { it: self.verb(&family.verb)?, span: family.verb.span },
            position: family.position.clone(),
            parent: self.at(&family.parent)?,
            children: family.children.iter().map(|child| self.at(child)).collect::<Result<_, _>>()?,
            span: family.span,
        })
    }

    fn node(&mut self, node: &Node<A>) -> Result<Node<B>, Self::Error> {
        let part = match &node.part {
            Part::Says(issuer, fact) => Part::Says(self.at(issuer)?, self.fact(fact)?),
            Part::Constraint(constraint) => Part::Constraint(self.constraint(constraint)?),
            Part::All(parts) => Part::All(self.nodes(parts)?),
            Part::Any(parts) => Part::Any(self.nodes(parts)?),
            Part::Not(inner) => Part::Not(Box::new(self.node(inner)?)),
            Part::Exists(variable, inner) => {
                let bound = At { it: self.variable(variable)?, span: variable.span };
                Part::Exists(bound, Box::new(self.node(inner)?))
            }
        };
        Ok(Node { part, span: node.span })
    }

    fn nodes(&mut self, nodes: &[Node<A>]) -> Result<Vec<Node<B>>, Self::Error> {
        nodes.iter().map(|n| self.node(n)).collect()
    }
}
