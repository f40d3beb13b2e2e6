//! Numbers to names, for what was read from bytes.
use crate::convert::Convert;
use crate::names::Names;
use crate::resolve::VariableNames;
use crate::syntax::*;

/// Accepted bytes never meet it: a number that stands for nothing.
#[derive(Debug, Clone, Copy, PartialEq, Eq)]
pub struct Nothing;

pub struct Unresolver<'a> {
    pub names: &'a Names,
    /// variables with a name of their own; the others go by number
    pub variables: &'a VariableNames,
}

impl Unresolver<'_> {
    fn named(&self, number: u8) -> Variable {
        match self.variables.iter().find(|(known, _)| *known == number) {
            Some((_, name)) => Variable::Named(name.clone()),
            None => Variable::Numbered(number),
        }
    }

    pub fn constant(&self, number: u16) -> Result<Name, Nothing> {
        Ok(match self.names.constants.get(number as usize).ok_or(Nothing)? {
            constant @ Constant::Label(_, label) => {
                let kind = self.names.shared(label).then(|| constant.kind());
                Name::Label(kind, label.clone())
            }
            Constant::Day(day) => Name::Day(*day),
            Constant::Quantity(quantity) => Name::Quantity(*quantity),
        })
    }
}

impl Convert<Numbers, Text> for Unresolver<'_> {
    type Error = Nothing;

    fn expression(&mut self, expression: &At<u16>) -> Result<Name, Nothing> {
        match expression.it {
            TODAY => Ok(Name::Today),
            number if number >= VARIABLE => Ok(Name::Variable(self.named((number - VARIABLE) as u8))),
            number => self.constant(number),
        }
    }

    fn verb(&mut self, verb: &At<u8>) -> Result<VerbName, Nothing> {
        match verb.it {
            0 => Ok(VerbName::CanActAs),
            number => Ok(VerbName::Label(self.names.verbs.get(number as usize - 1).ok_or(Nothing)?.label.clone())),
        }
    }

    fn variable(&mut self, variable: &At<u8>) -> Result<Variable, Nothing> {
        Ok(self.named(variable.it))
    }
}

pub fn policy(policy: &Policy<Numbers>, names: &Names) -> Result<Policy<Text>, Nothing> {
    let mut unresolver = Unresolver { names, variables: &vec![] };
    Ok(Policy {
        version: policy.version.clone(),
        constants: policy.constants.clone(),
        verbs: policy.verbs.clone(),
        assertions: policy.assertions.iter().map(|a| unresolver.assertion(a)).collect::<Result<_, _>>()?,
    })
}

pub fn withdrawals(withdrawals: &Withdrawals<Numbers>, names: &Names) -> Result<Withdrawals<Text>, Nothing> {
    let mut unresolver = Unresolver { names, variables: &vec![] };
    let entries = withdrawals.entries.iter().map(|entry| unresolver.withdrawal(entry)).collect::<Result<_, _>>()?;
    Ok(Withdrawals { version: withdrawals.version.clone(), entries })
}

pub fn hierarchy(hierarchy: &Hierarchy<Numbers>, names: &Names) -> Result<Hierarchy<Text>, Nothing> {
    let mut unresolver = Unresolver { names, variables: &vec![] };
    let families = hierarchy.families.iter().map(|family| unresolver.family(family)).collect::<Result<_, _>>()?;
    Ok(Hierarchy { version: hierarchy.version.clone(), families })
}

pub fn request(request: &Request<Numbers>, names: &Names, variables: &VariableNames) -> Result<Request<Text>, Nothing> {
    let node = Unresolver { names, variables }.node(&request.node)?;
    Ok(Request { version: request.version.clone(), today: request.today.clone(), node })
}
