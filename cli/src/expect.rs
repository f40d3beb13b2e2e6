//! `secpal test`: a file of expectations against a policy.
use crate::decision::{decide, question};
use crate::source::{asked, read, Asked, Content, Policy, Problem};
use language::document::{expectations, Expectation, Expected, Item};
use language::json::Json;
use language::lexer::{line_and_column, Fault};
use language::resolve;
use language::syntax::{At, Name, Request, Span, Variable};
use std::collections::BTreeSet;

/// One expectation that was not met.
struct Miss {
    line: usize,
    message: String,
}

pub struct Outcome {
    passed: usize,
    misses: Vec<Miss>,
    file: String,
}

pub fn run(policy: &Policy, path: &str) -> Result<Outcome, Problem> {
    let Content::Text(text) = read(path)? else { return Err(Problem::new(path, "a file of expectations is a text")) };
    let document = expectations(&text).map_err(|fault| Problem::fault(path, &text, fault))?;
    let mut outcome = Outcome { passed: 0, misses: vec![], file: path.to_string() };
    for At { it, span } in &document.items {
        let Item::Expectation(expectation) = it else { continue };
        match missed(policy, path, &text, expectation)? {
            None => outcome.passed += 1,
            Some(message) => outcome.misses.push(Miss { line: line_and_column(&text, span.start).0, message }),
        }
    }
    Ok(outcome)
}

/// What came instead, if the expectation is not met.
fn missed(policy: &Policy, path: &str, text: &str, expectation: &Expectation) -> Result<Option<String>, Problem> {
    let version = At { it: 1, span: Span::default() };
    let request = Request { version, today: expectation.today.clone(), node: expectation.node.clone() };
    let asked = asked(policy, path, text, &request)?;
    let decision = decide(policy, &asked)?;
    let came = |met: bool, instead: String| (!met).then(|| format!("{}: {instead}", question(&asked)));
    match &expectation.expected {
        Expected::Allow => Ok(came(decision.allowed, "is denied".to_string())),
        Expected::Deny => Ok(came(!decision.allowed, "is allowed".to_string())),
        Expected::Answers(answers) => {
            let number = |answer| numbers(policy, &asked, answer).map_err(|fault| Problem::fault(path, text, fault));
            let wanted = answers.iter().map(number).collect::<Result<BTreeSet<_>, _>>()?;
            let found: BTreeSet<_> = decision.answers().into_iter().collect();
            let instead = format!("{} answers, of which {} are expected", found.len(), found.intersection(&wanted).count());
            Ok(came(found == wanted, instead))
        }
    }
}

/// An expected answer by the numbers of its variables and constants, as a decision lists it.
fn numbers(policy: &Policy, asked: &Asked, answer: &Vec<(At<Variable>, At<Name>)>) -> Result<Vec<(u8, u16)>, Fault> {
    let mut bindings = vec![];
    for (variable, constant) in answer {
        let number = match &variable.it {
            Variable::Numbered(number) => Some(*number),
            Variable::Named(name) => asked.variables.iter().find(|(_, known)| known == name).map(|(number, _)| *number),
        };
        let unknown = || Fault { span: variable.span, message: "the request has no such variable".to_string() };
        bindings.push((number.ok_or_else(unknown)?, resolve::constant(&policy.names, constant)?));
    }
    bindings.sort();
    Ok(bindings)
}

impl Outcome {
    pub fn met(&self) -> bool {
        self.misses.is_empty()
    }

    pub fn text(&self) -> String {
        let misses = self.misses.iter().map(|miss| format!("{}:{}: {}\n", self.file, miss.line, miss.message));
        format!("{}{} as expected, {} not", misses.collect::<String>(), self.passed, self.misses.len())
    }

    pub fn json(&self) -> Json {
        let miss = |miss: &Miss| Json::object([("line", Json::number(miss.line as u64)), ("message", Json::text(&miss.message))]);
        Json::object([
            ("passed", Json::number(self.passed as u64)),
            ("failed", Json::number(self.misses.len() as u64)),
            ("misses", Json::list(self.misses.iter().map(miss))),
        ])
    }
}
