//! A decision in words: what was asked, what came of it, the answers, the facts by round.
use crate::source::{Asked, Entries, Policy, Problem};
use language::convert::Convert;
use language::json::Json;
use language::syntax::Variable;
use language::{calendar, decode, explain, print, unresolve};
use secpal::{limits, Report, Verdict};

const FACT_BYTES: usize = limits::RECORD * limits::RECORDS;
const ANSWER_BYTES: usize = 1 << 20;

pub struct Decision {
    pub allowed: bool,
    report: Report,
    facts: Vec<u8>,
    answers: Vec<u8>,
}

/// Decides; a refusal from the state, for want of room, is a problem.
pub fn decide(policy: &Policy, asked: &Asked) -> Result<Decision, Problem> {
    let (mut facts, mut answers) = (vec![0; FACT_BYTES], vec![0; ANSWER_BYTES]);
    let report = secpal::decide(&policy.slices(&asked.bytes), &mut facts, &mut answers);
    match report.verdict {
        Verdict::Refused(refusal) => Err(Problem { refusal: Some(refusal), ..Problem::new(&asked.file, explain::general(refusal.number)) }),
        verdict => Ok(Decision { allowed: verdict == Verdict::Allow, report, facts, answers }),
    }
}

/// "the statements of a file", and what stands beside it.
fn grounds(policy: &Policy) -> String {
    let beside =
        |entries: &Option<Entries>, words: &dyn Fn(&str) -> String| entries.as_ref().map_or(String::new(), |given| words(&given.file));
    let families = beside(&policy.hierarchy, &|file| format!(" and the families of {file}"));
    let withdrawn = beside(&policy.withdrawals, &|file| format!(", without those that {file} withdraws,"));
    format!("the statements of {}{families}{withdrawn}", policy.file)
}

pub fn question(asked: &Asked) -> String {
    print::node(&asked.text.node)
}

impl Decision {
    pub fn word(&self) -> &'static str {
        if self.allowed {
            "allow"
        } else {
            "deny"
        }
    }

    /// What stands in the bindings of each answer: the variable's number, and the constant.
    pub fn answers(&self) -> Vec<Vec<(u8, u16)>> {
        let binding = |(variable, constant): (usize, &u8)| {
            (usize::from(*constant) != limits::UNBOUND).then_some((variable as u8, u16::from(*constant)))
        };
        let listed = self.answers.chunks(limits::ANSWER).take(self.report.answers as usize);
        listed.map(|answer| answer.iter().enumerate().filter_map(binding).collect()).collect()
    }

    fn named(&self, policy: &Policy, asked: &Asked) -> Vec<Vec<(String, String)>> {
        let name = |number: u8| match asked.variables.iter().find(|(known, _)| *known == number) {
            Some((_, name)) => print::variable(&Variable::Named(name.clone())),
            None => print::variable(&Variable::Numbered(number)),
        };
        let binding = |(variable, constant): &(u8, u16)| (name(*variable), explain::constant(&policy.names, *constant));
        self.answers().iter().map(|answer| answer.iter().map(binding).collect()).collect()
    }

    /// The facts in order of their rounds: round, and the fact in words.
    fn facts(&self, policy: &Policy) -> Vec<(u32, String)> {
        let mut unresolver = unresolve::Unresolver { names: &policy.names, variables: &vec![] };
        let mut facts = vec![];
        for bytes in self.facts.chunks(limits::RECORD).take(self.report.facts as usize) {
            let Some(record) = decode::record(bytes, &policy.names.verbs) else { continue };
            let Ok(fact) = unresolver.fact(&record.fact) else { continue };
            let says = if record.unlimited { "says" } else { "says, at depth 0," };
            facts.push((record.round, format!("{} {says} {}", explain::constant(&policy.names, record.issuer), print::fact(&fact))));
        }
        facts.sort_by_key(|(round, _)| *round);
        facts
    }

    pub fn text(&self, policy: &Policy, asked: &Asked, with_facts: bool) -> String {
        let mut lines = vec![format!("{}: {}", self.word(), question(asked))];
        if !self.allowed {
            let today = calendar::date(asked.text.today.it);
            lines.push(format!("  does not follow from {} on {today}", grounds(policy)));
        }
        for answer in self.named(policy, asked).iter().filter(|answer| !answer.is_empty()) {
            let bindings: Vec<String> = answer.iter().map(|(variable, constant)| format!("{variable} = {constant}")).collect();
            lines.push(format!("  {}", bindings.join(", ")));
        }
        if with_facts {
            let mut last = 0;
            for (round, fact) in self.facts(policy) {
                if round != last {
                    lines.push(format!("round {round}"));
                    last = round;
                }
                lines.push(format!("  {fact}"));
            }
        }
        lines.join("\n")
    }

    pub fn json(&self, policy: &Policy, asked: &Asked, with_facts: bool) -> Json {
        let answer = |answer: &Vec<(String, String)>| Json::object(answer.iter().map(|(v, c)| (v.clone(), Json::text(c))));
        let mut entries = vec![
            ("decision", Json::text(self.word())),
            ("asked", Json::text(question(asked))),
            ("today", Json::text(calendar::date(asked.text.today.it))),
            ("facts", Json::number(self.report.facts)),
            ("rounds", Json::number(self.report.rounds)),
            ("answers", Json::list(self.named(policy, asked).iter().map(answer))),
        ];
        if with_facts {
            let fact = |(round, fact): (u32, String)| Json::object([("round", Json::number(round)), ("fact", Json::text(fact))]);
            entries.push(("list", Json::list(self.facts(policy).into_iter().map(fact))));
        }
        Json::object(entries)
    }
}
