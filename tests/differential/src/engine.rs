//! The engine through its C entry points, with guard bytes around every buffer that it is lent.
use evaluator::{Report, Slices, Verdict};

const GUARD: usize = 64;
const MARK: u8 = 0x5A;

/// Bytes between two guards.
struct Guarded(Vec<u8>);

impl Guarded {
    fn new(bytes: &[u8]) -> Guarded {
        Guarded([&[MARK; GUARD], bytes, &[MARK; GUARD]].concat())
    }

    fn inside(&self) -> &[u8] {
        &self.0[GUARD..self.0.len() - GUARD]
    }

    fn lent(&mut self) -> &mut [u8] {
        let end = self.0.len() - GUARD;
        &mut self.0[GUARD..end]
    }

    fn unharmed(&self) -> bool {
        let end = self.0.len() - GUARD;
        self.0[..GUARD].iter().chain(&self.0[end..]).all(|b| *b == MARK)
    }
}

/// The slices as the wrapper takes them.
pub fn slices<'a>(s: &Slices<'a>) -> secpal::Slices<'a> {
    secpal::Slices { policy: s.policy, request: s.request, withdrawals: s.withdrawals, hierarchy: s.hierarchy }
}

/// The engine's decision, and whether all that it should leave as it is was left so: the guards and the slices.
pub fn decision(s: &Slices, facts: &[u8], answers: &[u8]) -> (Report, bool) {
    let read = [s.policy, s.request, s.withdrawals, s.hierarchy].map(Guarded::new);
    let [policy, request, withdrawals, hierarchy] = read.each_ref().map(Guarded::inside);
    let mut f = Guarded::new(facts);
    let mut a = Guarded::new(answers);
    let r = secpal::decide(&slices(&Slices { policy, request, withdrawals, hierarchy }), f.lent(), a.lent());
    let verdict = match r.verdict {
        secpal::Verdict::Allow => Verdict::Allow,
        secpal::Verdict::Deny => Verdict::Deny,
        secpal::Verdict::Refused(refusal) => Verdict::Refused(refusal.number, refusal.side, refusal.place),
    };
    let report = Report {
        verdict,
        facts: r.facts as u64,
        rounds: r.rounds as u64,
        answers: r.answers,
        fact_buffer: f.inside().to_vec(),
        answer_buffer: a.inside().to_vec(),
    };
    let same = [policy, request, withdrawals, hierarchy] == [s.policy, s.request, s.withdrawals, s.hierarchy];
    let left = same && read.iter().chain([&f, &a]).all(|b| b.unharmed());
    (report, left)
}

/// The label that the engine hands out: where it begins in the policy, and its length.
pub fn label(policy: &[u8], constant: u32) -> (Option<usize>, usize) {
    let label = secpal::label(policy, constant);
    if label.is_empty() {
        return (Some(0), 0);
    }
    let from = (label.as_ptr() as usize).wrapping_sub(policy.as_ptr() as usize);
    (Some(from).filter(|at| at + label.len() <= policy.len()), label.len())
}
