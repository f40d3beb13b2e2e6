//! A plain evaluator of the specification and the requests that stand: as simple as can be, and written from them alone, to compare the engine with.

pub mod calendar;
pub mod decide;
pub mod generate;
pub mod read;
pub mod vectors;

/// Both buffers afterwards, and the result.
#[derive(Debug, Clone, PartialEq, Eq)]
pub struct Report {
    pub verdict: Verdict,
    pub facts: u64,
    pub rounds: u64,
    pub answers: u64,
    pub fact_buffer: Vec<u8>,
    pub answer_buffer: Vec<u8>,
}

#[derive(Debug, Clone, Copy, PartialEq, Eq)]
pub enum Verdict {
    Allow,
    Deny,
    /// number, side, place
    Refused(u32, u32, u64),
}

/// A refusal from the input: number, side, place.
pub type Refusal = (u32, u32, u64);

/// A slice of entries that has none: version 1, its length, a count of 0.
pub const NONE: [u8; 7] = [1, 0, 0, 0, 2, 0, 0];

/// The bytes that a call reads.
#[derive(Debug, Clone, Copy)]
pub struct Slices<'a> {
    pub policy: &'a [u8],
    pub request: &'a [u8],
    pub withdrawals: &'a [u8],
    pub hierarchy: &'a [u8],
}

/// A call of the decision: what it reads, and the two buffers as they are lent.
#[derive(Debug, Clone)]
pub struct Call {
    pub policy: Vec<u8>,
    pub request: Vec<u8>,
    pub withdrawals: Vec<u8>,
    pub hierarchy: Vec<u8>,
    pub facts: Vec<u8>,
    pub answers: Vec<u8>,
}

impl Call {
    pub fn slices(&self) -> Slices<'_> {
        Slices { policy: &self.policy, request: &self.request, withdrawals: &self.withdrawals, hierarchy: &self.hierarchy }
    }
}

/// What is in the slices, all of them accepted.
pub struct Inputs {
    policy: read::Policy,
    request: read::Request,
    withdrawals: Vec<read::Withdrawal>,
    hierarchy: Vec<read::Level>,
}

/// The slices, read one after another; or the first refusal.
fn inputs(s: &Slices) -> Result<Inputs, Refusal> {
    let on = |side: u32| move |(number, place): read::Refusal| (number, side, place as u64);
    let policy = read::policy(s.policy).map_err(on(1))?;
    let request = read::request(&policy, s.request).map_err(on(2))?;
    let withdrawals = read::withdrawals(&policy, s.withdrawals).map_err(on(3))?;
    let hierarchy = read::hierarchy(&policy, s.hierarchy).map_err(on(4))?;
    Ok(Inputs { policy, request, withdrawals, hierarchy })
}

/// The decision, from bytes to bytes.
pub fn decision(slices: &Slices, facts: &[u8], answers: &[u8]) -> Report {
    match inputs(slices) {
        Ok(inputs) => decide::decide(&inputs, facts, answers),
        Err((number, side, place)) => Report {
            verdict: Verdict::Refused(number, side, place),
            facts: 0,
            rounds: 0,
            answers: 0,
            fact_buffer: facts.to_vec(),
            answer_buffer: answers.to_vec(),
        },
    }
}

/// The marks of the reach, from bytes to bytes: `marks` as lent, and with a refusal as it was.
pub fn reach(slices: &Slices, marks: &[u8]) -> (Vec<u8>, Option<Refusal>) {
    match inputs(slices) {
        Ok(inputs) => {
            let reached = decide::reach(&inputs);
            let mark = |i| u8::from(u8::try_from(i).is_ok_and(|constant| reached.contains(&constant)));
            ((0..marks.len()).map(mark).collect(), None)
        }
        Err(refusal) => (marks.to_vec(), Some(refusal)),
    }
}
