//! The engine for Rust: a safe function for each call of host/secpal.h, which says what they do and what they cost.
//! The only unsafe code of the repository is here.

pub mod limits;
mod raw;

/// A refusal: its number (`limits::BAD_VERSION` ..), in which input its place is, and the place, an offset.
#[derive(Debug, Clone, Copy, PartialEq, Eq)]
pub struct Refusal {
    pub number: u32,
    pub side: u32,
    pub place: u64,
}

#[derive(Debug, Clone, Copy, PartialEq, Eq)]
pub enum Verdict {
    Allow,
    Deny,
    Refused(Refusal),
}

/// What a decision tells, with the counts of what stands at the front of the two buffers.
#[derive(Debug, Clone, Copy, PartialEq, Eq)]
pub struct Report {
    pub verdict: Verdict,
    pub facts: u32,
    pub rounds: u32,
    pub answers: u64,
}

fn refusal(report: &raw::Report) -> Refusal {
    Refusal { number: report.refusal, side: report.side, place: report.place }
}

/// A slice without entries.
pub const NONE: &[u8] = &[1, 0, 0, 0, 2, 0, 0];

/// The bytes that a decision reads, each of any content and any length.
#[derive(Debug, Clone, Copy)]
pub struct Slices<'a> {
    pub policy: &'a [u8],
    pub request: &'a [u8],
    pub withdrawals: &'a [u8],
    pub hierarchy: &'a [u8],
}

impl<'a> Slices<'a> {
    /// A policy and a request, with nothing withdrawn and no hierarchy.
    pub fn new(policy: &'a [u8], request: &'a [u8]) -> Slices<'a> {
        Slices { policy, request, withdrawals: NONE, hierarchy: NONE }
    }
}

/// Decides the request under the policy. Records go to `facts`, answers to `answers`; what is not filled is 0.
pub fn decide(slices: &Slices, facts: &mut [u8], answers: &mut [u8]) -> Report {
    // Each pointer is to as many bytes as its length says, and the borrows keep the two buffers apart from all else.
    let report = unsafe {
        raw::secpal_decide(
            slices.policy.as_ptr(),
            slices.policy.len(),
            slices.request.as_ptr(),
            slices.request.len(),
            slices.withdrawals.as_ptr(),
            slices.withdrawals.len(),
            slices.hierarchy.as_ptr(),
            slices.hierarchy.len(),
            facts.as_mut_ptr(),
            facts.len(),
            answers.as_mut_ptr(),
            answers.len(),
        )
    };
    // The type below has no room for a decision with a refusal's numbers, so such a report must not pass unseen.
    assert!(report.decision == limits::REFUSED || (report.refusal, report.side, report.place) == (0, 0, 0));
    let verdict = match report.decision {
        limits::ALLOW => Verdict::Allow,
        limits::DENY => Verdict::Deny,
        _ => Verdict::Refused(refusal(&report)),
    };
    Report { verdict, facts: report.facts, rounds: report.rounds, answers: report.answers }
}

/// Marks whose words count for the request: byte i becomes 1 if constant i is in the reach, else 0. A refusal, which is the one that a decision
/// would give from the input, leaves the marks as they are.
pub fn reach_into(slices: &Slices, marks: &mut [u8]) -> Result<(), Refusal> {
    // As above.
    let report = unsafe {
        raw::secpal_reach(
            slices.policy.as_ptr(),
            slices.policy.len(),
            slices.request.as_ptr(),
            slices.request.len(),
            slices.withdrawals.as_ptr(),
            slices.withdrawals.len(),
            slices.hierarchy.as_ptr(),
            slices.hierarchy.len(),
            marks.as_mut_ptr(),
            marks.len(),
        )
    };
    match report.refusal {
        0 => Ok(()),
        _ => Err(refusal(&report)),
    }
}

/// The same for every number that a constant can have.
pub fn reach(slices: &Slices) -> Result<[bool; limits::CONSTANTS], Refusal> {
    let mut marks = [0u8; limits::CONSTANTS];
    reach_into(slices, &mut marks)?;
    Ok(marks.map(|mark| mark != 0))
}

/// The first refusal that a decision gives from these slices.
pub fn input_refusal(slices: &Slices) -> Option<Refusal> {
    reach_into(slices, &mut []).err()
}

/// The refusal of a policy, if it is not accepted: an empty request is refused only after the policy was read.
pub fn policy_refusal(policy: &[u8]) -> Option<Refusal> {
    input_refusal(&Slices::new(policy, &[])).filter(|refusal| refusal.side == limits::SIDE_POLICY)
}

/// "today is today": a request that every policy accepts.
const ANY_REQUEST: &[u8] = &[1, 0, 0, 0, 10, 0, 0, 0, 0, 2, 1, 0x40, 0, 0x40, 0];

/// The refusal of withdrawals under a policy that is accepted, if they are not: they are read after the request.
pub fn withdrawals_refusal(policy: &[u8], withdrawals: &[u8]) -> Option<Refusal> {
    input_refusal(&Slices { withdrawals, ..Slices::new(policy, ANY_REQUEST) })
}

/// The same for a hierarchy.
pub fn hierarchy_refusal(policy: &[u8], hierarchy: &[u8]) -> Option<Refusal> {
    input_refusal(&Slices { hierarchy, ..Slices::new(policy, ANY_REQUEST) })
}

/// The label of a principal or thing: that part of the policy. For all else it is empty.
pub fn label(policy: &[u8], constant: u32) -> &[u8] {
    let mut label = raw::Slice { data: policy.as_ptr(), len: 0 };
    // The label is a part of the policy's bytes, or empty, and its borrow is the policy's.
    unsafe {
        raw::secpal_label(policy.as_ptr(), policy.len(), constant, &mut label);
        match label.len {
            0 => &[],
            len => std::slice::from_raw_parts(label.data, len),
        }
    }
}

/// Writes where each constant's item stands, as many as fit, and returns how many constants there are: 0 for a policy that is not accepted.
pub fn constants_into(policy: &[u8], offsets: &mut [u32]) -> u32 {
    // The lent items are as many as their length says.
    unsafe { raw::secpal_constants(policy.as_ptr(), policy.len(), offsets.as_mut_ptr(), offsets.len()) }
}

/// The same for the verbs, from verb 1 on.
pub fn verbs_into(policy: &[u8], offsets: &mut [u32]) -> u32 {
    // As above.
    unsafe { raw::secpal_verbs(policy.as_ptr(), policy.len(), offsets.as_mut_ptr(), offsets.len()) }
}

fn all(most: usize, write: impl Fn(&mut [u32]) -> u32) -> Vec<u32> {
    let mut offsets = vec![0; most];
    let count = write(&mut offsets) as usize;
    offsets.truncate(count);
    offsets
}

/// Where each constant's item stands in the policy; none for a policy that is not accepted.
pub fn constants(policy: &[u8]) -> Vec<u32> {
    all(limits::CONSTANTS, |offsets| constants_into(policy, offsets))
}

/// Where each verb's item stands, from verb 1 on; none for a policy that is not accepted.
pub fn verbs(policy: &[u8]) -> Vec<u32> {
    all(limits::VERBS, |offsets| verbs_into(policy, offsets))
}

/// The number of the constant with this kind and label; capitals do not tell labels apart.
pub fn find(policy: &[u8], kind: u8, label: &[u8]) -> Option<u32> {
    // Both pointers are to as many bytes as their lengths say.
    let number = unsafe { raw::secpal_find(policy.as_ptr(), policy.len(), kind.into(), label.as_ptr(), label.len()) };
    (number != limits::NOT_FOUND).then_some(number)
}

/// The engine's version: major, minor, patch.
pub fn version() -> (u32, u32, u32) {
    let number = unsafe { raw::secpal_version() };
    (number >> 16, number >> 8 & 255, number & 255)
}
