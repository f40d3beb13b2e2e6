//! The declarations of host/secpal.h, word for word. `tests/declarations.rs` compares them with the header and with the engine.

#[repr(C)]
pub struct Report {
    pub decision: u32,
    pub refusal: u32,
    pub side: u32,
    pub facts: u32,
    pub rounds: u32,
    pub place: u64,
    pub answers: u64,
}

#[repr(C)]
pub struct Slice {
    pub data: *const u8,
    pub len: usize,
}

#[rustfmt::skip]
extern "C" {
    pub fn secpal_decide(policy: *const u8, policy_len: usize, request: *const u8, request_len: usize, withdrawals: *const u8, withdrawals_len: usize, hierarchy: *const u8, hierarchy_len: usize, facts: *mut u8, facts_len: usize, answers: *mut u8, answers_len: usize) -> Report;
    pub fn secpal_reach(policy: *const u8, policy_len: usize, request: *const u8, request_len: usize, withdrawals: *const u8, withdrawals_len: usize, hierarchy: *const u8, hierarchy_len: usize, marks: *mut u8, marks_len: usize) -> Report;
    pub fn secpal_label(policy: *const u8, policy_len: usize, constant: u32, label: *mut Slice);
    pub fn secpal_constants(policy: *const u8, policy_len: usize, offsets: *mut u32, offsets_len: usize) -> u32;
    pub fn secpal_verbs(policy: *const u8, policy_len: usize, offsets: *mut u32, offsets_len: usize) -> u32;
    pub fn secpal_find(policy: *const u8, policy_len: usize, kind: u32, label: *const u8, label_len: usize) -> u32;
    pub fn secpal_version() -> u32;
}
