//! The lookups of the C interface beside the plain evaluator's reading: labels, offsets, finding, reach. Each function says what is wrong, if anything.
use crate::engine;
use evaluator::read::{self, Policy, Value};
use evaluator::Slices;
use secpal::limits;

/// What items and marks are lent with, to see which were written.
const LENT: u32 = 0xA5A5_A5A5;

pub fn wrong(slices: &Slices) -> Option<String> {
    let policy = slices.policy;
    let accepted = read::policy(policy).ok();
    let found = |policy_read: &Option<Policy>| wrong_labels(policy, policy_read).or_else(|| wrong_finds(policy, policy_read));
    wrong_offsets(policy, &accepted).or_else(|| found(&accepted)).or_else(|| wrong_reach(slices))
}

/// Each label of an accepted policy is that part of its bytes which holds it, and not another with equal bytes; of another policy it is empty.
fn wrong_labels(policy: &[u8], accepted: &Option<Policy>) -> Option<String> {
    for c in 0..256 {
        let expected = accepted.as_ref().and_then(|p| p.label(c));
        let right = match (engine::label(policy, c as u32), expected) {
            ((Some(at), n), Some(part)) => (at..at + n) == part,
            ((Some(_), n), None) => n == 0,
            _ => false,
        };
        if !right {
            return Some(format!("the label of constant {c}, or its place"));
        }
    }
    None
}

/// A principal and a thing of one label: the contract speaks of the label's bytes, which are alike, and only the offset tells the two apart.
const ONE_LABEL: [u8; 17] = [1, 0, 0, 0, 12, 0, 2, 2, 1, b'A', 2, 2, b'A', 0, 0, 0, 0];

/// The labels of `ONE_LABEL`, which stand at two places.
pub fn wrong_in_one_label() -> Option<String> {
    match read::policy(&ONE_LABEL) {
        Ok(p) if p.label(0) == Some(9..10) && p.label(1) == Some(12..13) => wrong_labels(&ONE_LABEL, &Some(p)),
        _ => Some("a principal and a thing of one label are not read".to_string()),
    }
}

/// Where the items of two lists stand that begin with a length byte each: the first list's count is at 5.
fn offsets(policy: &[u8]) -> [Vec<u32>; 2] {
    let mut at = 5;
    [(); 2].map(|()| {
        let count = usize::from(policy[at]) * 256 + usize::from(policy[at + 1]);
        at += 2;
        let item = |_| {
            let start = at;
            at += 1 + usize::from(policy[start]);
            start as u32
        };
        (0..count).map(item).collect()
    })
}

fn wrong_offsets(policy: &[u8], accepted: &Option<Policy>) -> Option<String> {
    let [constants, verbs] = if accepted.is_some() { offsets(policy) } else { [vec![], vec![]] };
    let wrong = |expected: &[u32], room: usize, write: &dyn Fn(&mut [u32]) -> u32| {
        let mut lent = vec![LENT; room];
        let count = write(&mut lent);
        let written = expected.len().min(room);
        count as usize != expected.len() || lent[..written] != expected[..written] || lent[written..].iter().any(|item| *item != LENT)
    };
    for room in [0, 1, 3, 64, 255, 300] {
        if wrong(&constants, room, &|lent| secpal::constants_into(policy, lent)) {
            return Some(format!("the offsets of the constants, with room for {room}"));
        }
        if wrong(&verbs, room, &|lent| secpal::verbs_into(policy, lent)) {
            return Some(format!("the offsets of the verbs, with room for {room}"));
        }
    }
    None
}

fn wrong_finds(policy: &[u8], accepted: &Option<Policy>) -> Option<String> {
    let none = vec![];
    let constants = accepted.as_ref().map_or(&none, |p| &p.constants);
    let number = |kind: u8, label: &[u8]| {
        let wanted = Value::Label(label.to_ascii_lowercase());
        constants.iter().position(|(k, value)| *k == kind && *value == wanted).map(|number| number as u32)
    };
    let mut labels: Vec<Vec<u8>> = [&b""[..], b"a", b"no such label", &[0xFF]].map(<[u8]>::to_vec).to_vec();
    let some = constants.iter().filter_map(|(_, value)| if let Value::Label(label) = value { Some(label) } else { None }).take(20);
    // in small letters, in capitals, and with `@` for a backquote
    labels.extend(some.flat_map(|l| [l.clone(), l.to_ascii_uppercase(), l.iter().map(|b| if *b == b'`' { b'@' } else { *b }).collect()]));
    for label in &labels {
        for kind in 0..6 {
            let labelled = kind == limits::PRINCIPAL || kind == limits::THING;
            let expected = if labelled { number(kind, label) } else { None };
            if secpal::find(policy, kind, label) != expected {
                return Some(format!("finding kind {kind}, label {label:?}"));
            }
        }
    }
    None
}

/// The marks, and the refusal, for lent marks of several lengths.
pub fn wrong_reach(slices: &Slices) -> Option<String> {
    for room in [0, 3, 255, 300] {
        let lent = vec![LENT as u8; room];
        let mut marks = lent.clone();
        let refusal = secpal::reach_into(&engine::slices(slices), &mut marks).err().map(|r| (r.number, r.side, r.place));
        if (marks, refusal) != evaluator::reach(slices, &lent) {
            return Some(format!("the reach, with room for {room} marks"));
        }
    }
    None
}
