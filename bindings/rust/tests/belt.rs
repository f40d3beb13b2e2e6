//! The wrapper on the examples; docs/FORMAT.md lays out the bytes of the belt policy.
use secpal::{limits, Refusal, Slices, Verdict};

fn example(name: &str) -> Vec<u8> {
    example_in("belt", name)
}

fn example_in(folder: &str, name: &str) -> Vec<u8> {
    let path = format!("{}/../../examples/{folder}/{name}.bin", env!("CARGO_MANIFEST_DIR"));
    std::fs::read(&path).unwrap_or_else(|error| panic!("{path}: {error}"))
}

#[test]
fn a_decision() {
    let (policy, request) = (example("policy"), example("who"));
    let (mut facts, mut answers) = (vec![0xAA; 1024], vec![0xAA; 64]);
    let report = secpal::decide(&Slices::new(&policy, &request), &mut facts, &mut answers);
    assert_eq!((report.verdict, report.facts, report.rounds, report.answers), (Verdict::Allow, 10, 3, 1));
    assert_eq!(facts[..16], [0, 1, 0, 0, 1, 1, 0, 0, 0, 0, 0, 0, 1, 0, 0, 0]);
    assert!(facts[160..].iter().all(|byte| *byte == 0));
    assert_eq!(answers[..8], [2, 255, 255, 255, 255, 255, 255, 255]);
    assert!(answers[8..].iter().all(|byte| *byte == 0));
}

#[test]
fn names_and_offsets() {
    let policy = example("policy");
    assert_eq!(secpal::constants(&policy), [7, 14, 21, 27]);
    assert_eq!(secpal::verbs(&policy), [38, 49]);
    assert_eq!(secpal::label(&policy, 3), b"encoder");
    assert_eq!(secpal::label(&policy, 4), b"");
    assert_eq!(secpal::find(&policy, limits::PRINCIPAL, b"Otto"), Some(2));
    assert_eq!(secpal::find(&policy, limits::PRINCIPAL, b"oTTO"), Some(2));
    assert_eq!(secpal::find(&policy, limits::THING, b"Otto"), None);
    assert_eq!(secpal::find(&policy, limits::DAY, b"Otto"), None);
}

#[test]
fn reach() {
    let (policy, request) = (example("policy"), example("otto"));
    let marks = secpal::reach(&Slices::new(&policy, &request)).expect("both are accepted");
    assert_eq!(marks.iter().filter(|mark| **mark).count(), 2);
    assert!(marks[0] && marks[1], "Works is asked, and lets North speak");
    let no_request = Refusal { number: limits::BAD_VERSION, side: limits::SIDE_REQUEST, place: 0 };
    assert_eq!(secpal::reach(&Slices::new(&policy, &[])), Err(no_request));
}

#[test]
fn withdrawals() {
    let (policy, request) = (example("policy"), example("otto"));
    let withdrawals = example("withdrawals");
    let slices = Slices { withdrawals: &withdrawals, ..Slices::new(&policy, &request) };
    let (mut facts, mut answers) = (vec![0xAA; 1024], vec![0xAA; 64]);
    let report = secpal::decide(&slices, &mut facts, &mut answers);
    assert_eq!((report.verdict, report.facts, report.rounds, report.answers), (Verdict::Deny, 6, 1, 0));
    let no_withdrawals = Refusal { number: limits::BAD_VERSION, side: limits::SIDE_WITHDRAWALS, place: 0 };
    assert_eq!(secpal::input_refusal(&Slices { withdrawals: &[], ..slices }), Some(no_withdrawals));
    assert_eq!(secpal::input_refusal(&Slices { withdrawals: secpal::NONE, ..slices }), None);
}

#[test]
fn hierarchy() {
    let [policy, request, hierarchy] = ["policy", "request", "hierarchy"].map(|name| example_in("parts", name));
    let slices = Slices { hierarchy: &hierarchy, ..Slices::new(&policy, &request) };
    let (mut facts, mut answers) = (vec![0xAA; 1024], vec![0xAA; 64]);
    assert_eq!(secpal::decide(&slices, &mut facts, &mut answers).verdict, Verdict::Allow);
    assert_eq!(secpal::decide(&Slices { hierarchy: secpal::NONE, ..slices }, &mut facts, &mut answers).verdict, Verdict::Deny);
    let no_hierarchy = Refusal { number: limits::BAD_VERSION, side: limits::SIDE_HIERARCHY, place: 0 };
    assert_eq!(secpal::input_refusal(&Slices { hierarchy: &[], ..slices }), Some(no_hierarchy));
}

#[test]
fn a_policy_that_is_not_accepted() {
    let mut policy = example("policy");
    policy[7] = 200; // the first constant's length
    let refusal = Refusal { number: limits::BAD_FORM, side: limits::SIDE_POLICY, place: 7 };
    assert_eq!(secpal::policy_refusal(&policy), Some(refusal));
    assert_eq!(secpal::reach(&Slices::new(&policy, &example("otto"))), Err(refusal));
    assert!(secpal::constants(&policy).is_empty() && secpal::verbs(&policy).is_empty());
    assert_eq!((secpal::label(&policy, 0), secpal::find(&policy, limits::PRINCIPAL, b"Works")), (&b""[..], None));
    assert_eq!(secpal::policy_refusal(&example("policy")), None);
    assert!(secpal::constants(&[]).is_empty());
}
