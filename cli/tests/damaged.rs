//! Texts with signs changed, left out, put in or cut off: each gets an end and an answer, and what still compiles goes to bytes and back if the
//! engine accepts it. A fault points into its text.
use evaluator::generate::{self, Random};
use language::encode::Compiled;
use language::lexer::{line_and_column, Fault};
use language::*;
use secpal::{Refusal, Slices};

const SIGNS: [&str; 26] = [
    " ",
    "\n",
    ".",
    ",",
    "(",
    ")",
    "#",
    "?",
    "\"",
    "\\",
    "--",
    "-",
    "=",
    "<=",
    "0",
    "9",
    "é",
    "\u{1F600}",
    "says",
    "can say",
    "verb",
    "today",
    "?x",
    "version 2\n",
    "withdraw",
    "family",
];

fn damaged(text: &str, random: &mut Random) -> String {
    let mut signs: Vec<String> = text.chars().map(String::from).collect();
    for _ in 0..random.range(1, 4) {
        let at = random.below(signs.len() + 1);
        match random.below(4) {
            0 => signs.insert(at, random.pick(&SIGNS).to_string()),
            1 if at < signs.len() => signs[at] = random.pick(&SIGNS).to_string(),
            2 if at < signs.len() => {
                signs.remove(at);
            }
            3 if random.once_in(8) => signs.truncate(at),
            _ => {}
        }
    }
    signs.concat()
}

/// A fault stands in its text, between two signs.
fn points_into(text: &str, fault: &Fault) {
    assert!(text.is_char_boundary(fault.span.start) && fault.span.start <= text.len(), "{fault:?}");
    let (line, column) = line_and_column(text, fault.span.start);
    assert!(line >= 1 && column >= 1 && line <= text.split('\n').count());
    assert!(!fault.message.is_empty());
}

fn policy_law(text: &str) {
    match compile_policy(text) {
        Err(fault) => points_into(text, &fault),
        Ok(compiled) if secpal::policy_refusal(&compiled.bytes).is_none() => {
            let shown = show_policy(&compiled.bytes).expect("an accepted policy");
            assert_eq!(compile_policy(&shown).expect("what was shown").bytes, compiled.bytes, "{text}");
            let tidy = format(text).expect("what compiles can be formatted");
            assert_eq!(compile_policy(&tidy).expect("what was formatted").bytes, compiled.bytes, "{text}");
        }
        Ok(compiled) => {
            let refusal = secpal::policy_refusal(&compiled.bytes).expect("it is refused");
            let span = compiled.span(refusal.place as usize).expect("a refusal's place is an item of the text");
            assert!(span.start <= text.len());
        }
    }
}

/// A text that compiles, put to the engine: what is accepted goes to words and back, a refusal is at an item of the text.
fn slice_law(
    text: &str,
    compiled: Result<Compiled, Fault>,
    refusal: impl Fn(&[u8]) -> Option<Refusal>,
    again: impl Fn(&[u8]) -> Option<Vec<u8>>,
) {
    match compiled {
        Err(fault) => points_into(text, &fault),
        Ok(compiled) => match refusal(&compiled.bytes) {
            None => assert_eq!(again(&compiled.bytes).expect("accepted"), compiled.bytes),
            Some(refusal) => assert!(compiled.span(refusal.place as usize).is_some(), "{text}: {refusal:?}"),
        },
    }
    // whatever sort of text it is
    let _ = format(text);
}

fn request_law(policy: &[u8], text: &str) {
    let names = names(policy).expect("an accepted policy");
    slice_law(
        text,
        compile_request(&names, text).map(|(compiled, _)| compiled),
        |bytes| secpal::input_refusal(&Slices::new(policy, bytes)),
        |bytes| Some(compile_request(&names, &show_request(&names, bytes)?).ok()?.0.bytes),
    );
}

fn withdrawals_law(policy: &[u8], text: &str) {
    let names = names(policy).expect("an accepted policy");
    slice_law(
        text,
        compile_withdrawals(&names, text),
        |bytes| secpal::withdrawals_refusal(policy, bytes),
        |bytes| Some(compile_withdrawals(&names, &show_withdrawals(&names, bytes)?).ok()?.bytes),
    );
}

fn hierarchy_law(policy: &[u8], text: &str) {
    let names = names(policy).expect("an accepted policy");
    slice_law(
        text,
        compile_hierarchy(&names, text),
        |bytes| secpal::hierarchy_refusal(policy, bytes),
        |bytes| Some(compile_hierarchy(&names, &show_hierarchy(&names, bytes)?).ok()?.bytes),
    );
}

#[test]
fn every_text_gets_an_answer() {
    let (mut policies, mut requests, mut withdrawals, mut hierarchies) = (0, 0, 0, 0);
    for seed in 0..6000 {
        let case = generate::case(seed, |_| (0, 0));
        let Some(text) = show_policy(&case.policy) else { continue };
        let mut random = Random::new(seed);
        policies += 1;
        policy_law(&damaged(&text, &mut random));
        let names = names(&case.policy).expect("an accepted policy");
        if secpal::input_refusal(&Slices::new(&case.policy, &case.request)).is_none() {
            requests += 1;
            let text = show_request(&names, &case.request).expect("an accepted request");
            request_law(&case.policy, &damaged(&text, &mut random));
        }
        if secpal::withdrawals_refusal(&case.policy, &case.withdrawals).is_none() {
            withdrawals += 1;
            let text = show_withdrawals(&names, &case.withdrawals).expect("accepted withdrawals");
            withdrawals_law(&case.policy, &damaged(&text, &mut random));
        }
        if secpal::hierarchy_refusal(&case.policy, &case.hierarchy).is_none() {
            hierarchies += 1;
            let text = show_hierarchy(&names, &case.hierarchy).expect("an accepted hierarchy");
            hierarchy_law(&case.policy, &damaged(&text, &mut random));
        }
    }
    assert!(policies > 2000 && requests > 1000 && withdrawals > 1000 && hierarchies > 1000);
}
