//! The law of the language: compiling what `show` writes gives the same bytes for every accepted policy, request, slice of withdrawals and hierarchy,
//! and showing what was compiled gives the text in its layout. On the files of cases, and on generated ones: ROUND_TRIPS of them, 20,000 if it is not set.
mod loosen;

use evaluator::{generate, generate::Random, vectors, Call};
use language::syntax::{Constant, Verb};
use language::*;
use loosen::{commented, loosened};

#[derive(Default, Debug)]
struct Count {
    policies: usize,
    requests: usize,
    withdrawals: usize,
    hierarchies: usize,
}

/// A text that `show` wrote, with what compiles a text of its sort.
fn text_law(text: &str, bytes: &[u8], random: &mut Random, compile: impl Fn(&str) -> Vec<u8>) {
    assert_eq!(compile(text), bytes, "compile(show b) is b, for\n{text}");
    assert_eq!(format(text).as_deref(), Ok(text), "what show writes is in its layout");
    let loose = loosened(text, random);
    assert_eq!(compile(&loose), bytes, "white space has no meaning, in\n{loose}");
    assert_eq!(format(&loose).as_deref(), Ok(text), "show(compile t) is t formatted, for\n{loose}");
    let (with_comments, comments) = commented(&loose, random);
    let tidy = format(&with_comments).expect("a text with comments");
    assert_eq!(compile(&tidy), bytes, "comments have no meaning, in\n{tidy}");
    assert_eq!(tidy.matches("-- comment").count(), comments, "no comment is lost, in\n{tidy}");
    assert_eq!(format(&tidy).as_deref(), Ok(tidy.as_str()), "formatted once is formatted");
}

/// Tries the law on a call's slices, as far as the engine accepts them.
fn law(call: &Call, random: &mut Random, count: &mut Count) {
    let Call { policy, request, withdrawals, hierarchy, .. } = call;
    if secpal::policy_refusal(policy).is_some() {
        assert_eq!(show_policy(policy), None, "only accepted bytes are shown");
        return;
    }
    count.policies += 1;
    let text = show_policy(policy).expect("an accepted policy");
    text_law(&text, policy, random, |t| compile_policy(t).expect("a policy's text").bytes);
    let names = names(policy).expect("an accepted policy");
    if secpal::input_refusal(&secpal::Slices::new(policy, request)).is_none() {
        count.requests += 1;
        let text = show_request(&names, request).expect("an accepted request");
        text_law(&text, request, random, |t| compile_request(&names, t).expect("a request's text").0.bytes);
    }
    if secpal::withdrawals_refusal(policy, withdrawals).is_none() {
        count.withdrawals += 1;
        let text = show_withdrawals(&names, withdrawals).expect("accepted withdrawals");
        text_law(&text, withdrawals, random, |t| compile_withdrawals(&names, t).expect("a text of withdrawals").bytes);
    }
    if secpal::hierarchy_refusal(policy, hierarchy).is_none() {
        count.hierarchies += 1;
        let text = show_hierarchy(&names, hierarchy).expect("an accepted hierarchy");
        text_law(&text, hierarchy, random, |t| compile_hierarchy(&names, t).expect("a text of families").bytes);
    }
}

fn label(random: &mut Random) -> String {
    let reserved = language::lexer::RESERVED;
    match random.below(4) {
        0 => reserved[random.below(reserved.len())].to_string(),
        1 => random
            .pick(&["--", "a--b", "a-", "-a", "2026-11-16", "7", "7up", "?x", "\\", "\"", "\\\"", "a.", "v0", "_", "#1", "verb,"])
            .to_string(),
        2 => random.pick(&["arm", "Arm", "belt-motor", "Otto", "x_1"]).to_string(),
        _ => (0..random.range(1, 32)).map(|_| random.range(0x21, 0x7E) as u8 as char).collect(),
    }
}

/// The same policy with other labels and serials: any signs, words of the language, a principal and a thing with one label.
fn dressed(policy: &[u8], random: &mut Random) -> Vec<u8> {
    let mut tree = decode::policy(policy).expect("an accepted policy");
    for constant in &mut tree.constants {
        if let Constant::Label(_, text) = &mut constant.it {
            *text = label(random);
        }
    }
    for verb in &mut tree.verbs {
        verb.it = Verb { label: label(random), kinds: verb.it.kinds.clone() };
    }
    for assertion in &mut tree.assertions {
        assertion.serial = random.pick(&[0, 1, 7, 65_536, u32::MAX]);
    }
    encode::policy(&tree).expect("it fits").bytes
}

#[test]
fn on_the_files_of_cases() {
    let folder = std::env::var("CASES_FOLDER").unwrap_or(concat!(env!("CARGO_MANIFEST_DIR"), "/../tests/cases").to_string());
    let (mut random, mut count) = (Random::new(1), Count::default());
    for entry in std::fs::read_dir(&folder).expect("the folder of cases") {
        let path = entry.expect("an entry").path();
        if path.extension().is_some_and(|extension| extension == "txt") {
            for (_, case) in vectors::cases(&std::fs::read_to_string(&path).expect("a file of cases")) {
                law(&case.call, &mut random, &mut count);
            }
        }
    }
    println!("{folder}: {count:?}");
    assert!(count.policies > 100 && count.requests > 100 && count.withdrawals > 100);
}

#[test]
fn on_generated_ones() {
    let wanted: usize = std::env::var("ROUND_TRIPS").ok().and_then(|n| n.parse().ok()).unwrap_or(20_000);
    let mut count = Count::default();
    for seed in 0.. {
        if count.policies >= wanted && count.requests >= wanted {
            break;
        }
        let case = generate::case(seed, |_| (0, 0));
        let mut random = Random::new(seed);
        law(&case, &mut random, &mut count);
        if secpal::policy_refusal(&case.policy).is_none() {
            let policy = dressed(&case.policy, &mut random);
            law(&Call { policy, ..case }, &mut random, &mut count);
        }
    }
    println!("{count:?}");
}
