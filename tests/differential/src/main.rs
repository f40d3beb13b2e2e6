//! The engine beside the plain evaluator: on files of cases, and on generated ones. `differential [--cases N] [--seed S] FILE..`
use evaluator::{generate, vectors, Call, Report, Slices};

mod engine;
mod lookups;

/// How many facts and answers a case has, where there is room for all: the generator makes some buffers just too short.
fn sizes(slices: &Slices) -> (usize, usize) {
    let (r, _) = engine::decision(slices, &vec![0; 16 * 3000], &vec![0; 8 * 20000]);
    (r.facts as usize, r.answers as usize)
}

/// What is wrong with the engine's answer, if anything.
fn compare(call: &Call, expected: &Report) -> Option<String> {
    let (got, tidy) = engine::decision(&call.slices(), &call.facts, &call.answers);
    if !tidy {
        return Some("bytes outside the lent buffers were written, or a decision has a refusal's numbers".to_string());
    }
    if got != *expected {
        return Some(format!("{:?} and not {:?}, or another buffer", got.verdict, expected.verdict));
    }
    None
}

fn main() {
    let (mut count, mut seed, mut files) = (20_000u64, 0u64, vec![]);
    let mut words = std::env::args().skip(1);
    while let Some(w) = words.next() {
        match w.as_str() {
            "--cases" => count = words.next().and_then(|n| n.parse().ok()).expect("--cases N"),
            "--seed" => seed = words.next().and_then(|n| n.parse().ok()).expect("--seed S"),
            _ => files.push(w),
        }
    }
    let (mut passed, mut failed) = (0, 0);
    let mut tell = |name: String, wrong: Option<String>| match wrong {
        None => passed += 1,
        Some(what) => {
            failed += 1;
            println!("{name}: {what}");
        }
    };
    for file in files {
        let text = std::fs::read_to_string(&file).expect("a file of cases");
        for (i, (name, c)) in vectors::cases(&text).into_iter().enumerate() {
            tell(format!("{file}: case {} ({name})", i + 1), compare(&c.call, &c.expected).or(lookups::wrong(&c.call.slices())));
        }
    }
    tell("two constants of one label".to_string(), lookups::wrong_in_one_label());
    println!("differential: {count} generated cases, seeds {seed} to {}", seed + count.max(1) - 1);
    for s in seed..seed + count {
        let c = generate::case(s, sizes);
        let expected = evaluator::decision(&c.slices(), &c.facts, &c.answers);
        // each lookup costs a reading of the policy, so all of them are made in every twentieth case
        let wrong = compare(&c, &expected).or_else(|| lookups::wrong_reach(&c.slices()));
        tell(format!("seed {s}"), wrong.or_else(|| if s % 20 == 0 { lookups::wrong(&c.slices()) } else { None }));
    }
    println!("{passed} passed, {failed} failed");
    std::process::exit(if failed == 0 && passed > 0 { 0 } else { 1 });
}
