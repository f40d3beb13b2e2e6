//! Runs the evaluator on files of cases, and says how many of them it decides as they say. `--sorts N`: what comes of N generated cases.
use evaluator::{decision, generate, vectors, Slices, Verdict};
use std::collections::BTreeMap;

/// How many facts and answers a case has, where there is room for all.
fn sizes(slices: &Slices) -> (usize, usize) {
    let r = decision(slices, &vec![0; 16 * 3000], &vec![0; 8 * 20000]);
    (r.facts as usize, r.answers as usize)
}

fn sorts(n: u64) {
    let mut found = BTreeMap::new();
    for seed in 0..n {
        let c = generate::case(seed, sizes);
        let r = decision(&c.slices(), &c.facts, &c.answers);
        let sort = match r.verdict {
            Verdict::Allow => "allow".to_string(),
            Verdict::Deny => "deny".to_string(),
            Verdict::Refused(n, side, _) => format!("refused {n}, side {side}"),
        };
        *found.entry(sort).or_insert(0) += 1;
    }
    found.iter().for_each(|(sort, n)| println!("{n:6} {sort}"));
}

fn main() {
    let words: Vec<String> = std::env::args().skip(1).collect();
    if words.first().is_some_and(|w| w == "--sorts") {
        return sorts(words[1].parse().expect("a number"));
    }
    let (mut passed, mut failed) = (0, 0);
    for file in words {
        let text = std::fs::read_to_string(&file).expect("a file of cases");
        for (i, (name, c)) in vectors::cases(&text).into_iter().enumerate() {
            let got = decision(&c.call.slices(), &c.call.facts, &c.call.answers);
            if got == c.expected {
                passed += 1;
            } else {
                failed += 1;
                println!("{file}: case {} ({name}): {:?} and not {:?}", i + 1, got.verdict, c.expected.verdict);
            }
        }
    }
    println!("{passed} passed, {failed} failed");
    std::process::exit(if failed == 0 && passed > 0 { 0 } else { 1 });
}
