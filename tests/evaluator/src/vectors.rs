//! Lines of cases: `POLICY REQUEST [WITHDRAWALS [HIERARCHY]] FACTLEN ANSLEN FILL => RESULT FACTS ANSWERS`.
use crate::{Call, Report, Verdict, NONE};

pub struct Case {
    pub call: Call,
    pub expected: Report,
}

fn hex(s: &str) -> Vec<u8> {
    match s {
        "-" => return vec![],
        "." => return NONE.to_vec(),
        _ => {}
    }
    (0..s.len()).step_by(2).map(|i| u8::from_str_radix(&s[i..i + 2], 16).expect("hex")).collect()
}

/// A buffer afterwards: `same`, `zero`, `empty`, or its leading bytes, with 0 after them.
fn buffer(s: &str, lent: &[u8]) -> Vec<u8> {
    match s {
        "same" => lent.to_vec(),
        "zero" | "empty" => vec![0; lent.len()],
        _ => {
            let mut b = hex(s);
            b.resize(lent.len(), 0);
            b
        }
    }
}

pub fn case(line: &str) -> Case {
    let (input, output) = line.split_once(" => ").expect("=>");
    let words: Vec<&str> = input.split(' ').collect();
    let (slices, lent) = words.split_at(words.len() - 3);
    let slice = |i: usize| hex(slices.get(i).unwrap_or(&"."));
    let o: Vec<&str> = output.split(' ').collect();
    let number = |s: &str| s.parse::<u64>().expect("number");
    let fill = number(lent[2]) as u8;
    let facts = vec![fill; number(lent[0]) as usize];
    let answers = vec![fill; number(lent[1]) as usize];
    let (verdict, rest) = match o[0] {
        "allow" => (Verdict::Allow, &o[1..]),
        "deny" => (Verdict::Deny, &o[1..]),
        _ => (Verdict::Refused(number(o[1]) as u32, number(o[2]) as u32, number(o[3])), &o[4..]),
    };
    let expected = Report {
        verdict,
        facts: number(rest[0]),
        rounds: number(rest[1]),
        answers: number(rest[2]),
        fact_buffer: buffer(rest[3], &facts),
        answer_buffer: buffer(rest[4], &answers),
    };
    Case { call: Call { policy: slice(0), request: slice(1), withdrawals: slice(2), hierarchy: slice(3), facts, answers }, expected }
}

/// The cases of a file; a line that begins with `#` names what follows.
pub fn cases(text: &str) -> Vec<(String, Case)> {
    let mut name = String::new();
    let mut all = vec![];
    for line in text.lines() {
        match line.strip_prefix('#') {
            Some(n) => name = n.trim().to_string(),
            None if line.is_empty() => {}
            None => all.push((name.clone(), case(line))),
        }
    }
    all
}
