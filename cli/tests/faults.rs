//! What the tool says of a text that is not right: line, column, words. A refusal of the engine is shown at its item.
use std::path::PathBuf;
use std::process::Command;
use std::sync::atomic::{AtomicUsize, Ordering};

const NAMES: &str = "principal Works, North, arm\nthing encoder, arm\nverb is-fitter\nverb may-order thing\nverb permit-from day\n";

fn scratch(name: &str, text: &str) -> String {
    let file = PathBuf::from(env!("CARGO_TARGET_TMPDIR")).join(name);
    std::fs::write(&file, text).expect("a scratch file");
    file.to_str().expect("a path").to_string()
}

/// What `secpal check` says, behind the name of the file that it is about.
fn complaint_of(arguments: &[&str], about: &str) -> String {
    let output = Command::new(env!("CARGO_BIN_EXE_secpal")).arg("check").args(arguments).output().expect("it runs");
    assert_eq!(output.status.code(), Some(2), "{arguments:?}");
    let said = String::from_utf8(output.stderr).expect("text");
    said.trim_end().trim_start_matches(about).trim_start_matches(':').to_string()
}

fn complaint(name: &str, policy: &str, request: Option<&str>) -> String {
    let path = scratch(name, policy);
    match request {
        None => complaint_of(&[&path], &path),
        Some(request) => complaint_of(&[&path, request], "request"),
    }
}

/// How many files of statements there are so far: the tests run side by side, and each needs files of its own.
static STATEMENTS: AtomicUsize = AtomicUsize::new(0);

fn statements(cases: &[(&str, &str)]) {
    for (statement, wanted) in cases {
        let name = format!("faults_{}.secpal", STATEMENTS.fetch_add(1, Ordering::Relaxed));
        assert_eq!(complaint(&name, &format!("{NAMES}{statement}\n"), None), *wanted, "{statement}");
    }
}

#[test]
fn names() {
    statements(&[
        ("Works says Noth is-fitter.", "6:12: no principal or thing is declared as Noth; the nearest is North"),
        ("Works says North is-fiter.", "6:18: no verb is declared as is-fiter; the nearest is is-fitter"),
        ("Works says arm is-fitter.", "6:12: arm is a principal and a thing: write principal arm or thing arm"),
        (
            "Works says principal North is-fitter.",
            "6:12: a kind stands before a name only where a principal and a thing share it: write North",
        ),
        ("Works says North may-order.", "6:18: may-order has 1 parameter (thing), and here stand 0"),
        ("Works says North can act as.", "6:18: can act as has 1 parameter (principal), and here stand 0"),
        ("Works says \"says\" is-fitter.", "6:12: no principal or thing is declared as \"says\""),
    ]);
}

#[test]
fn form() {
    statements(&[
        ("Works says North is-fitter", "7:1: a full stop, a comma, \"if\" or \"where\" is wanted here, not the end"),
        ("Works North is-fitter.", "6:7: \"says\" is wanted here, not \"North\""),
        ("Works says North can say ?x is-fitter.", "6:26: the depth, 0 or inf, is wanted here, not a variable"),
        ("Works says North permit-from 2023-02-29.", "6:30: 2023-02-29 is no date from 2000-01-01 to 2099-12-31"),
        ("Works says ?v8 is-fitter.", "6:12: variables by number are ?v0 to ?v7"),
        ("Works says North is-fitter where today < 2026-01-01.", "6:40: '<' has no meaning here; a label that has it is quoted"),
        ("Works says \"a b\" is-fitter.", "6:14: a label has letters, digits and signs from ! to ~ alone, and no spaces"),
        ("Works says North is-fitter and North is-fitter.", "6:28: a full stop, a comma, \"if\" or \"where\" is wanted here, not \"and\""),
        ("pricipal Otto", "6:10: \"says\" is wanted here, not \"Otto\"; or, in the place of the first word, principal"),
        ("verb a b", "6:8: the kind of a parameter or the end of the line is wanted here, not \"b\""),
        ("thing belt", "6:1: constants are declared before the verbs and before the statements"),
        ("Works says if is-fitter.", "6:12: a subject is wanted here, not \"if\""),
    ]);
}

#[test]
fn refusals_of_the_engine() {
    statements(&[
        ("Works says ?x is-fitter.", "6:12: refused (6): this variable must occur in a condition after \"if\""),
        ("Works says North is-fitter if North can say 0 North is-fitter.", "6:31: refused (6): a condition has no \"can say\""),
        ("Works says North may-order Works.", "6:28: refused (5): a thing is wanted here, and this is a principal"),
        ("Works says North permit-from today.", "6:30: refused (5): today stands in constraints alone"),
        ("encoder says North is-fitter.", "6:1: refused (5): a principal is wanted here, and this is a thing"),
        (
            "Works says ?x may-order ?x if ?x is-fitter.",
            "6:25: refused (5): a thing is wanted here, and elsewhere this variable stands for a principal",
        ),
        (
            "Works says North can say 0 North can say 0 North can say 0 North can say 0 North is-fitter.",
            "6:1: refused (3): there are at most 3 \"can say\" inside each other, and here are 4",
        ),
    ]);
    let alike = complaint("alike.secpal", "principal Works\nprincipal Otto, Works\n", None);
    assert_eq!(alike, "2:17: refused (4): the principal Works is declared already");
    let capitals = complaint("capitals.secpal", "principal Works\nthing Arm, arm\n", None);
    assert_eq!(capitals, "2:12: refused (4): the thing arm is declared already, as Arm: capitals do not tell labels apart");
    let verbs = complaint("verbs.secpal", "principal Works\nverb may-order\nverb May-Order\n", None);
    assert_eq!(verbs, "3:1: refused (4): the verb May-Order is declared already, as may-order: capitals do not tell labels apart");
    let long = complaint("long.secpal", &format!("principal {}\n", "a".repeat(33)), None);
    assert_eq!(long, "1:11: refused (3): a label has 1 to 32 characters, and this one has 33");
    assert_eq!(complaint("version.secpal", "version 3\nprincipal A\n", None), "1:1: refused (1): the version is absent or not known");
    let comma = complaint("comma.secpal", "principal Works Otto\n", None);
    assert_eq!(comma, "1:17: a comma or the end of the line is wanted here, not \"Otto\"");
    let sign = complaint("sign.secpal", "principal W\u{f6}rks\n", None);
    assert_eq!(sign, "1:12: a label has letters, digits and signs from ! to ~ alone, and no spaces");
    assert_eq!(complaint("empty.secpal", "", None), "1:1: refused (3): a policy declares one constant or more");
}

#[test]
fn limits_of_a_policy() {
    let names: Vec<String> = (0..256).map(|i| format!("p{i}")).collect();
    let many = complaint("many.secpal", &format!("principal {}\n", names.join(",\n")), None);
    assert_eq!(many, "256:1: this is one too many: a policy has at most 255 constants");
    let statements = "p0 says p0 can act as p0.\n".repeat(257);
    let many = complaint("statements.secpal", &format!("principal p0\n{statements}"), None);
    assert_eq!(many, "258:1: this is one too many: a policy has at most 256 statements");
}

#[test]
fn requests() {
    let check = |name: &str, request: &str| complaint(name, NAMES, Some(request));
    assert_eq!(check("r1", "ask Works says North is-fitter"), "1:1: \"on\" is wanted here, not \"ask\"");
    assert!(check("r2", "on 2026-11-16 ask not(Works says ?x is-fitter)").starts_with("1:19: refused (7): the request is not safe"));
    assert_eq!(
        check("r3", "on 2026-11-16 ask all(Works says ?x is-fitter,\n  North says Works may-order ?x)"),
        "2:30: refused (5): a thing is wanted here, and elsewhere this variable stands for a principal"
    );
    let deep = format!("on 2026-11-16 ask {}Works says North is-fitter{}", "not(".repeat(8), ")".repeat(8));
    assert_eq!(check("r4", &deep), "1:51: refused (3): parts stand at most 8 deep");
    let deeper = format!("on 2026-11-16 ask {}Works says North is-fitter{}", "not(".repeat(9999), ")".repeat(9999));
    assert!(check("r5", &deeper).ends_with("too deep: parts stand at most 8 deep"));
}

/// What is said of a file of entries beside a policy.
fn entries_complaint(policy: &str, option: &str, name: &str, text: &str) -> String {
    let file = scratch(name, text);
    complaint_of(&[policy, option, &file], &file)
}

#[test]
fn withdrawals() {
    let policy = scratch("withdrawn.secpal", &format!("{NAMES}Works says North permit-from 2026-03-01.\n"));
    let check = |name: &str, text: &str| entries_complaint(&policy, "--withdrawals", name, text);
    let cases = [
        ("withdraw Noth #1.", "1:10: the policy has no principal or thing Noth; the nearest is North"),
        ("withdraw North #1\n  where today <= 2027-01-01.", "2:18: the policy has no day 2027-01-01"),
        ("withdraw North 1.", "1:16: \"#\" is wanted here, not the number 1"),
        ("withdraw North #1", "1:18: a full stop, a comma or \"where\" is wanted here, not the end"),
        ("Works says North is-fitter.", "1:1: \"withdraw\" is wanted here, not \"Works\""),
        ("version 2 withdraw North #1.", "1:1: refused (1): the version is absent or not known"),
        ("withdraw North #1.\nwithdraw encoder #1.", "2:10: refused (5): a principal is wanted here, and this is a thing"),
        ("withdraw today #1.", "1:10: refused (5): today stands in constraints alone"),
        ("withdraw North #1 where today <= encoder.", "1:34: refused (5): a day or a quantity is wanted here, and this is a thing"),
        ("withdraw ?x #1.", "1:10: refused (10): a withdrawal has no variables"),
        ("withdraw North #1 where today = 2026-03-01, ?d <= today.", "1:45: refused (10): a withdrawal has no variables"),
        (
            "withdraw ?x #1 where ?x <= today.",
            "1:22: refused (5): a day or a quantity is wanted here, and elsewhere this variable stands for a principal",
        ),
        (
            "withdraw North #1 where today = today, today = today, today = today, today = today, today = today.",
            "1:1: refused (3): there are at most 4 constraints after \"where\", and here are 5",
        ),
    ];
    for (i, (text, wanted)) in cases.iter().enumerate() {
        assert_eq!(check(&format!("withdrawals_{i}"), text), *wanted, "{text}");
    }
    let many = check("many_withdrawals", &"withdraw North #1.\n".repeat(257));
    assert_eq!(many, "257:1: this is one too many: a file has at most 256 withdrawals");
}

#[test]
fn families() {
    let policy = scratch("families.secpal", &format!("{NAMES}Works says North permit-from 2026-03-01.\n"));
    let check = |name: &str, text: &str| entries_complaint(&policy, "--hierarchy", name, text);
    let cases = [
        ("family may-oder 1: encoder over thing arm.", "1:8: the policy has no verb may-oder; the nearest is may-order"),
        ("family may-order 1: encoder over gearbox.", "1:34: the policy has no principal or thing gearbox"),
        ("family may-order 1 encoder over thing arm.", "1:20: \":\" is wanted here, not \"encoder\""),
        ("family may-order 1: encoder thing arm.", "1:29: \"over\" is wanted here, not \"thing\""),
        ("family may-order 1: encoder over thing arm", "1:43: a full stop or a comma is wanted here, not the end"),
        ("withdraw North #1.", "1:1: \"family\" is wanted here, not \"withdraw\""),
        ("family may-order 2: encoder over thing arm.", "1:18: refused (5): may-order has 1 parameter (thing)"),
        ("family may-order 0: encoder over thing arm.", "1:18: refused (5): may-order has 1 parameter (thing)"),
        ("family can act as 1: Works over North.", "1:8: refused (5): \"can act as\" has no families"),
        ("family may-order 1: thing arm over encoder, Works.", "1:45: refused (5): a thing is wanted here, and this is a principal"),
        ("family may-order 1: North over encoder.", "1:21: refused (5): a thing is wanted here, and this is a principal"),
        ("family may-order 1: ?x over encoder.", "1:21: refused (5): a family has constants alone"),
        ("family permit-from 1: today over 2026-03-01.", "1:23: refused (5): a family has constants alone"),
        ("family may-order 1: encoder over thing arm, encoder.", "1:45: refused (11): a family has itself as a member"),
        ("family may-order 256: encoder over thing arm.", "1:18: a verb has at most 3 parameters"),
    ];
    for (i, (text, wanted)) in cases.iter().enumerate() {
        assert_eq!(check(&format!("families_{i}"), text), *wanted, "{text}");
    }
    let many = check("many_families", &"family may-order 1: encoder over thing arm.\n".repeat(1025));
    assert_eq!(many, "1025:34: this is one too many: a file has at most 1024 members of families");
}
