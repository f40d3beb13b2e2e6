//! The tool as a person calls it: what it prints, and its exit status, 0 for allow, 1 for deny, 2 for a refusal or an error.
use std::path::PathBuf;
use std::process::Command;

struct Ran {
    status: i32,
    printed: String,
    complained: String,
}

fn secpal(arguments: &[&str]) -> Ran {
    let examples = concat!(env!("CARGO_MANIFEST_DIR"), "/../examples");
    let output = Command::new(env!("CARGO_BIN_EXE_secpal")).args(arguments).current_dir(examples).output().expect("it runs");
    let text = |bytes| String::from_utf8(bytes).expect("text");
    Ran { status: output.status.code().expect("an exit status"), printed: text(output.stdout), complained: text(output.stderr) }
}

/// A file in a folder of this run.
fn scratch(name: &str, content: &[u8]) -> String {
    let folder = PathBuf::from(env!("CARGO_TARGET_TMPDIR"));
    let file = folder.join(name);
    std::fs::write(&file, content).expect("a scratch file");
    file.to_str().expect("a path").to_string()
}

const POLICY: &str = "permits/permits.secpal";

#[test]
fn allow_is_0() {
    let ran = secpal(&["decide", POLICY, "on 2026-11-16 ask Works says ?who may-order encoder"]);
    assert_eq!((ran.status, ran.printed.as_str()), (0, "allow: Works says ?who may-order encoder\n  ?who = Otto\n"));
}

#[test]
fn names_in_either_case_are_printed_as_declared() {
    let ran = secpal(&["decide", POLICY, "on 2026-11-16 ask works says OTTO May-Order ENCODER"]);
    assert_eq!((ran.status, ran.printed.as_str()), (0, "allow: Works says Otto may-order encoder\n"));
}

#[test]
fn deny_is_1_and_says_what_was_asked() {
    let ran = secpal(&["decide", POLICY, "on 2028-11-16 ask Works says Otto may-order encoder"]);
    assert_eq!(ran.status, 1);
    let wanted = "deny: Works says Otto may-order encoder\n  does not follow from the statements of permits/permits.secpal on 2028-11-16\n";
    assert_eq!(ran.printed, wanted);
}

#[test]
fn what_the_policy_does_not_have_is_2_and_not_deny() {
    let ran = secpal(&["decide", POLICY, "on 2026-11-16 ask Works says Oto may-order encoder"]);
    assert_eq!((ran.status, ran.printed.as_str()), (2, ""));
    assert_eq!(ran.complained, "request:1:30: the policy has no principal or thing Oto; the nearest is Otto\n");
    let ran = secpal(&["decide", POLICY, "on 2026-11-16 ask Works says Otto permit-from 2026-03-02"]);
    assert_eq!((ran.status, ran.complained.as_str()), (2, "request:1:47: the policy has no day 2026-03-02\n"));
}

#[test]
fn both_forms_of_files() {
    let bytes = scratch("permits.bin", b"");
    assert_eq!(secpal(&["compile", POLICY, "-o", &bytes]).status, 0);
    let asked = scratch("asked.bin", b"");
    let question = "on 2026-11-16 ask all(Works says ?who may-order encoder, not(Works says ?who is-fitter))";
    assert_eq!(secpal(&["compile", POLICY, question, "-o", &asked]).status, 0);
    assert_eq!(secpal(&["decide", &bytes, &asked]).status, 1);
    assert_eq!(secpal(&["decide", POLICY, &asked]).status, 1);
    let shown = secpal(&["show", &bytes, &asked]);
    assert_eq!(shown.printed, question.replace("?who", "?v0") + "\n");
    let text = scratch("asked.txt", shown.printed.as_bytes());
    assert_eq!(secpal(&["decide", &bytes, &text]).status, 1);
}

#[test]
fn refused_bytes_are_shown_with_their_place() {
    let ran = secpal(&["decide", "belt/policy.bin", "belt/policy.bin"]);
    assert_eq!(ran.status, 2);
    assert!(ran.complained.starts_with("belt/policy.bin, byte 5: refused (3): "), "{}", ran.complained);
}

#[test]
fn facts_by_round() {
    let ran = secpal(&["facts", "belt/policy.bin", "belt/otto.bin"]);
    assert_eq!(ran.status, 0);
    assert!(
        ran.printed.ends_with("round 2\n  Works says Otto is-fitter\nround 3\n  Works says Otto may-order encoder\n"),
        "{}",
        ran.printed
    );
}

#[test]
fn whose_words_count() {
    let ran = secpal(&["reach", "belt/policy.bin", "belt/otto.bin"]);
    assert_eq!((ran.status, ran.printed.as_str()), (0, "Works\nNorth\n"));
}

#[test]
fn withdrawals() {
    let (asked, file) = ("belt/otto.bin", "belt/withdrawals.secpal");
    let ran = secpal(&["decide", "belt/belt.secpal", asked, "--withdrawals", file]);
    let wanted = "deny: Works says Otto may-order encoder\n  does not follow from the statements of belt/belt.secpal, without those that \
                  belt/withdrawals.secpal withdraws, on 2000-01-01\n";
    assert_eq!((ran.status, ran.printed.as_str()), (1, wanted));
    assert_eq!(secpal(&["decide", "belt/policy.bin", asked, "--withdrawals", "belt/withdrawals.bin"]).status, 1);
    assert_eq!(secpal(&["reach", "belt/policy.bin", asked, "--withdrawals", file]).printed, "Works\nNorth\n");
    let bytes = scratch("withdrawals.bin", b"");
    assert_eq!(secpal(&["compile", "belt/belt.secpal", "--withdrawals", file, "-o", &bytes]).status, 0);
    let examples = concat!(env!("CARGO_MANIFEST_DIR"), "/../examples/belt/withdrawals.bin");
    assert_eq!(std::fs::read(&bytes).expect("the file"), std::fs::read(examples).expect("the example"));
    assert_eq!(secpal(&["show", "belt/policy.bin", "--withdrawals", &bytes]).printed, "withdraw North #0.\n");
    let ran = secpal(&["check", "belt/policy.bin", "--withdrawals", "belt/policy.bin"]);
    assert!(ran.complained.starts_with("belt/policy.bin, byte 7: refused (3): "), "{}", ran.complained);
    let ran = secpal(&["check", "belt/policy.bin", "--withdrawals"]);
    assert_eq!((ran.status, ran.complained.as_str()), (2, "secpal: --withdrawals wants a file\n"));
}

/// A withdrawal with a constraint acts on some days and not on others.
#[test]
fn withdrawals_on_a_day() {
    let file = scratch("permit.withdrawals", b"withdraw North #5 where 2026-03-01 <= today.\n");
    let expected = scratch("permit.expect", b"on 2026-11-16\nanswers Works says ?x permit-from ?d are none.\non 2026-02-28\nanswers Works says ?x permit-from ?d are ?x = Otto, ?d = 2026-03-01.\n");
    let ran = secpal(&["test", POLICY, &expected, "--withdrawals", &file]);
    assert_eq!((ran.status, ran.printed.as_str()), (0, "2 as expected, 0 not\n"));
}

#[test]
fn a_right_to_a_family_covers_its_members() {
    let (policy, families) = ("parts/parts.secpal", "parts/families.secpal");
    let asked = "on 2026-11-17 ask Works says Otto may-order ?part";
    let ran = secpal(&["decide", policy, asked, "--hierarchy", families]);
    let all = "  ?part = belt-parts\n  ?part = encoder\n  ?part = gearbox\n  ?part = bearing\n";
    assert_eq!((ran.status, ran.printed), (0, format!("allow: Works says Otto may-order ?part\n{all}")));
    let bearing = "on 2026-11-17 ask Works says Otto may-order bearing";
    assert_eq!(secpal(&["decide", policy, bearing]).status, 1);
    let fewer = scratch("fewer.secpal", b"family may-order 1: belt-parts over encoder.\n");
    let ran = secpal(&["decide", policy, bearing, "--hierarchy", &fewer, "--withdrawals", "parts/none.bin"]);
    assert_eq!(ran.status, 2, "there is no such file");
    let ran = secpal(&["decide", policy, bearing, "--hierarchy", &fewer]);
    let wanted = format!("  does not follow from the statements of parts/parts.secpal and the families of {fewer} on 2026-11-17\n");
    assert!(ran.status == 1 && ran.printed.ends_with(&wanted), "{}", ran.printed);
}

#[test]
fn families_in_bytes() {
    let bytes = scratch("hierarchy.bin", b"");
    assert_eq!(secpal(&["compile", "parts/parts.secpal", "--hierarchy", "parts/families.secpal", "-o", &bytes]).status, 0);
    let example = concat!(env!("CARGO_MANIFEST_DIR"), "/../examples/parts/hierarchy.bin");
    assert_eq!(std::fs::read(&bytes).expect("the file"), std::fs::read(example).expect("the example"));
    let shown = "family may-order 1: belt-parts over encoder, gearbox.\nfamily may-order 1: gearbox over bearing.\n";
    assert_eq!(secpal(&["show", "parts/policy.bin", "--hierarchy", "parts/hierarchy.bin"]).printed, shown);
    assert_eq!(secpal(&["decide", "parts/policy.bin", "parts/request.bin", "--hierarchy", "parts/hierarchy.bin"]).status, 0);
    let both = ["show", "parts/policy.bin", "--hierarchy", "parts/hierarchy.bin", "--withdrawals", "belt/withdrawals.bin"];
    assert_eq!(secpal(&both).complained, "secpal: one file at a time: withdrawals or a hierarchy\n");
}

/// Under version 1 whoever acts as North vouches as North does, and its words count; under version 2 neither.
#[test]
fn stand_ins() {
    let (policy, asked) = ("stand-ins/stand-ins.secpal", "on 2026-11-17 ask Works says Otto is-fitter");
    assert_eq!(secpal(&["test", policy, "stand-ins/stand-ins.expect"]).printed, "2 as expected, 0 not\n");
    assert_eq!(secpal(&["reach", policy, asked]).printed, "Works\nNorth\n");
    assert!(secpal(&["show", policy]).printed.starts_with("version 2\n\nprincipal"));
    let text =
        std::fs::read_to_string(concat!(env!("CARGO_MANIFEST_DIR"), "/../examples/stand-ins/stand-ins.secpal")).expect("the example");
    let first = scratch("stand-ins.secpal", text.replace("version 2", "version 1").as_bytes());
    assert_eq!(secpal(&["decide", &first, asked]).status, 0);
    assert_eq!(secpal(&["reach", &first, asked]).printed, "Works\nNorth\nSouth\n");
}

#[test]
fn answers_for_programs() {
    let ran = secpal(&["decide", "belt/policy.bin", "belt/who.bin", "--json"]);
    let wanted =
        "{\"decision\":\"allow\",\"asked\":\"Works says ?v0 may-order encoder\",\"today\":\"2000-01-01\",\"facts\":10,\"rounds\":3,\
                  \"answers\":[{\"?v0\":\"Otto\"}]}\n";
    assert_eq!((ran.status, ran.printed.as_str()), (0, wanted));
    let ran = secpal(&["--json", "check", POLICY, "on 2026-11-16 ask Works says Oto is-fitter"]);
    let wanted =
        "{\"error\":\"the policy has no principal or thing Oto; the nearest is Otto\",\"file\":\"request\",\"line\":1,\"column\":30}\n";
    assert_eq!((ran.status, ran.printed.as_str(), ran.complained.as_str()), (2, wanted, ""));
    for command in [&["limits"][..], &["version"], &["reach", "belt/policy.bin", "belt/otto.bin"], &["check", POLICY]] {
        let ran = secpal(&[command, &["--json"]].concat());
        assert_eq!(ran.status, 0);
        assert!(ran.printed.starts_with('{') && ran.printed.ends_with("}\n"), "{}", ran.printed);
    }
}

#[test]
fn expectations() {
    let ran = secpal(&["test", POLICY, "permits/permits.expect"]);
    assert_eq!((ran.status, ran.printed.as_str()), (0, "5 as expected, 0 not\n"));
    let other = scratch("other.expect", b"on 2026-11-16\nallow Works says North may-order encoder.\ndeny Works says Otto is-fitter.\n");
    let ran = secpal(&["test", POLICY, &other]);
    assert_eq!(ran.status, 1);
    assert!(ran.printed.contains(":2: Works says North may-order encoder: is denied\n"), "{}", ran.printed);
    assert!(ran.printed.ends_with("0 as expected, 2 not\n"), "{}", ran.printed);
}

#[test]
fn the_examples_are_in_their_layout() {
    for file in [
        "belt/belt.secpal",
        "permits/permits.secpal",
        "permits/permits.expect",
        "belt/withdrawals.secpal",
        "parts/parts.secpal",
        "parts/families.secpal",
        "stand-ins/stand-ins.secpal",
        "stand-ins/stand-ins.expect",
    ] {
        assert_eq!(secpal(&["fmt", "--check", file]).status, 0, "{file}");
    }
    assert_eq!(secpal(&["show", "belt/policy.bin"]).printed, secpal(&["show", "belt/belt.secpal"]).printed);
}

#[test]
fn the_layout_keeps_comments_and_names() {
    let loose = "version 1 -- v\n-- a\nprincipal A,\n B -- b\nprincipal C\nprincipal D\n\nprincipal E\nverb v day\n#0 A says\n  ?who v ?d -- c\n if ?who v ?d. -- d\n-- e\n";
    let tidy = "-- v\n-- a\nprincipal A, B  -- b\nprincipal C, D\n\nprincipal E\n\nverb v day\n\n-- c\nA says ?who v ?d if ?who v ?d.  -- d\n-- e\n";
    let file = scratch("loose.secpal", loose.as_bytes());
    assert_eq!(secpal(&["fmt", &file]).printed, tidy);
    assert_eq!(secpal(&["fmt", "--check", &file]).status, 1);
    assert_eq!(secpal(&["fmt", "-w", &file]).status, 0);
    assert_eq!(secpal(&["fmt", "--check", &file]).status, 0);
    assert_eq!(std::fs::read_to_string(&file).expect("the file"), tidy);
}

#[test]
fn arguments_that_are_not_taken() {
    for arguments in [&[][..], &["decide"], &["decide", POLICY], &["no-such"], &["limits", "x"], &["decide", "--no-such", POLICY, "x"]] {
        let ran = secpal(arguments);
        assert_eq!((ran.status, ran.printed.as_str()), (2, ""), "{arguments:?}");
        assert!(ran.complained.contains("usage: secpal"), "{}", ran.complained);
    }
    assert_eq!(secpal(&["--help"]).status, 0);
    assert_eq!(secpal(&["decide", POLICY, "no-such-file"]).status, 2);
}
