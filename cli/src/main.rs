//! `secpal`: policies, requests, withdrawals and hierarchies in words. docs/LANGUAGE.md has the language, man/secpal.1 the commands.
mod decision;
mod expect;
mod source;

use language::json::Json;
use language::{explain, show_hierarchy, show_policy, show_request, show_withdrawals};
use secpal::limits;
use source::{Content, Policy, Problem};
use std::io::{IsTerminal, Write};
use std::process::ExitCode;

const USAGE: &str = "\
usage: secpal COMMAND [--json]
  check POLICY [REQUEST]              says whether the engine accepts them
  compile POLICY [REQUEST] [-o FILE]  the bytes of the policy, or of the request under it
  show POLICY [REQUEST]               the text of the policy, or of the request under it
  fmt [--check | -w] FILE             a text in its layout; -w writes it back
  decide POLICY REQUEST               allow or deny, with the answers
  facts POLICY REQUEST                the same, with every derived fact by its round
  reach POLICY REQUEST                whose words count for the request
  test POLICY EXPECTATIONS            tries a file of allow .., deny .., answers ..
  limits | version
POLICY and REQUEST are files, in words or in bytes; REQUEST may also be the request itself:
  secpal decide belt.secpal 'on 2026-11-16 ask Works says Otto may-order encoder'
With each POLICY:
  --withdrawals FILE   the statements that FILE withdraws do not count
  --hierarchy FILE     what holds of a family holds of its members
Without a REQUEST, compile and show write FILE.
Exit status: 0 allow, or all well; 1 deny, or an expectation not met; 2 refused, or an error.";

/// What a command answers, and what it writes.
struct Answer {
    /// allow, or all is well; otherwise deny, or an expectation is not met
    yes: bool,
    output: Vec<u8>,
}

impl Answer {
    fn yes(output: impl Into<Vec<u8>>) -> Answer {
        Answer { yes: true, output: output.into() }
    }
}

/// The words of the command line.
#[derive(Default)]
struct Arguments {
    json: bool,
    check: bool,
    write: bool,
    output: Option<String>,
    withdrawals: Option<String>,
    hierarchy: Option<String>,
    words: Vec<String>,
}

impl Arguments {
    fn policy(&self, path: &str) -> Result<Policy, Problem> {
        source::policy(path, self.withdrawals.as_deref(), self.hierarchy.as_deref())
    }

    /// A line of words or, where that is asked for, of JSON.
    fn line(&self, text: impl FnOnce() -> String, json: impl FnOnce() -> Json) -> String {
        let line = if self.json { json().to_string() } else { text() };
        line + "\n"
    }
}

fn arguments() -> Result<Arguments, Problem> {
    let mut out = Arguments::default();
    let mut given = std::env::args().skip(1);
    let file = |option: &str, next: Option<String>| next.ok_or_else(|| Problem::new("secpal", format!("{option} wants a file")));
    while let Some(word) = given.next() {
        match word.as_str() {
            "--json" => out.json = true,
            "--check" => out.check = true,
            "-w" => out.write = true,
            "-o" => out.output = Some(file("-o", given.next())?),
            "--withdrawals" => out.withdrawals = Some(file("--withdrawals", given.next())?),
            "--hierarchy" => out.hierarchy = Some(file("--hierarchy", given.next())?),
            "--help" | "-h" => out.words.insert(0, "help".to_string()),
            "--version" => out.words.insert(0, "version".to_string()),
            option if option.starts_with('-') && option.len() > 1 => {
                return Err(Problem::new("secpal", format!("there is no option {option}\n{USAGE}")));
            }
            _ => out.words.push(word),
        }
    }
    Ok(out)
}

const DENIED: u8 = 1;
const NO_ANSWER: u8 = 2;

fn main() -> ExitCode {
    let arguments = match arguments() {
        Ok(arguments) => arguments,
        Err(problem) => {
            eprintln!("{}", problem.line());
            return ExitCode::from(NO_ANSWER);
        }
    };
    let (status, output) = match run(&arguments) {
        Ok(Answer { yes: true, output }) => (ExitCode::SUCCESS, output),
        Ok(Answer { yes: false, output }) => (ExitCode::from(DENIED), output),
        Err(problem) if arguments.json => (ExitCode::from(NO_ANSWER), format!("{}\n", problem.json()).into_bytes()),
        Err(problem) => {
            eprintln!("{}", problem.line());
            (ExitCode::from(NO_ANSWER), vec![])
        }
    };
    // an answer that could not be written is none
    let mut stdout = std::io::stdout();
    match stdout.write_all(&output).and_then(|()| stdout.flush()) {
        Ok(()) => status,
        Err(_) => ExitCode::from(NO_ANSWER),
    }
}

fn run(arguments: &Arguments) -> Result<Answer, Problem> {
    let words: Vec<&str> = arguments.words.iter().map(String::as_str).collect();
    match words[..] {
        ["check", policy] => check(arguments, policy, None),
        ["check", policy, request] => check(arguments, policy, Some(request)),
        ["compile", policy] => compile(arguments, policy, None),
        ["compile", policy, request] => compile(arguments, policy, Some(request)),
        ["show", policy] => show(arguments, policy, None),
        ["show", policy, request] => show(arguments, policy, Some(request)),
        ["fmt", file] => fmt(arguments, file),
        ["decide", policy, request] => decide(arguments, policy, request, false),
        ["facts", policy, request] => decide(arguments, policy, request, true),
        ["reach", policy, request] => reach(arguments, policy, request),
        ["test", policy, expectations] => test(arguments, policy, expectations),
        ["limits"] => Ok(limits_listed(arguments)),
        ["version"] => version(arguments),
        ["help", ..] => Ok(Answer::yes(format!("{USAGE}\n"))),
        _ => Err(Problem::new("secpal", format!("no such command, or other arguments than it takes\n{USAGE}"))),
    }
}

fn check(arguments: &Arguments, policy: &str, request: Option<&str>) -> Result<Answer, Problem> {
    let policy = arguments.policy(policy)?;
    let asked = request.map(|request| source::request(&policy, request)).transpose()?;
    let text = || {
        let counts = format!("{} constants, {} verbs", policy.names.constants.len(), policy.names.verbs.len());
        let request = asked.map_or(String::new(), |asked| format!("\n{}: accepted, {}", asked.file, decision::question(&asked)));
        let beside = [&policy.withdrawals, &policy.hierarchy].into_iter().flatten();
        let entries: String = beside.map(|given| format!("\n{}: accepted", given.file)).collect();
        format!("{}: accepted, {counts}{request}{entries}", policy.file)
    };
    Ok(Answer::yes(arguments.line(text, || Json::object([("accepted", Json::Flag(true))]))))
}

fn write(file: &str, bytes: &[u8]) -> Result<Answer, Problem> {
    match std::fs::write(file, bytes) {
        Ok(()) => Ok(Answer::yes("")),
        Err(error) => Err(Problem::new(file, format!("cannot be written: {error}"))),
    }
}

/// What `compile` and `show` write: the one thing that is given beside the policy, or the policy.
enum Subject<'a> {
    Policy,
    Request(source::Asked),
    Withdrawals(&'a [u8]),
    Hierarchy(&'a [u8]),
}

fn subject<'a>(policy: &'a Policy, request: Option<&str>) -> Result<Subject<'a>, Problem> {
    match (request, &policy.withdrawals, &policy.hierarchy) {
        (Some(request), _, _) => Ok(Subject::Request(source::request(policy, request)?)),
        (None, Some(withdrawals), None) => Ok(Subject::Withdrawals(&withdrawals.bytes)),
        (None, None, Some(hierarchy)) => Ok(Subject::Hierarchy(&hierarchy.bytes)),
        (None, None, None) => Ok(Subject::Policy),
        (None, Some(_), Some(_)) => Err(Problem::new("secpal", "one file at a time: withdrawals or a hierarchy")),
    }
}

fn compile(arguments: &Arguments, policy: &str, request: Option<&str>) -> Result<Answer, Problem> {
    let policy = arguments.policy(policy)?;
    let bytes = match subject(&policy, request)? {
        Subject::Request(asked) => asked.bytes,
        Subject::Withdrawals(bytes) | Subject::Hierarchy(bytes) => bytes.to_vec(),
        Subject::Policy => policy.bytes,
    };
    match &arguments.output {
        Some(file) => write(file, &bytes),
        None if std::io::stdout().is_terminal() => Err(Problem::new("secpal", "bytes are not for a terminal: -o FILE")),
        None => Ok(Answer::yes(bytes)),
    }
}

fn show(arguments: &Arguments, policy: &str, request: Option<&str>) -> Result<Answer, Problem> {
    let policy = arguments.policy(policy)?;
    let text = match subject(&policy, request)? {
        Subject::Request(asked) => show_request(&policy.names, &asked.bytes),
        Subject::Withdrawals(bytes) => show_withdrawals(&policy.names, bytes),
        Subject::Hierarchy(bytes) => show_hierarchy(&policy.names, bytes),
        Subject::Policy => show_policy(&policy.bytes),
    };
    text.map(Answer::yes).ok_or_else(|| Problem::new(&policy.file, "cannot be shown"))
}

fn fmt(arguments: &Arguments, file: &str) -> Result<Answer, Problem> {
    let Content::Text(text) = source::read(file)? else { return Err(Problem::new(file, "these are bytes: secpal show")) };
    let formatted = language::format(&text).map_err(|fault| Problem::fault(file, &text, fault))?;
    match (arguments.check, arguments.write) {
        (true, _) => Ok(Answer { yes: formatted == text, output: vec![] }),
        (false, true) => write(file, formatted.as_bytes()),
        (false, false) => Ok(Answer::yes(formatted)),
    }
}

fn decide(arguments: &Arguments, policy: &str, request: &str, with_facts: bool) -> Result<Answer, Problem> {
    let policy = arguments.policy(policy)?;
    let asked = source::request(&policy, request)?;
    let decision = decision::decide(&policy, &asked)?;
    let line = arguments.line(|| decision.text(&policy, &asked, with_facts), || decision.json(&policy, &asked, with_facts));
    Ok(Answer { yes: decision.allowed, output: line.into() })
}

fn reach(arguments: &Arguments, policy: &str, request: &str) -> Result<Answer, Problem> {
    let policy = arguments.policy(policy)?;
    let asked = source::request(&policy, request)?;
    let marks = secpal::reach(&policy.slices(&asked.bytes)).map_err(|refusal| Problem::refused(&asked.file, refusal))?;
    let marked = marks.iter().enumerate().filter(|(_, mark)| **mark);
    let names: Vec<String> = marked.map(|(number, _)| explain::constant(&policy.names, number as u16)).collect();
    let json = || Json::object([("reach", Json::list(names.iter().map(Json::text)))]);
    Ok(Answer::yes(arguments.line(|| names.join("\n"), json)))
}

fn test(arguments: &Arguments, policy: &str, expectations: &str) -> Result<Answer, Problem> {
    let outcome = expect::run(&arguments.policy(policy)?, expectations)?;
    let line = arguments.line(|| outcome.text(), || outcome.json());
    Ok(Answer { yes: outcome.met(), output: line.into() })
}

fn limits_listed(arguments: &Arguments) -> Answer {
    let all = [
        ("constants", "constants in a policy", limits::CONSTANTS),
        ("verbs", "verbs in a policy", limits::VERBS),
        ("statements", "statements in a policy", limits::ASSERTIONS),
        ("label", "characters in a label", limits::LABEL),
        ("parameters", "parameters of a verb", limits::ARITY),
        ("nest", "\"can say\" inside each other", limits::NEST),
        ("conditions", "conditions of a statement", limits::BODY),
        ("constraints", "constraints of a statement or a withdrawal", limits::CONSTRAINTS),
        ("withdrawals", "withdrawals", limits::WITHDRAWALS),
        ("hierarchy", "members of families", limits::HIERARCHY),
        ("variables", "variables of a statement or a request", limits::VARIABLES),
        ("parts", "parts of an all(..) or any(..)", limits::PARTS),
        ("depth", "nodes of a request inside each other", limits::DEPTH),
        ("facts", "derived facts", limits::RECORDS),
    ];
    let text = || all.map(|(_, words, most)| format!("{most:6}  {words}")).join("\n");
    Answer::yes(arguments.line(text, || Json::object(all.map(|(key, _, most)| (key, Json::number(most as u64))))))
}

fn version(arguments: &Arguments) -> Result<Answer, Problem> {
    let (major, minor, patch) = secpal::version();
    let engine = format!("{major}.{minor}.{patch}");
    let tool = env!("CARGO_PKG_VERSION");
    if engine != tool {
        return Err(Problem::new("secpal", format!("the tool is of version {tool}, the engine of {engine}")));
    }
    let json = || Json::object([("tool", Json::text(tool)), ("engine", Json::text(&engine))]);
    Ok(Answer::yes(arguments.line(|| format!("secpal {tool}, engine {engine}"), json)))
}
