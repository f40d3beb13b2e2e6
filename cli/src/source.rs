//! Policies, requests, withdrawals and hierarchies as the tool is given them: files of either form, or a request as an argument. All are put to the
//! engine.
use language::encode::Compiled;
use language::json::Json;
use language::lexer::{line_and_column, Fault};
use language::names::Names;
use language::resolve::VariableNames;
use language::syntax::{Request, Span, Text};
use language::{decode, document, encode, explain, resolve, unresolve};
use secpal::{limits, Refusal, Slices};

/// Why there is no answer: in which file, where in it, and what.
pub struct Problem {
    pub file: String,
    pub position: Option<(usize, usize)>,
    pub refusal: Option<Refusal>,
    pub message: String,
}

impl Problem {
    pub fn new(file: &str, message: impl Into<String>) -> Problem {
        Problem { file: file.to_string(), position: None, refusal: None, message: message.into() }
    }

    /// A refusal where there is no text to point into.
    pub fn refused(file: &str, refusal: Refusal) -> Problem {
        Problem { refusal: Some(refusal), ..Problem::new(file, explain::general(refusal.number)) }
    }

    pub fn fault(file: &str, text: &str, fault: Fault) -> Problem {
        Problem { position: Some(line_and_column(text, fault.span.start)), ..Problem::new(file, fault.message) }
    }

    /// `belt.secpal:3:14: no principal or thing is declared as Noth`
    pub fn line(&self) -> String {
        let position = match (self.position, self.refusal) {
            (Some((line, column)), _) => format!(":{line}:{column}"),
            (None, Some(refusal)) if refusal.side != limits::SIDE_NONE => format!(", byte {}", refusal.place),
            _ => String::new(),
        };
        let number = self.refusal.map_or(String::new(), |refusal| format!("refused ({}): ", refusal.number));
        format!("{}{position}: {number}{}", self.file, self.message)
    }

    pub fn json(&self) -> Json {
        let mut entries = vec![("error", Json::text(&self.message)), ("file", Json::text(&self.file))];
        if let Some((line, column)) = self.position {
            entries.extend([("line", Json::number(line as u64)), ("column", Json::number(column as u64))]);
        }
        if let Some(refusal) = self.refusal {
            let side = ["none", "policy", "request", "withdrawals", "hierarchy"].get(refusal.side as usize).copied().unwrap_or("none");
            entries.extend([("refusal", Json::number(refusal.number)), ("side", Json::text(side)), ("place", Json::number(refusal.place))]);
        }
        Json::object(entries)
    }
}

/// What a file holds. No text has a control sign of so low a number, and bytes begin with their version.
pub enum Content {
    Text(String),
    Bytes(Vec<u8>),
}

pub fn read(path: &str) -> Result<Content, Problem> {
    let bytes = std::fs::read(path).map_err(|error| Problem::new(path, format!("cannot be read: {error}")))?;
    match bytes.first() {
        Some(version) if *version < b'\t' => Ok(Content::Bytes(bytes)),
        _ => match String::from_utf8(bytes) {
            Ok(text) => Ok(Content::Text(text)),
            Err(_) => Err(Problem::new(path, "neither a text nor bytes that the engine reads")),
        },
    }
}

/// A policy, with what is withdrawn from it and its hierarchy.
pub struct Policy {
    pub file: String,
    pub bytes: Vec<u8>,
    pub names: Names,
    pub withdrawals: Option<Entries>,
    pub hierarchy: Option<Entries>,
}

/// A slice of entries that the engine accepts under its policy.
pub struct Entries {
    pub file: String,
    pub bytes: Vec<u8>,
}

impl Policy {
    /// What the engine is lent for a request.
    pub fn slices<'a>(&'a self, request: &'a [u8]) -> Slices<'a> {
        let lent = |entries: &'a Option<Entries>| entries.as_ref().map_or(secpal::NONE, |given| &given.bytes);
        Slices { policy: &self.bytes, request, withdrawals: lent(&self.withdrawals), hierarchy: lent(&self.hierarchy) }
    }
}

/// A refusal at the part of the text that it is about.
fn refused_text(file: &str, text: &str, compiled: &Compiled, refusal: Refusal, words: impl Fn(Span) -> explain::Words) -> Problem {
    let span = compiled.span(refusal.place as usize).unwrap_or_default();
    let (span, message) = words(span);
    Problem { refusal: Some(refusal), ..Problem::fault(file, text, Fault { span, message }) }
}

/// A policy that the engine accepts, with the files of entries that are given beside it.
pub fn policy(path: &str, withdrawn: Option<&str>, families: Option<&str>) -> Result<Policy, Problem> {
    let mut policy = policy_alone(path)?;
    policy.withdrawals = withdrawn.map(|path| withdrawals(&policy, path)).transpose()?;
    policy.hierarchy = families.map(|path| hierarchy(&policy, path)).transpose()?;
    Ok(policy)
}

fn policy_alone(path: &str) -> Result<Policy, Problem> {
    let compile = |text: &str| {
        let (numbers, names) = resolve::policy(&document::policy(text)?.to_policy())?;
        Ok((encode::policy(&numbers)?, (numbers, names)))
    };
    let words = |(numbers, names): &_, number, span| explain::policy(numbers, names, number, span);
    let bytes = accepted(path, compile, words, secpal::policy_refusal)?;
    match language::names(&bytes) {
        Some(names) => Ok(Policy { file: path.to_string(), bytes, names, withdrawals: None, hierarchy: None }),
        None => Err(Problem::new(path, "the policy is accepted, but its names cannot be read")),
    }
}

/// The bytes of a file that the engine accepts. `compile` gives the bytes of a text with the tree that they come from, and `words` say of an item of
/// that tree what a refusal is about.
fn accepted<T>(
    path: &str,
    compile: impl Fn(&str) -> Result<(Compiled, T), Fault>,
    words: impl Fn(&T, u32, Span) -> explain::Words,
    refusal: impl Fn(&[u8]) -> Option<Refusal>,
) -> Result<Vec<u8>, Problem> {
    match read(path)? {
        Content::Bytes(bytes) => match refusal(&bytes) {
            Some(refusal) => Err(Problem::refused(path, refusal)),
            None => Ok(bytes),
        },
        Content::Text(text) => {
            let (compiled, tree) = compile(&text).map_err(|fault| Problem::fault(path, &text, fault))?;
            match refusal(&compiled.bytes) {
                Some(refusal) => Err(refused_text(path, &text, &compiled, refusal, |span| words(&tree, refusal.number, span))),
                None => Ok(compiled.bytes),
            }
        }
    }
}

fn withdrawals(policy: &Policy, path: &str) -> Result<Entries, Problem> {
    let names = &policy.names;
    let compile = |text: &str| {
        let numbers = resolve::withdrawals(names, &document::withdrawals(text)?.to_withdrawals())?;
        Ok((encode::withdrawals(&numbers)?, numbers))
    };
    let words = |numbers: &_, number, span| explain::withdrawals(numbers, names, number, span);
    let bytes = accepted(path, compile, words, |bytes| secpal::withdrawals_refusal(&policy.bytes, bytes))?;
    Ok(Entries { file: path.to_string(), bytes })
}

fn hierarchy(policy: &Policy, path: &str) -> Result<Entries, Problem> {
    let names = &policy.names;
    let compile = |text: &str| {
        let numbers = resolve::hierarchy(names, &document::hierarchy(text)?.to_hierarchy())?;
        Ok((encode::hierarchy(&numbers), numbers))
    };
    let words = |numbers: &_, number, span| explain::hierarchy(numbers, names, number, span);
    let bytes = accepted(path, compile, words, |bytes| secpal::hierarchy_refusal(&policy.bytes, bytes))?;
    Ok(Entries { file: path.to_string(), bytes })
}

/// A request that the engine accepts under its policy.
pub struct Asked {
    pub file: String,
    pub bytes: Vec<u8>,
    pub variables: VariableNames,
    /// in words, with the names that the policy has
    pub text: Request<Text>,
}

/// A file, or the request itself: what is no file and has a space in it is taken as the request's words.
pub fn request(policy: &Policy, argument: &str) -> Result<Asked, Problem> {
    if !std::path::Path::new(argument).exists() && argument.contains(char::is_whitespace) {
        return request_text(policy, "request", argument);
    }
    match read(argument)? {
        Content::Text(text) => request_text(policy, argument, &text),
        Content::Bytes(bytes) => match secpal::input_refusal(&policy.slices(&bytes)) {
            Some(refusal) => Err(Problem::refused(argument, refusal)),
            None => shown(policy, argument, bytes, vec![]),
        },
    }
}

fn request_text(policy: &Policy, file: &str, text: &str) -> Result<Asked, Problem> {
    let document = document::request(text).map_err(|fault| Problem::fault(file, text, fault))?;
    let request = document.to_request().expect("a document of a request has one");
    asked(policy, file, text, &request)
}

/// A request in words, put to the engine; faults are shown in the text where it stands.
pub fn asked(policy: &Policy, file: &str, text: &str, request: &Request<Text>) -> Result<Asked, Problem> {
    let at = |fault| Problem::fault(file, text, fault);
    let (numbers, variables) = resolve::request(&policy.names, request).map_err(at)?;
    let compiled = encode::request(&numbers).map_err(at)?;
    match secpal::input_refusal(&policy.slices(&compiled.bytes)) {
        Some(refusal) => {
            let words = |span| explain::request(&numbers, &policy.names, refusal.number, span);
            Err(refused_text(file, text, &compiled, refusal, words))
        }
        None => shown(policy, file, compiled.bytes, variables),
    }
}

fn shown(policy: &Policy, file: &str, bytes: Vec<u8>, variables: VariableNames) -> Result<Asked, Problem> {
    let numbers = decode::request(&bytes, &policy.names.verbs);
    match numbers.and_then(|numbers| unresolve::request(&numbers, &policy.names, &variables).ok()) {
        Some(text) => Ok(Asked { file: file.to_string(), bytes, variables, text }),
        None => Err(Problem::new(file, "the request is accepted, but cannot be read")),
    }
}
