//! The language of docs/LANGUAGE.md: text to bytes and back.

pub mod calendar;
pub mod convert;
pub mod decode;
pub mod document;
pub mod encode;
pub mod explain;
pub mod json;
pub mod layout;
pub mod lexer;
pub mod names;
pub mod parser;
pub mod print;
pub mod resolve;
pub mod syntax;
pub mod unresolve;

use encode::Compiled;
use lexer::Fault;
use names::Names;
use resolve::VariableNames;

/// The bytes of a policy's text. Whether the engine accepts them is for the engine to say.
pub fn compile_policy(text: &str) -> Result<Compiled, Fault> {
    let (policy, _) = resolve::policy(&document::policy(text)?.to_policy())?;
    encode::policy(&policy)
}

/// The bytes of a request's text under a policy with these names, and the names of its variables.
pub fn compile_request(names: &Names, text: &str) -> Result<(Compiled, VariableNames), Fault> {
    let document = document::request(text)?;
    let request = document.to_request().expect("a document of a request has one");
    let (numbers, variables) = resolve::request(names, &request)?;
    Ok((encode::request(&numbers)?, variables))
}

/// The bytes of a text of withdrawals under a policy with these names.
pub fn compile_withdrawals(names: &Names, text: &str) -> Result<Compiled, Fault> {
    encode::withdrawals(&resolve::withdrawals(names, &document::withdrawals(text)?.to_withdrawals())?)
}

/// The bytes of a text of families under a policy with these names.
pub fn compile_hierarchy(names: &Names, text: &str) -> Result<Compiled, Fault> {
    Ok(encode::hierarchy(&resolve::hierarchy(names, &document::hierarchy(text)?.to_hierarchy())?))
}

/// The names of an accepted policy.
pub fn names(policy: &[u8]) -> Option<Names> {
    Some(Names::new(decode::constants(policy)?, decode::verbs(policy)?)).filter(|names| !names.constants.is_empty())
}

/// The text of an accepted policy.
pub fn show_policy(policy: &[u8]) -> Option<String> {
    let text = unresolve::policy(&decode::policy(policy)?, &names(policy)?).ok()?;
    Some(layout::format("", &document::Document::of_policy(&text)))
}

/// The text of a request that is accepted under the policy with these names.
pub fn show_request(names: &Names, request: &[u8]) -> Option<String> {
    let numbers = decode::request(request, &names.verbs)?;
    let text = unresolve::request(&numbers, names, &vec![]).ok()?;
    Some(layout::format("", &document::Document::of_request(&text)))
}

/// The text of withdrawals that are accepted under the policy with these names.
pub fn show_withdrawals(names: &Names, withdrawals: &[u8]) -> Option<String> {
    let text = unresolve::withdrawals(&decode::withdrawals(withdrawals)?, names).ok()?;
    Some(layout::format("", &document::Document::of_withdrawals(&text)))
}

/// The text of a hierarchy that is accepted under the policy with these names.
pub fn show_hierarchy(names: &Names, hierarchy: &[u8]) -> Option<String> {
    let text = unresolve::hierarchy(&decode::hierarchy(hierarchy)?, names).ok()?;
    Some(layout::format("", &document::Document::of_hierarchy(&text)))
}

/// A text of any sort in its layout.
pub fn format(text: &str) -> Result<String, Fault> {
    Ok(layout::format(text, &document::any(text)?))
}
