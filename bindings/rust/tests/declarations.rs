//! No copy drifts: the header, the wrapper's declarations and the `extern "C"` functions of engine_c have the same functions with as many
//! parameters, and the same numbers under the same names; the version is one.
use std::collections::BTreeMap;
use std::path::PathBuf;

fn read(path: &str) -> String {
    let file = PathBuf::from(env!("CARGO_MANIFEST_DIR")).join("../..").join(path);
    std::fs::read_to_string(&file).unwrap_or_else(|error| panic!("{}: {error}", file.display()))
}

/// Without comments of the two sorts.
fn code(text: &str) -> String {
    let mut out = String::new();
    let mut rest = text;
    while let Some((before, after)) = rest.split_once("/*") {
        out.push_str(before);
        rest = after.split_once("*/").map_or("", |(_, behind)| behind);
    }
    out.push_str(rest);
    out.lines().map(|line| line.split("//").next().unwrap_or(line)).collect::<Vec<_>>().join("\n")
}

/// The functions whose names begin with `secpal_`, each with its parameters as they are written.
fn functions(text: &str, before: &str) -> BTreeMap<String, Vec<String>> {
    let mut found = BTreeMap::new();
    for part in code(text).split(before).skip(1) {
        let name: String = part.chars().take_while(|c| c.is_alphanumeric() || *c == '_').collect();
        let Some((_, rest)) = part.split_once('(') else { continue };
        let list = rest.split_once(')').map_or("", |(list, _)| list);
        let parameters = list.split(',').map(|p| p.trim().to_string()).filter(|p| !p.is_empty() && p != "void").collect();
        found.insert(format!("secpal_{name}"), parameters);
    }
    found
}

fn counts(functions: BTreeMap<String, Vec<String>>, width: impl Fn(&str) -> usize) -> BTreeMap<String, usize> {
    functions.into_iter().map(|(name, parameters)| (name, parameters.iter().map(|p| width(p)).sum())).collect()
}

/// The header's prototypes: a name that is followed by its parameters and comes after a type.
fn header_functions() -> BTreeMap<String, usize> {
    let header = code(&read("host/secpal.h"));
    let prototypes: Vec<&str> = header.split(';').filter(|part| part.contains('(') && part.contains("secpal_")).collect();
    let mut found = BTreeMap::new();
    for prototype in prototypes {
        let list = prototype.rsplit_once('(').map_or("", |(_, list)| list);
        let name = prototype.rsplit_once('(').and_then(|(before, _)| before.split_whitespace().last()).unwrap_or("");
        let none = list.trim_end_matches(')').trim() == "void";
        found.insert(name.trim_start_matches('*').to_string(), if none { 0 } else { list.split(',').count() });
    }
    found
}

#[test]
fn functions_are_the_same() {
    let header = header_functions();
    let wrapper = counts(functions(&read("bindings/rust/src/raw.rs"), "pub fn secpal_"), |_| 1);
    // a slice is two parameters for C; a reference to a slice is one
    let slice = |parameter: &str| {
        let kind = parameter.split_once(':').map_or("", |(_, kind)| kind).trim().replace("'a ", "");
        if kind.starts_with("&[") || kind.starts_with("&mut [") {
            2
        } else {
            1
        }
    };
    let engine = counts(functions(&read("crates/engine_c/src/lib.rt"), "pub extern \"C\" fn secpal_"), slice);
    assert_eq!(header, wrapper, "the header, and bindings/rust/src/raw.rs");
    assert_eq!(header, engine, "the header, and crates/engine_c/src/lib.rt");
    assert!(header.len() >= 7);
}

/// `NAME = NUMBER` of the header's enums, without `SECPAL_`.
fn header_numbers() -> BTreeMap<String, u64> {
    let header = code(&read("host/secpal.h"));
    let assigned = header.split([',', '{', '}', ';']).filter_map(|part| part.split_once('='));
    assigned.map(|(name, value)| (name.trim().trim_start_matches("SECPAL_").to_string(), value.trim().parse().expect("a number"))).collect()
}

/// Each `pub const NAME: TYPE = VALUE;`, its value as it is written.
fn written(text: &str) -> BTreeMap<String, String> {
    let constant = |constant: &str| {
        let (name, rest) = constant.split_once(':')?;
        let value = rest.split_once('=')?.1.split_once(';')?.0;
        Some((name.trim().to_string(), value.trim().to_string()))
    };
    code(text).split("pub const ").skip(1).filter_map(constant).collect()
}

fn rust_numbers(text: &str) -> BTreeMap<String, u64> {
    written(text).into_iter().filter_map(|(name, value)| Some((name, value.parse().ok()?))).collect()
}

/// The constants of `Engine`, which takes them from the crate `limits`.
fn engine_numbers() -> BTreeMap<String, u64> {
    let limits = rust_numbers(&read("crates/limits/src/lib.rt"));
    let number = |value: &str| match value.strip_prefix("limits::") {
        Some(name) => limits.get(name).copied(),
        None => value.parse().ok(),
    };
    let engine = read("crates/engine/src/lib.rt");
    let engine = written(engine.split("impl Engine {").nth(1).and_then(|rest| rest.split("pub fn ").next()).expect("impl Engine"));
    engine.into_iter().map(|(name, value)| (name.clone(), number(&value).unwrap_or_else(|| panic!("{name} = {value}")))).collect()
}

#[test]
fn numbers_are_the_same() {
    let header = header_numbers();
    assert_eq!(header, rust_numbers(&read("bindings/rust/src/limits.rs")), "the header, and bindings/rust/src/limits.rs");
    let engine = engine_numbers();
    assert!(engine.len() >= 16);
    for (name, value) in engine {
        assert_eq!(header.get(&name), Some(&value), "{name} in the header and in crates/engine/src/lib.rt");
    }
}

/// The fields of the report, each with its bits: `uint32_t side;` in C, `pub side: u32,` in Rust and in crate `outcome`.
fn report_fields(text: &str, from: &str, to: &str) -> Vec<(String, String)> {
    let text = code(text);
    let body = text.split(from).nth(1).and_then(|rest| rest.split(to).next()).expect("the report");
    let bits = |word: &str| word.chars().filter(char::is_ascii_digit).collect::<String>();
    let field = |line: &str| {
        let words: Vec<&str> = line.split([' ', ':', ',', ';']).filter(|word| !word.is_empty() && *word != "pub").collect();
        match words[..] {
            [first, second] if first.starts_with("uint") => Some((second.to_string(), bits(first))),
            [first, second] => Some((first.to_string(), bits(second))),
            _ => None,
        }
    };
    body.lines().filter_map(field).collect()
}

#[test]
fn the_report_is_the_same() {
    let header = report_fields(&read("host/secpal.h"), "typedef struct {", "} secpal_report");
    assert_eq!(header.len(), 7);
    assert_eq!(header, report_fields(&read("bindings/rust/src/raw.rs"), "pub struct Report {", "}"));
    assert_eq!(header, report_fields(&read("crates/outcome/src/lib.rt"), "pub struct Report {", "}"));
}

#[test]
fn the_version_is_one() {
    let (major, minor, patch) = secpal::version();
    let version = read("VERSION").trim().to_string();
    assert_eq!(format!("{major}.{minor}.{patch}"), version, "secpal_version and the file VERSION");
    assert_eq!(env!("CARGO_PKG_VERSION"), version, "Cargo.toml and the file VERSION");
}
