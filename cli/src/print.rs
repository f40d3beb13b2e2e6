//! Trees to text, in the one layout that `fmt` and `show` share.
use crate::calendar::date;
use crate::lexer::is_plain;
use crate::syntax::*;

/// A line that would be longer is broken.
const WIDTH: usize = 100;
const INDENT: &str = "    ";

/// A label as it is written: in quotes unless it is a plain word that is not reserved.
pub fn label(label: &str) -> String {
    if is_plain(label) {
        return label.to_string();
    }
    format!("\"{}\"", label.replace('\\', "\\\\").replace('"', "\\\""))
}

pub fn constant(constant: &Constant) -> String {
    match constant {
        Constant::Label(_, text) => label(text),
        Constant::Day(day) => date(*day),
        Constant::Quantity(quantity) => quantity.to_string(),
    }
}

pub fn variable(variable: &Variable) -> String {
    match variable {
        Variable::Numbered(number) => format!("?v{number}"),
        Variable::Named(name) => format!("?{name}"),
    }
}

pub fn expression(name: &Name) -> String {
    match name {
        Name::Label(None, text) => label(text),
        Name::Label(Some(kind), text) => format!("{} {}", kind.word(), label(text)),
        Name::Day(day) => date(*day),
        Name::Quantity(quantity) => quantity.to_string(),
        Name::Variable(v) => variable(v),
        Name::Today => "today".to_string(),
    }
}

pub fn verb_name(verb: &VerbName) -> String {
    match verb {
        VerbName::CanActAs => "can act as".to_string(),
        VerbName::Label(text) => label(text),
    }
}

pub fn fact(fact: &Fact<Text>) -> String {
    let mut words = vec![];
    for speaker in &fact.speakers {
        let depth = if speaker.unlimited { "inf" } else { "0" };
        words.push(format!("{} can say {depth}", expression(&speaker.who.it)));
    }
    words.push(expression(&fact.subject.it));
    words.push(verb_name(&fact.verb.it));
    words.extend(fact.parameters.iter().map(|p| expression(&p.it)));
    words.join(" ")
}

pub fn constraint(constraint: &Constraint<Text>) -> String {
    let operator = OPERATORS[constraint.operator as usize - 1];
    format!("{} {operator} {}", expression(&constraint.left.it), expression(&constraint.right.it))
}

pub fn version(version: u8) -> String {
    format!("version {version}")
}

/// `principal Works, North`
pub fn declaration(kind: Kind, constants: &[At<Constant>]) -> String {
    let names: Vec<String> = constants.iter().map(|at| constant(&at.it)).collect();
    listed(kind.word().to_string(), &names)
}

/// Names after a head, with commas, broken between names.
fn listed(head: String, names: &[String]) -> String {
    let mut line = head;
    let mut lines = vec![];
    for (i, name) in names.iter().enumerate() {
        let comma = if i + 1 < names.len() { "," } else { "" };
        let name = format!("{name}{comma}");
        if i > 0 && line.len() + 1 + name.len() > WIDTH {
            lines.push(line);
            line = format!("{INDENT}{name}");
        } else {
            line = format!("{line} {name}");
        }
    }
    lines.push(line);
    lines.join("\n")
}

pub fn verb(verb: &Verb) -> String {
    let kinds: String = verb.kinds.iter().map(|kind| format!(" {}", kind.word())).collect();
    format!("verb {}{kinds}", label(&verb.label))
}

/// `if A, B`, on one line or with one item to a line.
fn clause(word: &str, items: &[String], broken: bool) -> String {
    if items.is_empty() {
        return String::new();
    }
    let (before, between) = match broken {
        false => (" ".to_string(), ", ".to_string()),
        true => (format!("\n{INDENT}"), format!(",\n{INDENT}{}", " ".repeat(word.len() + 1))),
    };
    format!("{before}{word} {}", items.join(&between))
}

pub fn assertion(assertion: &Assertion<Text>) -> String {
    let serial = if assertion.serial == 0 { String::new() } else { format!("#{} ", assertion.serial) };
    let head = format!("{serial}{} says {}", expression(&assertion.issuer.it), fact(&assertion.head));
    let body: Vec<String> = assertion.body.iter().map(fact).collect();
    sentence(&head, &body, &assertion.constraints)
}

/// `withdraw North #17 where today <= 2027-01-01.`
pub fn withdrawal(withdrawal: &Withdrawal<Text>) -> String {
    let head = format!("withdraw {} #{}", expression(&withdrawal.issuer.it), withdrawal.serial);
    sentence(&head, &[], &withdrawal.constraints)
}

/// `family may-order 1: belt-parts over encoder, gearbox.`
pub fn family(family: &Family<Text>) -> String {
    let head = format!("family {} {}: {} over", verb_name(&family.verb.it), family.position.it, expression(&family.parent.it));
    let children: Vec<String> = family.children.iter().map(|child| expression(&child.it)).collect();
    listed(head, &children) + "."
}

/// `may-order has 1 parameter (thing)`
pub fn parameters(verb: &VerbName, kinds: &[Kind]) -> String {
    let words: Vec<&str> = kinds.iter().map(|kind| kind.word()).collect();
    let listed = if words.is_empty() { String::new() } else { format!(" ({})", words.join(" ")) };
    let plural = if kinds.len() == 1 { "" } else { "s" };
    format!("{} has {} parameter{plural}{listed}", verb_name(verb), kinds.len())
}

/// A head with its conditions and constraints, on one line if it is short enough.
fn sentence(head: &str, body: &[String], constraints: &[Constraint<Text>]) -> String {
    let constraints: Vec<String> = constraints.iter().map(constraint).collect();
    let whole = |broken| format!("{head}{}{}.", clause("if", body, broken), clause("where", &constraints, broken));
    let line = whole(false);
    if line.len() <= WIDTH {
        line
    } else {
        whole(true)
    }
}

/// What stands before the parenthesis of a node that has parts, and the parts.
fn parts(node: &Node<Text>) -> Option<(String, Vec<&Node<Text>>)> {
    match &node.part {
        Part::Says(..) | Part::Constraint(_) => None,
        Part::All(nodes) => Some(("all".to_string(), nodes.iter().collect())),
        Part::Any(nodes) => Some(("any".to_string(), nodes.iter().collect())),
        Part::Not(inner) => Some(("not".to_string(), vec![inner])),
        Part::Exists(v, inner) => Some((format!("exists {} ", variable(&v.it)), vec![inner])),
    }
}

/// A node on one line.
pub fn node(node: &Node<Text>) -> String {
    match (&node.part, parts(node)) {
        (Part::Says(issuer, said), _) => format!("{} says {}", expression(&issuer.it), fact(said)),
        (Part::Constraint(test), _) => constraint(test),
        (_, Some((word, nodes))) => format!("{word}({})", nodes.into_iter().map(self::node).collect::<Vec<_>>().join(", ")),
        (_, None) => unreachable!("only says and constraint nodes have no parts"),
    }
}

/// A node that starts at a column, with one part to a line where it is too long.
fn node_from(at: &Node<Text>, column: usize, level: usize) -> String {
    let line = node(at);
    match parts(at) {
        Some((word, nodes)) if column + line.len() > WIDTH => {
            let indent = INDENT.repeat(level + 1);
            let inner: Vec<String> = nodes.into_iter().map(|n| indent.clone() + &node_from(n, indent.len(), level + 1)).collect();
            format!("{word}(\n{}\n{})", inner.join(",\n"), INDENT.repeat(level))
        }
        _ => line,
    }
}

/// A node after a word, as `ask ..` or `allow ..`.
pub fn node_after(word: &str, at: &Node<Text>) -> String {
    format!("{word} {}", node_from(at, word.len() + 1, 0))
}

pub fn request(request: &Request<Text>) -> String {
    node_after(&format!("on {} ask", date(request.today.it)), &request.node)
}
