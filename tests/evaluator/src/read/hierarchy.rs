//! The fourth slice: which things, principals, days or quantities are part of which, as a parameter of a verb.
use super::*;

/// For one parameter of a verb, counted from 0, a constant and one that is below it.
#[derive(Debug, Clone, Copy)]
pub struct Level {
    pub verb: usize,
    pub parameter: usize,
    pub parent: usize,
    pub child: usize,
}

/// An entry as it stands in the bytes.
struct Entry {
    verb: usize,
    position: usize,
    parent: Expr,
    child: Expr,
}

/// A verb number past the verbs ends the reading of its entry.
fn entry(p: &Policy, s: &[u8], at: usize) -> Result<(Entry, usize), Fault> {
    let mut b = Bytes { all: s, at, end: s.len() };
    let verb = b.byte()? as usize;
    if verb >= p.verbs.len() {
        return Err(Fault::Verb);
    }
    let entry = Entry { verb, position: b.byte()? as usize, parent: b.expr()?, child: b.expr()? };
    Ok((entry, b.at))
}

/// "an entry for verb 0, for a position 0 or past the verb's arity or for a parent or child other than a constant of that parameter's kind gets 5"
fn level(p: &Policy, e: &Entry) -> Option<Level> {
    let parameter = e.position.checked_sub(1)?;
    let kind = p.verbs[e.verb].get(parameter).filter(|_| e.verb != 0)?;
    let constant = |e: Expr| match e {
        Expr::Con(c) => p.constants.get(c).is_some_and(|found| found.0 == *kind).then_some(c),
        _ => None,
    };
    Some(Level { verb: e.verb, parameter, parent: constant(e.parent)?, child: constant(e.child)? })
}

pub fn hierarchy(p: &Policy, s: &[u8]) -> Result<Vec<Level>, Refusal> {
    header(s, 1)?;
    let mut at = 5;
    let mut levels = vec![];
    for _ in 0..list(s, &mut at, 0, 1024)? {
        let (entry, end) = entry(p, s, at).map_err(|f| f.at(at))?;
        let level = level(p, &entry).ok_or((5, at))?;
        if level.parent == level.child {
            return Err((11, at));
        }
        levels.push(level);
        at = end;
    }
    if at != s.len() {
        return Err((3, at));
    }
    Ok(levels)
}
