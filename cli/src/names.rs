//! What the names of a policy stand for, and which name is nearest to one that is not there.
use crate::syntax::*;
use std::collections::HashMap;

/// The constants and verbs of a policy, by number and by name. Capitals do not tell names apart.
#[derive(Debug, Clone)]
pub struct Names {
    pub constants: Vec<Constant>,
    /// verb 1 and up; verb 0 is built in
    pub verbs: Vec<Verb>,
    /// by `key`
    constant_numbers: HashMap<Constant, u16>,
    /// by the label in small letters
    verb_numbers: HashMap<String, u8>,
}

/// The same for constants that are alike.
fn key(constant: &Constant) -> Constant {
    match constant {
        Constant::Label(kind, label) => Constant::Label(*kind, label.to_ascii_lowercase()),
        number => number.clone(),
    }
}

impl Names {
    /// Of two that are alike the first has the name; the engine refuses the second.
    pub fn new(constants: Vec<Constant>, verbs: Vec<Verb>) -> Names {
        let mut names = Names { constants: vec![], verbs: vec![], constant_numbers: HashMap::new(), verb_numbers: HashMap::new() };
        for constant in constants {
            names.add(constant);
        }
        for (i, verb) in verbs.iter().enumerate() {
            names.verb_numbers.entry(verb.label.to_ascii_lowercase()).or_insert(i as u8 + 1);
        }
        names.verbs = verbs;
        names
    }

    pub fn add(&mut self, constant: Constant) -> u16 {
        let number = self.constants.len() as u16;
        self.constant_numbers.entry(key(&constant)).or_insert(number);
        self.constants.push(constant);
        number
    }

    pub fn number(&self, constant: &Constant) -> Option<u16> {
        self.constant_numbers.get(&key(constant)).copied()
    }

    pub fn labelled(&self, kind: KindOfLabel, label: &str) -> Option<u16> {
        self.number(&Constant::Label(kind, label.to_string()))
    }

    /// Whether a principal and a thing have this label.
    pub fn shared(&self, label: &str) -> bool {
        let has = |kind| self.labelled(kind, label).is_some();
        has(KindOfLabel::Principal) && has(KindOfLabel::Thing)
    }

    pub fn verb(&self, label: &str) -> Option<u8> {
        self.verb_numbers.get(&label.to_ascii_lowercase()).copied()
    }

    /// The kinds of a verb's parameters.
    pub fn kinds(&self, verb: u8) -> Option<&[Kind]> {
        match verb {
            0 => Some(&[Kind::Principal]),
            _ => self.verbs.get(verb as usize - 1).map(|v| v.kinds.as_slice()),
        }
    }

    pub fn labels(&self, kinds: &[KindOfLabel]) -> Vec<&str> {
        let label = |constant| match constant {
            &Constant::Label(kind, ref label) if kinds.contains(&kind) => Some(label.as_str()),
            _ => None,
        };
        self.constants.iter().filter_map(label).collect()
    }
}

/// The name that is nearest, if one is near.
pub fn near<'a>(wanted: &str, names: &[&'a str]) -> Option<&'a str> {
    let (edits, name) = names.iter().map(|name| (distance(wanted, name), *name)).min()?;
    (edits <= (wanted.len() / 2).max(2)).then_some(name)
}

/// `; the nearest is North`, if one of the names is near.
pub fn nearest(wanted: &str, names: &[&str]) -> String {
    near(wanted, names).map_or(String::new(), |name| format!("; the nearest is {}", crate::print::label(name)))
}

/// How many letters must be put in, left out, changed, or swapped with the next; capitals aside.
fn distance(a: &str, b: &str) -> usize {
    let (a, b) = (a.to_ascii_lowercase().into_bytes(), b.to_ascii_lowercase().into_bytes());
    let mut rows = vec![(0..=b.len()).collect::<Vec<usize>>()];
    for i in 1..=a.len() {
        let mut row = vec![i];
        for j in 1..=b.len() {
            let changed = rows[i - 1][j - 1] + (a[i - 1] != b[j - 1]) as usize;
            let mut least = changed.min(rows[i - 1][j] + 1).min(row[j - 1] + 1);
            if i > 1 && j > 1 && a[i - 1] == b[j - 2] && a[i - 2] == b[j - 1] {
                least = least.min(rows[i - 2][j - 2] + 1);
            }
            row.push(least);
        }
        rows.push(row);
    }
    rows[a.len()][b.len()]
}

#[cfg(test)]
mod tests {
    use super::*;

    #[test]
    fn the_nearest_name() {
        let names = ["Works", "North", "Otto"];
        assert_eq!(nearest("Noth", &names), "; the nearest is North");
        assert_eq!(nearest("Ott0", &names), "; the nearest is Otto");
        assert_eq!(nearest("wroks", &names), "; the nearest is Works");
        assert_eq!(nearest("encoder", &names), "");
        assert_eq!(nearest("x", &[]), "");
    }
}
