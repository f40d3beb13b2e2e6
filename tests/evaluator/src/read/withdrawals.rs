//! The third slice: entries that take statements back.
use super::*;

/// "A says A revokes that serial": removes every assertion of that issuer and serial while its constraints hold.
#[derive(Debug, Clone)]
pub struct Withdrawal {
    pub issuer: Expr,
    pub serial: u32,
    pub tests: Vec<Constraint>,
}

/// An entry has no length field: it is its own bytes, and ends where they end.
fn entry(s: &[u8], at: usize) -> Result<(Withdrawal, usize), Fault> {
    let mut b = Bytes { all: s, at, end: s.len() };
    let withdrawal = Withdrawal { issuer: b.expr()?, serial: b.number(4)?, tests: b.constraints()? };
    Ok((withdrawal, b.at))
}

/// "10, an entry with a variable, as issuer too"
fn has_variable(w: &Withdrawal) -> bool {
    !var(w.issuer).is_empty() || w.tests.iter().any(|c| !vars_test(c).is_empty())
}

pub fn withdrawals(p: &Policy, s: &[u8]) -> Result<Vec<Withdrawal>, Refusal> {
    header(s, 1)?;
    let mut at = 5;
    let mut entries = vec![];
    for _ in 0..list(s, &mut at, 0, 256)? {
        let (withdrawal, end) = entry(s, at).map_err(|f| f.at(at))?;
        let demands = Demands { places: vec![(PRINCIPAL, withdrawal.issuer)], tests: withdrawal.tests.clone() };
        if !demands.fit(&p.constants) {
            return Err((5, at));
        }
        if has_variable(&withdrawal) {
            return Err((10, at));
        }
        entries.push(withdrawal);
        at = end;
    }
    if at != s.len() {
        return Err((3, at));
    }
    Ok(entries)
}
