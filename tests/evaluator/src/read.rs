//! Policies, requests, withdrawals and hierarchies from bytes, with the refusals 1 to 7, 10 and 11.
use std::collections::BTreeSet;

mod hierarchy;
mod withdrawals;
pub use hierarchy::{hierarchy, Level};
pub use withdrawals::{withdrawals, Withdrawal};

/// A refusal's number and place.
pub type Refusal = (u32, usize);

pub const PRINCIPAL: u8 = 1;
pub const THING: u8 = 2;
pub const DAY: u8 = 3;
pub const QUANTITY: u8 = 4;

#[derive(Debug, Clone, Copy, PartialEq, Eq)]
pub enum Expr {
    Con(usize),
    Var(usize),
    Today,
    /// a number of no class
    None,
}

#[derive(Debug, Clone, PartialEq, Eq)]
pub struct Fact {
    /// speaker and depth, outermost first
    pub speakers: Vec<(Expr, u8)>,
    pub subject: Expr,
    pub verb: usize,
    pub params: Vec<Expr>,
}

#[derive(Debug, Clone, Copy)]
pub struct Constraint {
    pub op: u8,
    pub left: Expr,
    pub right: Expr,
}

#[derive(Debug, Clone)]
pub struct Assertion {
    pub serial: u32,
    pub issuer: Expr,
    pub head: Fact,
    pub body: Vec<Fact>,
    pub tests: Vec<Constraint>,
}

#[derive(Debug, Clone, PartialEq, Eq)]
pub enum Value {
    /// in small letters, so that labels that are alike are equal
    Label(Vec<u8>),
    Number(u32),
}

#[derive(Debug, Clone)]
pub struct Policy {
    /// 1, or 2: "acting as a firm does not carry its can-say rights"
    pub version: u8,
    pub constants: Vec<(u8, Value)>,
    /// the first byte of each constant
    pub starts: Vec<usize>,
    /// the kinds of the parameters of verb 0, 1, ..
    pub verbs: Vec<Vec<u8>>,
    pub assertions: Vec<Assertion>,
}

impl Policy {
    /// Where the label of a principal or thing stands in the policy's bytes, behind length and kind; none for other kinds and numbers not present.
    pub fn label(&self, constant: usize) -> Option<std::ops::Range<usize>> {
        match self.constants.get(constant) {
            Some((_, Value::Label(l))) => Some(self.starts[constant] + 2..self.starts[constant] + 2 + l.len()),
            _ => None,
        }
    }
}

#[derive(Debug, Clone)]
pub enum Node {
    Says(Expr, Fact),
    Test(Constraint),
    All(Vec<Node>),
    Any(Vec<Node>),
    Not(Box<Node>),
    Exists(usize, Box<Node>),
}

#[derive(Debug, Clone)]
pub struct Request {
    pub today: u32,
    pub node: Node,
    /// the kind of each variable that occurs in a fact
    pub kinds: [u8; 8],
}

/// Bytes from a place on, in an item that ends at `end`. What is not there is a fault of form.
struct Bytes<'a> {
    all: &'a [u8],
    at: usize,
    end: usize,
}

/// Why an item is not read: its form, or a verb number past the verbs.
enum Fault {
    Form,
    Verb,
}

impl Bytes<'_> {
    fn byte(&mut self) -> Result<u8, Fault> {
        if self.at >= self.end {
            return Err(Fault::Form);
        }
        self.at += 1;
        Ok(self.all[self.at - 1])
    }

    fn number(&mut self, width: usize) -> Result<u32, Fault> {
        let mut n = 0;
        for _ in 0..width {
            n = n * 256 + self.byte()? as u32;
        }
        Ok(n)
    }

    fn count(&mut self, lowest: u8, highest: u8) -> Result<u8, Fault> {
        let n = self.byte()?;
        if n < lowest || n > highest {
            return Err(Fault::Form);
        }
        Ok(n)
    }

    fn label(&mut self) -> Result<Vec<u8>, Fault> {
        let label = self.all[self.at..self.end].to_vec();
        self.at = self.end;
        if label.is_empty() || label.len() > 32 || label.iter().any(|b| *b < 0x21 || *b > 0x7e) {
            return Err(Fault::Form);
        }
        Ok(label.to_ascii_lowercase())
    }

    fn expr(&mut self) -> Result<Expr, Fault> {
        Ok(match self.number(2)? {
            n @ 0..=254 => Expr::Con(n as usize),
            0x4000 => Expr::Today,
            n @ 0x8000..=0x8007 => Expr::Var(n as usize - 0x8000),
            _ => Expr::None,
        })
    }

    fn fact(&mut self, verbs: &[Vec<u8>]) -> Result<Fact, Fault> {
        let nest = self.count(0, 3)?;
        let mut speakers = vec![];
        for _ in 0..nest {
            let speaker = self.expr()?;
            speakers.push((speaker, self.count(0, 1)?));
        }
        let subject = self.expr()?;
        let verb = self.byte()? as usize;
        if verb >= verbs.len() {
            return Err(Fault::Verb);
        }
        let mut params = vec![];
        for _ in 0..verbs[verb].len() {
            params.push(self.expr()?);
        }
        Ok(Fact { speakers, subject, verb, params })
    }

    fn constraint(&mut self) -> Result<Constraint, Fault> {
        let op = self.count(1, 5)?;
        Ok(Constraint { op, left: self.expr()?, right: self.expr()? })
    }

    /// A count byte 0 to 4 and that many constraints.
    fn constraints(&mut self) -> Result<Vec<Constraint>, Fault> {
        (0..self.count(0, 4)?).map(|_| self.constraint()).collect()
    }
}

/// "1 version absent or not 1 (place 0). 2 length field short or wrong (place 1)." The versions of a slice go from 1 to a last one.
fn header(s: &[u8], last_version: u8) -> Result<u8, Refusal> {
    let version = *s.first().filter(|version| (1..=last_version).contains(*version)).ok_or((1, 0))?;
    if s.len() < 5 || u32::from_be_bytes([s[1], s[2], s[3], s[4]]) as usize != s.len() - 5 {
        return Err((2, 1));
    }
    Ok(version)
}

/// A list's count, whose place is its own.
fn list(s: &[u8], at: &mut usize, lowest: usize, highest: usize) -> Result<usize, Refusal> {
    let place = *at;
    if s.len() < place + 2 {
        return Err((3, place));
    }
    let n = s[place] as usize * 256 + s[place + 1] as usize;
    if n < lowest || n > highest {
        return Err((3, place));
    }
    *at += 2;
    Ok(n)
}

/// An item led by its length in `width` bytes: what is in it.
fn item<'a>(s: &'a [u8], at: usize, width: usize) -> Result<Bytes<'a>, Fault> {
    let mut b = Bytes { all: s, at, end: s.len() };
    let n = b.number(width)? as usize;
    if b.at + n > s.len() {
        return Err(Fault::Form);
    }
    b.end = b.at + n;
    Ok(b)
}

fn constant(s: &[u8], at: usize) -> Result<((u8, Value), usize), Fault> {
    let mut b = item(s, at, 1)?;
    let kind = b.byte()?;
    let value = match kind {
        PRINCIPAL | THING => Value::Label(b.label()?),
        DAY | QUANTITY => Value::Number(b.number(4)?),
        _ => return Err(Fault::Form),
    };
    if b.at != b.end || (kind == DAY && matches!(value, Value::Number(n) if n > 36524)) {
        return Err(Fault::Form);
    }
    Ok(((kind, value), b.end))
}

/// The kinds of a verb's parameters, and its label.
type Verb = (Vec<u8>, Vec<u8>);

fn verb(s: &[u8], at: usize) -> Result<(Verb, usize), Fault> {
    let mut b = item(s, at, 1)?;
    let arity = b.count(0, 3)?;
    let mut kinds = vec![];
    for _ in 0..arity {
        kinds.push(b.count(1, 4)?);
    }
    Ok(((kinds, b.label()?), b.end))
}

fn assertion(s: &[u8], at: usize, verbs: &[Vec<u8>]) -> Result<(Assertion, usize), Fault> {
    let mut b = item(s, at, 2)?;
    let serial = b.number(4)?;
    let issuer = b.expr()?;
    let head = b.fact(verbs)?;
    let mut body = vec![];
    for _ in 0..b.count(0, 4)? {
        body.push(b.fact(verbs)?);
    }
    let tests = b.constraints()?;
    if b.at != b.end {
        return Err(Fault::Form);
    }
    Ok((Assertion { serial, issuer, head, body, tests }, b.end))
}

impl Fault {
    fn at(self, place: usize) -> Refusal {
        match self {
            Fault::Form => (3, place),
            Fault::Verb => (5, place),
        }
    }
}

// ---- kinds: what must be of one kind

/// A choice of kinds is looked for by trying each kind for each variable.
#[derive(Default, Clone)]
pub struct Demands {
    places: Vec<(u8, Expr)>,
    tests: Vec<Constraint>,
}

impl Demands {
    fn fact(&mut self, verbs: &[Vec<u8>], f: &Fact) {
        for (speaker, _) in &f.speakers {
            self.places.push((PRINCIPAL, *speaker));
        }
        self.places.push((PRINCIPAL, f.subject));
        for (kind, e) in verbs[f.verb].iter().zip(&f.params) {
            self.places.push((*kind, *e));
        }
    }

    fn fits(&self, constants: &[(u8, Value)], kinds: &[u8; 8]) -> bool {
        let kind = |e: Expr| match e {
            Expr::Con(c) => constants.get(c).map_or(0, |c| c.0),
            Expr::Var(v) => kinds[v],
            Expr::Today => DAY,
            Expr::None => 0,
        };
        self.places.iter().all(|(k, e)| *e != Expr::Today && kind(*e) == *k)
            && self.tests.iter().all(|c| {
                let (l, r) = (kind(c.left), kind(c.right));
                match c.op {
                    1 | 2 => l == r && l != 0,
                    3 => l == r && (l == DAY || l == QUANTITY),
                    4 => l == THING && r == THING,
                    _ => l == DAY && r == DAY,
                }
            })
    }

    fn occurs(&self, v: usize) -> bool {
        let is = |e: Expr| e == Expr::Var(v);
        self.places.iter().any(|p| is(p.1)) || self.tests.iter().any(|c| is(c.left) || is(c.right))
    }

    /// Is there a choice of kinds that fits? A variable with a place in a fact can only have that place's kind.
    fn fit(&self, constants: &[(u8, Value)]) -> bool {
        let mut choices = vec![[0u8; 8]];
        for v in 0..8 {
            if !self.occurs(v) {
                continue;
            }
            let settled: Vec<u8> = self.places.iter().filter(|p| p.1 == Expr::Var(v)).map(|p| p.0).collect();
            let mut next = vec![];
            for choice in choices {
                for kind in 1..=4 {
                    if settled.iter().all(|k| *k == kind) {
                        let mut c = choice;
                        c[v] = kind;
                        next.push(c);
                    }
                }
            }
            choices = next;
        }
        choices.iter().any(|c| self.fits(constants, c))
    }

    pub fn kinds(&self) -> [u8; 8] {
        let mut kinds = [0; 8];
        for (k, e) in self.places.iter().rev() {
            if let Expr::Var(v) = e {
                kinds[*v] = *k;
            }
        }
        kinds
    }
}

pub fn demands_of(verbs: &[Vec<u8>], a: &Assertion) -> Demands {
    let mut d = Demands { places: vec![], tests: a.tests.clone() };
    d.fact(verbs, &a.head);
    a.body.iter().for_each(|f| d.fact(verbs, f));
    d
}

// ---- safety

fn var(e: Expr) -> BTreeSet<usize> {
    match e {
        Expr::Var(v) => [v].into(),
        _ => [].into(),
    }
}

fn vars(f: &Fact) -> BTreeSet<usize> {
    f.speakers.iter().map(|s| s.0).chain([f.subject]).chain(f.params.iter().copied()).flat_map(var).collect()
}

fn vars_test(c: &Constraint) -> BTreeSet<usize> {
    &var(c.left) | &var(c.right)
}

fn safe_assertion(a: &Assertion) -> bool {
    let body: BTreeSet<usize> = a.body.iter().flat_map(vars).collect();
    let head = vars(&a.head);
    a.body.iter().all(|f| f.speakers.is_empty())
        && match a.head.speakers.first() {
            None => head.is_subset(&body),
            Some((speaker, _)) => var(*speaker).is_subset(&body),
        }
        && a.tests.iter().all(|c| vars_test(c).is_subset(&(&head | &body)))
}

pub fn free(n: &Node) -> BTreeSet<usize> {
    match n {
        Node::Says(e, f) => &var(*e) | &vars(f),
        Node::Test(c) => vars_test(c),
        Node::All(ns) | Node::Any(ns) => ns.iter().flat_map(free).collect(),
        Node::Not(n) => free(n),
        Node::Exists(v, n) => &free(n) - &[*v].into(),
    }
}

fn binders(n: &Node, found: &mut Vec<usize>) {
    match n {
        Node::Says(..) | Node::Test(_) => {}
        Node::All(ns) | Node::Any(ns) => ns.iter().for_each(|n| binders(n, found)),
        Node::Not(n) => binders(n, found),
        Node::Exists(v, n) => {
            found.push(*v);
            binders(n, found);
        }
    }
}

/// The variables known after a node, if it is safe where `known` are known before.
fn known(n: &Node, before: &BTreeSet<usize>) -> Option<BTreeSet<usize>> {
    let needs = |vs: &BTreeSet<usize>| if vs.is_subset(before) { Some(()) } else { None };
    match n {
        Node::Says(e, f) if f.speakers.is_empty() => Some(&(before | &var(*e)) | &vars(f)),
        Node::Says(e, f) => {
            needs(&vars(f))?;
            Some(before | &var(*e))
        }
        Node::Test(c) => {
            needs(&vars_test(c))?;
            Some(before.clone())
        }
        Node::All(ns) => {
            let mut now = before.clone();
            for n in ns {
                now = known(n, &now)?;
            }
            Some(now)
        }
        Node::Any(ns) => {
            let mut parts = vec![];
            for n in ns {
                parts.push(known(n, before)?);
            }
            parts.into_iter().reduce(|a, b| &a & &b)
        }
        Node::Not(n) => {
            needs(&free(n))?;
            known(n, before)?;
            Some(before.clone())
        }
        Node::Exists(v, n) => {
            if before.contains(v) {
                return None;
            }
            let mut after = known(n, before)?;
            if !after.remove(v) {
                return None;
            }
            Some(after)
        }
    }
}

fn safe_request(n: &Node) -> bool {
    let free = free(n);
    let mut bound = vec![];
    binders(n, &mut bound);
    let distinct: BTreeSet<usize> = bound.iter().copied().collect();
    distinct.len() == bound.len() && free.is_disjoint(&distinct) && known(n, &[].into()).is_some_and(|k| free.is_subset(&k))
}

// ---- the readers of policy and request

pub fn policy(s: &[u8]) -> Result<Policy, Refusal> {
    let version = header(s, 2)?;
    let mut at = 5;
    let mut constants: Vec<(u8, Value)> = vec![];
    let mut starts = vec![];
    for _ in 0..list(s, &mut at, 1, 255)? {
        let (c, end) = constant(s, at).map_err(|f| f.at(at))?;
        if constants.contains(&c) {
            return Err((4, at));
        }
        constants.push(c);
        starts.push(at);
        at = end;
    }
    let mut verbs = vec![vec![PRINCIPAL]];
    let mut labels = vec![];
    for _ in 0..list(s, &mut at, 0, 64)? {
        let ((kinds, label), end) = verb(s, at).map_err(|f| f.at(at))?;
        if labels.contains(&label) {
            return Err((4, at));
        }
        verbs.push(kinds);
        labels.push(label);
        at = end;
    }
    let mut assertions = vec![];
    for _ in 0..list(s, &mut at, 0, 256)? {
        let (a, end) = assertion(s, at, &verbs).map_err(|f| f.at(at))?;
        let principal = matches!(a.issuer, Expr::Con(c) if constants.get(c).is_some_and(|c| c.0 == PRINCIPAL));
        if !principal || !demands_of(&verbs, &a).fit(&constants) {
            return Err((5, at));
        }
        if !safe_assertion(&a) {
            return Err((6, at));
        }
        assertions.push(a);
        at = end;
    }
    if at != s.len() {
        return Err((3, at));
    }
    Ok(Policy { version, constants, starts, verbs, assertions })
}

/// The node at `at`, at this depth: the node and where it ends.
fn node(p: &Policy, s: &[u8], at: usize, depth: usize, d: &mut Demands) -> Result<(Node, usize), Refusal> {
    let form = |f: Fault| f.at(at);
    let mut b = Bytes { all: s, at, end: s.len() };
    if depth > 8 {
        return Err((3, at));
    }
    let checked = |d: &Demands| if d.fit(&p.constants) { Ok(()) } else { Err((5, at)) };
    match b.byte().map_err(form)? {
        1 => {
            let issuer = b.expr().map_err(form)?;
            let fact = b.fact(&p.verbs).map_err(form)?;
            d.places.push((PRINCIPAL, issuer));
            d.fact(&p.verbs, &fact);
            checked(d)?;
            Ok((Node::Says(issuer, fact), b.at))
        }
        2 => {
            let c = b.constraint().map_err(form)?;
            d.tests.push(c);
            checked(d)?;
            Ok((Node::Test(c), b.at))
        }
        sort @ (3 | 4) => {
            let n = b.count(1, 8).map_err(form)?;
            let mut parts = vec![];
            let mut next = b.at;
            for _ in 0..n {
                let (part, end) = node(p, s, next, depth + 1, d)?;
                parts.push(part);
                next = end;
            }
            Ok((if sort == 3 { Node::All(parts) } else { Node::Any(parts) }, next))
        }
        5 => {
            let (inner, end) = node(p, s, b.at, depth + 1, d)?;
            Ok((Node::Not(inner.into()), end))
        }
        6 => {
            let v = b.count(0, 7).map_err(form)? as usize;
            let (inner, end) = node(p, s, b.at, depth + 1, d)?;
            Ok((Node::Exists(v, inner.into()), end))
        }
        _ => Err((3, at)),
    }
}

pub fn request(p: &Policy, s: &[u8]) -> Result<Request, Refusal> {
    header(s, 1)?;
    let mut b = Bytes { all: s, at: 5, end: s.len() };
    let today = b.number(4).map_err(|f| f.at(5))?;
    if today > 36524 {
        return Err((3, 5));
    }
    let mut d = Demands::default();
    let (node, end) = node(p, s, 9, 1, &mut d)?;
    if end != s.len() {
        return Err((3, end));
    }
    if !safe_request(&node) {
        return Err((7, 9));
    }
    Ok(Request { today, node, kinds: d.kinds() })
}
