//! Random policies, requests, withdrawals, hierarchies and buffers: valid ones, damaged ones, and ones at the limits. A seed gives the same case again.
use crate::read::{DAY, PRINCIPAL, QUANTITY, THING};
use crate::{Call, Slices, NONE};

/// A small generator of numbers (xorshift). A wild one puts in what does not fit, now and then.
pub struct Random(u64, bool);

impl Random {
    pub fn new(seed: u64) -> Random {
        let mut r = Random(seed.wrapping_mul(0x9e37_79b9_7f4a_7c15) | 1, false);
        for _ in 0..4 {
            r.next();
        }
        r.1 = r.once_in(3);
        r
    }

    fn next(&mut self) -> u64 {
        self.0 ^= self.0 << 13;
        self.0 ^= self.0 >> 7;
        self.0 ^= self.0 << 17;
        self.0
    }

    /// below n
    pub fn below(&mut self, n: usize) -> usize {
        ((self.next() >> 11) % n as u64) as usize
    }

    /// from a to b, both included
    pub fn range(&mut self, a: usize, b: usize) -> usize {
        a + self.below(b - a + 1)
    }

    /// true once in n
    pub fn once_in(&mut self, n: usize) -> bool {
        self.below(n) == 0
    }

    /// true once in n, in a wild case only
    pub fn wild(&mut self, n: usize) -> bool {
        self.1 && self.once_in(n)
    }

    pub fn pick<T: Copy>(&mut self, all: &[T]) -> T {
        all[self.below(all.len())]
    }
}

fn two(n: usize) -> [u8; 2] {
    (n as u16).to_be_bytes()
}

fn file(body: Vec<u8>) -> Vec<u8> {
    let mut f = vec![1];
    f.extend((body.len() as u32).to_be_bytes());
    f.extend(body);
    f
}

/// What the policy has, for its statements and for the slices beside it.
struct Names {
    kinds: Vec<u8>,
    verbs: Vec<Vec<u8>>,
    /// the issuer and the serial of each assertion
    stated: Vec<(usize, u32)>,
}

impl Names {
    fn of_kind(&self, kind: u8) -> Vec<usize> {
        (0..self.kinds.len()).filter(|c| self.kinds[*c] == kind).collect()
    }
}

/// The variables so far, each with its kind, so that most expressions fit.
#[derive(Default, Clone)]
struct Scope {
    kinds: [u8; 8],
}

impl Scope {
    fn var(&mut self, r: &mut Random, kind: u8) -> Option<usize> {
        let v = r.below(8).min(r.below(8));
        if self.kinds[v] == 0 {
            self.kinds[v] = kind;
        }
        (self.kinds[v] == kind).then_some(v)
    }

    fn known(&self, r: &mut Random, kind: u8) -> Option<usize> {
        let all: Vec<usize> = (0..8).filter(|v| self.kinds[*v] == kind).collect();
        (!all.is_empty()).then(|| r.pick(&all))
    }
}

/// An expression of a kind: mostly a constant that is there or a variable that fits.
fn expr(r: &mut Random, n: &Names, kind: u8, s: &mut Scope, new: bool) -> [u8; 2] {
    if r.wild(60) {
        let wild = r.below(65536);
        return two(r.pick(&[0x4000, 0x8000 + wild % 9, 254, 255, wild]));
    }
    if r.once_in(2) {
        let v = if new { s.var(r, kind) } else { s.known(r, kind) };
        if let Some(v) = v {
            return two(0x8000 + v);
        }
    }
    let all = n.of_kind(kind);
    if all.is_empty() {
        return two(0x8000 + s.var(r, kind).unwrap_or(0));
    }
    two(r.pick(&all))
}

/// `outer`: whether the first expression may be a new variable; `new`: whether the others may.
fn fact(r: &mut Random, n: &Names, nest: usize, s: &mut Scope, outer: bool, new: bool) -> Vec<u8> {
    let mut f = vec![nest as u8];
    for level in 0..nest {
        f.extend(expr(r, n, PRINCIPAL, s, if level == 0 { outer } else { new }));
        f.push(r.below(2) as u8);
    }
    f.extend(expr(r, n, PRINCIPAL, s, if nest == 0 { outer } else { new }));
    let verb = if r.wild(100) { r.below(256) } else { r.below(n.verbs.len()) };
    f.push(verb as u8);
    for kind in n.verbs.get(verb).cloned().unwrap_or_default() {
        f.extend(expr(r, n, kind, s, new));
    }
    f
}

fn constraint(r: &mut Random, n: &Names, s: &mut Scope) -> Vec<u8> {
    let op = if r.wild(60) { r.below(8) } else { r.range(1, 5) };
    let kind = match op {
        3 => r.pick(&[DAY, QUANTITY]),
        4 => THING,
        5 => DAY,
        _ => r.pick(&[PRINCIPAL, THING, DAY, QUANTITY]),
    };
    let mut c = vec![op as u8];
    for _ in 0..2 {
        let e = expr(r, n, kind, s, false);
        c.extend(if kind == DAY && r.once_in(3) { two(0x4000) } else { e });
    }
    c
}

/// A count byte and as many constraints.
fn constraints(r: &mut Random, n: &Names, s: &mut Scope) -> Vec<u8> {
    let count = r.pick(&[0, 0, 0, 1, 1, 2, 4]);
    let mut all = vec![count];
    for _ in 0..count {
        all.extend(constraint(r, n, s));
    }
    all
}

fn nesting(r: &mut Random) -> usize {
    r.pick(&[0, 0, 0, 1, 1, 1, 2, 3])
}

fn issuer(r: &mut Random, n: &Names) -> usize {
    let principals = n.of_kind(PRINCIPAL);
    if principals.is_empty() || r.wild(30) {
        r.below(n.kinds.len() + 1)
    } else {
        r.pick(&principals)
    }
}

/// Few serials, so that statements share them.
fn serial(r: &mut Random) -> u32 {
    r.pick(&[0, 0, 1, 2, 256, u32::MAX])
}

fn assertion(r: &mut Random, n: &mut Names) -> Vec<u8> {
    let mut s = Scope::default();
    let mut body = vec![];
    let facts = r.pick(&[0, 0, 1, 1, 2, 2, 3, 4]);
    body.push(facts);
    for _ in 0..facts {
        let nest = if r.wild(30) { 1 } else { 0 };
        body.extend(fact(r, n, nest, &mut s, true, true));
    }
    let nest = nesting(r);
    let wild = r.wild(10);
    let head = fact(r, n, nest, &mut s, wild, nest > 0 || wild);
    body.extend(constraints(r, n, &mut s));
    let (issuer, serial) = (issuer(r, n), serial(r));
    n.stated.push((issuer, serial));
    let mut a = serial.to_be_bytes().to_vec();
    a.extend(two(issuer));
    a.extend(head);
    a.extend(body);
    let mut item = two(a.len()).to_vec();
    item.extend(a);
    item
}

/// Letters in both cases, and bytes beside the capitals and the small letters.
fn label(r: &mut Random) -> Vec<u8> {
    let n = if r.wild(20) { r.range(30, 33) } else { r.range(1, 4) };
    (0..n).map(|_| r.pick(b"abzABZ@[`{!~")).collect()
}

/// The same label but for capitals.
fn other_case(r: &mut Random, label: &[u8]) -> Vec<u8> {
    label.iter().map(|b| if r.once_in(2) { b.to_ascii_uppercase() } else { b.to_ascii_lowercase() }).collect()
}

/// Days, with two more each, at which a year on may be 365 or 366 days on: the first and the last ones, and the turn of February in leap years and beside them.
const DAYS: [usize; 12] = [0, 58, 365, 423, 1000, 1153, 1519, 1884, 35122, 35487, 36159, 36522];

fn constant(r: &mut Random, kind: u8) -> Vec<u8> {
    let mut c = vec![kind];
    match kind {
        PRINCIPAL | THING => c.extend(label(r)),
        DAY => {
            let more = if r.wild(10) { 3 } else { r.below(3) };
            c.extend(((r.pick(&DAYS) + more) as u32).to_be_bytes());
        }
        _ => c.extend(r.pick(&[0, 1, 7, 255, 256, u32::MAX]).to_be_bytes()),
    }
    c
}

fn policy(r: &mut Random) -> (Vec<u8>, Names) {
    let mut n = Names { kinds: vec![], verbs: vec![vec![PRINCIPAL]], stated: vec![] };
    let wanted = if r.once_in(100) {
        r.range(250, 255)
    } else {
        if r.wild(4) {
            r.range(1, 5)
        } else {
            r.range(5, 10)
        }
    };
    let mut constants: Vec<Vec<u8>> = vec![];
    for i in 0..wanted {
        // one of each kind first, as a rule
        let any = r.pick(&[PRINCIPAL, PRINCIPAL, PRINCIPAL, THING, THING, DAY, QUANTITY]);
        let kind = *[PRINCIPAL, PRINCIPAL, THING, DAY, QUANTITY].get(i).unwrap_or(&any);
        let kind = if r.wild(8) { any } else { kind };
        let mut c = constant(r, kind);
        if wanted > 20 {
            c = [vec![PRINCIPAL], format!("p{i}").into_bytes()].concat();
        }
        let labelled = c[0] == PRINCIPAL || c[0] == THING;
        // the label of an earlier constant of the other kind, but for capitals
        if labelled && r.once_in(6) {
            if let Some(earlier) = constants.iter().find(|e| e[0] != c[0] && (e[0] == PRINCIPAL || e[0] == THING)) {
                c = [vec![c[0]], other_case(r, &earlier[1..])].concat();
            }
        }
        let alike = |e: &Vec<u8>| *e == c || (labelled && e.eq_ignore_ascii_case(&c));
        if !constants.iter().any(alike) || r.wild(4) {
            n.kinds.push(c[0]);
            constants.push(c);
        }
    }
    let mut body = two(constants.len()).to_vec();
    for c in &constants {
        body.push(c.len() as u8);
        body.extend(c);
    }
    let verbs = r.below(5);
    body.extend(two(verbs));
    for i in 0..verbs {
        let arity = r.pick(&[0, 0, 1, 1, 2, 3]);
        let kinds: Vec<u8> = (0..arity).map(|_| r.pick(&[PRINCIPAL, THING, DAY, QUANTITY])).collect();
        let mut v = vec![arity as u8];
        v.extend(&kinds);
        let name = format!("verb{}", if r.wild(20) { 0 } else { i });
        v.extend(other_case(r, name.as_bytes()));
        body.push(v.len() as u8);
        body.extend(v);
        n.verbs.push(kinds);
    }
    let assertions = if wanted > 20 { r.below(3) } else { r.below(9) };
    body.extend(two(assertions));
    for _ in 0..assertions {
        body.extend(assertion(r, &mut n));
    }
    (file(body), n)
}

fn node(r: &mut Random, n: &Names, s: &mut Scope, depth: usize) -> Vec<u8> {
    let deepest = depth >= 4 && !r.wild(10);
    match if deepest { r.below(3) } else { r.below(9) } {
        0 | 1 => {
            let nest = if r.once_in(3) { nesting(r) } else { 0 };
            let mut p = vec![1];
            p.extend(expr(r, n, PRINCIPAL, s, true));
            p.extend(fact(r, n, nest, s, nest == 0, nest == 0));
            p
        }
        2 => [vec![2], constraint(r, n, s)].concat(),
        k @ 3..=6 => {
            let parts = if r.wild(20) { r.below(10) } else { r.range(1, 3) };
            let mut p = vec![if k < 6 { 3 } else { 4 }, parts as u8];
            for _ in 0..parts {
                p.extend(node(r, n, s, depth + 1));
            }
            p
        }
        7 => [vec![5], node(r, n, s, depth + 1)].concat(),
        _ => {
            let v = if r.wild(20) { 8 } else { r.range(4, 7) };
            let inner = node(r, n, s, depth + 2);
            if v == 8 || s.kinds[v] != 0 {
                return [vec![6, v as u8], inner].concat();
            }
            // most often the variable is made known by a says node before the rest
            let mut own = s.clone();
            own.kinds[v] = PRINCIPAL;
            let mut p = vec![6, v as u8, 3, 2, 1];
            p.extend(expr(r, n, PRINCIPAL, s, false));
            p.push(0);
            p.extend(two(0x8000 + v));
            let verb = r.below(n.verbs.len());
            p.push(verb as u8);
            for kind in n.verbs[verb].clone() {
                p.extend(expr(r, n, kind, s, false));
            }
            p.extend(if r.once_in(2) { node(r, n, &mut own, depth + 2) } else { inner });
            p
        }
    }
}

fn request(r: &mut Random, n: &Names) -> Vec<u8> {
    let latest = if r.wild(10) { 36525 } else { 36524 };
    let today = if r.once_in(3) { r.pick(&DAYS) + r.below(3) } else { r.pick(&[0usize, 1, 365, 366, 1000, 36524, latest]) };
    let mut body = (today as u32).to_be_bytes().to_vec();
    body.extend(node(r, n, &mut Scope::default(), 1));
    file(body)
}

/// An entry that most often meets an assertion; now and then only its issuer or its serial does. A wild one has a variable.
fn withdrawal(r: &mut Random, n: &Names) -> Vec<u8> {
    let any = (issuer(r, n), serial(r));
    let (issuer, known) = if n.stated.is_empty() { any } else { r.pick(&n.stated) };
    let issuer = if r.wild(12) { 0x8000 + r.below(2) } else { r.pick(&[issuer, issuer, issuer, issuer, any.0]) };
    let mut s = Scope::default();
    if r.wild(12) {
        s.kinds[r.below(2)] = r.pick(&[PRINCIPAL, THING, DAY, QUANTITY]);
    }
    let mut entry = two(issuer).to_vec();
    entry.extend(r.pick(&[known, known, known, any.1]).to_be_bytes());
    entry.extend(constraints(r, n, &mut s));
    entry
}

fn withdrawals(r: &mut Random, n: &Names) -> Vec<u8> {
    if r.once_in(4) {
        return NONE.to_vec();
    }
    let entries = if r.once_in(100) { r.range(250, 257) } else { r.below(4) };
    let mut body = two(entries).to_vec();
    for _ in 0..entries {
        body.extend(withdrawal(r, n));
    }
    file(body)
}

/// The parameters, by verb and position from 1, of whose kind there are several constants.
fn parameters(n: &Names) -> Vec<(usize, usize)> {
    let of_verb = |(verb, kinds): (usize, &Vec<u8>)| {
        let several = |position: &usize| n.of_kind(kinds[position - 1]).len() > 1;
        (1..=kinds.len()).filter(several).map(|position| (verb, position)).collect::<Vec<_>>()
    };
    n.verbs.iter().enumerate().skip(1).flat_map(of_verb).collect()
}

/// An entry for one of these parameters: two constants of its kind. A wild one does not fit, or has one constant twice.
fn level(r: &mut Random, n: &Names, parameters: &[(usize, usize)]) -> Vec<u8> {
    let (verb, position) = r.pick(parameters);
    let all = n.of_kind(n.verbs[verb][position - 1]);
    let parent = r.pick(&all);
    let others: Vec<usize> = all.into_iter().filter(|c| *c != parent).collect();
    let child = if r.wild(10) { parent } else { r.pick(&others) };
    let mut entry = [&[verb as u8, position as u8], &two(parent)[..], &two(child)].concat();
    if r.wild(20) {
        let at = r.below(entry.len());
        entry[at] = r.pick(&[0, 1, 2, 4, 64, 128, 255]);
    }
    entry
}

fn hierarchy(r: &mut Random, n: &Names) -> Vec<u8> {
    let parameters = parameters(n);
    if r.once_in(4) || parameters.is_empty() {
        return NONE.to_vec();
    }
    let entries = if r.once_in(200) { r.range(1020, 1025) } else { r.below(6) };
    let mut body = two(entries).to_vec();
    for _ in 0..entries {
        body.extend(level(r, n, &parameters));
    }
    file(body)
}

/// Some bytes changed, cut out or put in; the length field is mended half of the time.
fn damage(r: &mut Random, s: &mut Vec<u8>) {
    for _ in 0..r.range(1, 3) {
        if s.is_empty() {
            break;
        }
        let at = r.below(s.len());
        match r.below(5) {
            0 => s[at] = r.below(256) as u8,
            1 => s[at] = s[at].wrapping_add(1),
            2 => {
                s.remove(at);
            }
            3 => s.insert(at, r.pick(&[0, 1, 2, 3, 4, 5, 128, 255])),
            _ => s.truncate(at),
        }
    }
    if s.len() >= 5 && r.once_in(2) {
        let n = (s.len() - 5) as u32;
        s[1..5].copy_from_slice(&n.to_be_bytes());
    }
}

/// The case with a number: an even one and the next have the same slices but for the policy's version, 1 and 2. Buffers are as long as `facts` and
/// `answers` ask, a byte or a record more or less.
pub fn case(seed: u64, sizes: impl Fn(&Slices) -> (usize, usize)) -> Call {
    let mut r = Random::new(seed / 2);
    let (mut policy, names) = policy(&mut r);
    policy[0] = if seed % 2 == 0 { 1 } else { 2 };
    let mut slices = [policy, request(&mut r, &names), withdrawals(&mut r, &names), hierarchy(&mut r, &names)];
    if r.wild(2) {
        let damaged = r.below(slices.len());
        damage(&mut r, &mut slices[damaged]);
    }
    let [policy, request, withdrawals, hierarchy] = slices;
    let mut call = Call { policy, request, withdrawals, hierarchy, facts: vec![], answers: vec![] };
    let (facts, answers) = sizes(&call.slices());
    let near = |r: &mut Random, n: usize, width: usize| match r.below(6) {
        0 => (width * n).saturating_sub(1),
        1 => width * n,
        2 => width * n + r.below(width),
        3 => width * n.saturating_sub(1),
        4 => r.below(width * n + 2),
        _ => width * (n + r.below(40)) + r.below(width),
    };
    let fill = r.below(256) as u8;
    call.facts = vec![fill; near(&mut r, facts, 16)];
    call.answers = vec![fill; near(&mut r, answers, 8)];
    call
}
