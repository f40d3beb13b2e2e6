//! Words to trees: the grammar of docs/LANGUAGE.md.
use crate::lexer::{fault, words, Comment, Fault, Lexed, Token, RESERVED};
use crate::names::near;
use crate::syntax::*;

/// Deeper than this is not read; the engine refuses what is deeper than 8.
const DEEPEST: usize = 64;

pub struct Parser {
    tokens: Vec<Lexed>,
    at: usize,
    depth: usize,
    pub comments: Vec<Comment>,
}

pub type Parsed<T> = Result<T, Fault>;

/// How a token is named in a message.
fn describe(token: &Token) -> String {
    match token {
        Token::Word(word) => format!("\"{word}\""),
        Token::Quoted(label) => format!("the label \"{label}\""),
        Token::Number(number) => format!("the number {number}"),
        Token::Date(_) => "a date".to_string(),
        Token::Variable(_) => "a variable".to_string(),
        Token::Symbol(symbol) => format!("\"{symbol}\""),
        Token::End => "the end".to_string(),
    }
}

impl Parser {
    pub fn new(text: &str) -> Parsed<Parser> {
        let words = words(text)?;
        Ok(Parser { tokens: words.tokens, at: 0, depth: 0, comments: words.comments })
    }

    pub fn peek(&self) -> &Lexed {
        self.ahead(0)
    }

    fn ahead(&self, n: usize) -> &Lexed {
        &self.tokens[(self.at + n).min(self.tokens.len() - 1)]
    }

    fn next(&mut self) -> Lexed {
        let token = self.peek().clone();
        self.at += 1;
        token
    }

    /// The end of what was read last.
    fn before(&self) -> Span {
        self.tokens[self.at.saturating_sub(1).min(self.tokens.len() - 1)].span
    }

    pub fn wanted<T>(&self, what: &str) -> Parsed<T> {
        let found = self.peek();
        fault(found.span, format!("{what} is wanted here, not {}", describe(&found.token)))
    }

    fn is_word_at(&self, n: usize, word: &str) -> bool {
        matches!(&self.ahead(n).token, Token::Word(found) if found == word)
    }

    pub fn is_word(&self, word: &str) -> bool {
        self.is_word_at(0, word)
    }

    pub fn is_symbol(&self, symbol: &str) -> bool {
        matches!(self.peek().token, Token::Symbol(found) if found == symbol)
    }

    pub fn take_word(&mut self, word: &str) -> bool {
        let found = self.is_word(word);
        self.at += found as usize;
        found
    }

    pub fn take_symbol(&mut self, symbol: &str) -> bool {
        let found = self.is_symbol(symbol);
        self.at += found as usize;
        found
    }

    pub fn word(&mut self, word: &str) -> Parsed<Span> {
        if self.take_word(word) {
            return Ok(self.before());
        }
        self.wanted(&format!("\"{word}\""))
    }

    pub fn symbol(&mut self, symbol: &str) -> Parsed<Span> {
        if self.take_symbol(symbol) {
            return Ok(self.before());
        }
        self.wanted(&format!("\"{symbol}\""))
    }

    pub fn end(&mut self) -> Parsed<()> {
        match self.peek().token {
            Token::End => Ok(()),
            _ => self.wanted("the end"),
        }
    }

    /// A list with commas between its items.
    pub fn list<T>(&mut self, mut item: impl FnMut(&mut Parser) -> Parsed<T>) -> Parsed<Vec<T>> {
        let mut items = vec![item(self)?];
        while self.take_symbol(",") {
            items.push(item(self)?);
        }
        Ok(items)
    }

    fn number(&mut self, what: &str) -> Parsed<u32> {
        match self.peek().token {
            Token::Number(number) => {
                self.at += 1;
                Ok(number)
            }
            _ => self.wanted(what),
        }
    }

    fn label(&mut self, what: &str) -> Parsed<At<String>> {
        let Lexed { token, span, .. } = self.peek().clone();
        let label = match token {
            Token::Word(word) if RESERVED.contains(&word.as_str()) => {
                return fault(span, format!("{what} is wanted here; \"{word}\" is a word of the language, and as a label it is quoted"));
            }
            Token::Word(label) | Token::Quoted(label) => label,
            _ => return self.wanted(what),
        };
        self.at += 1;
        Ok(At { it: label, span })
    }

    // ---- a policy

    pub fn version(&mut self) -> Parsed<At<u8>> {
        let start = self.peek().span;
        if !self.take_word("version") {
            return Ok(At { it: 1, span: Span { start: start.start, end: start.start } });
        }
        let number = self.number("the version's number")?;
        let span = start.to(self.before());
        match u8::try_from(number) {
            Ok(version) => Ok(At { it: version, span }),
            Err(_) => fault(span, "a version is at most 255"),
        }
    }

    /// The kind of a declaration that begins here. `principal Otto says ..` begins a statement.
    pub fn declared_kind(&self) -> Option<Kind> {
        match &self.peek().token {
            Token::Word(word) if !self.is_word_at(2, "says") => Kind::of_word(word),
            _ => None,
        }
    }

    pub fn declaration(&mut self, kind: Kind) -> Parsed<Vec<At<Constant>>> {
        self.at += 1;
        let constants = self.list(|p| p.constant(kind))?;
        self.line_end("a comma or the end of the line")?;
        Ok(constants)
    }

    /// A declaration ends with its line.
    fn line_end(&self, what: &str) -> Parsed<()> {
        match self.peek().first_on_line || self.peek().token == Token::End {
            true => Ok(()),
            false => self.wanted(what),
        }
    }

    fn constant(&mut self, kind: Kind) -> Parsed<At<Constant>> {
        let Lexed { token, span, .. } = self.peek().clone();
        let constant = match (kind, token) {
            (Kind::Principal, _) => Constant::Label(KindOfLabel::Principal, self.label("a principal's label")?.it),
            (Kind::Thing, _) => Constant::Label(KindOfLabel::Thing, self.label("a thing's label")?.it),
            (Kind::Day, Token::Date(day)) => {
                self.at += 1;
                Constant::Day(day)
            }
            (Kind::Day, _) => return self.wanted("a date such as 2026-11-16"),
            (Kind::Quantity, _) => Constant::Quantity(self.number("a quantity")?),
        };
        Ok(At { it: constant, span })
    }

    /// `verb may-order thing`: the kinds of its parameters stand on the same line.
    pub fn verb(&mut self) -> Parsed<At<Verb>> {
        let start = self.word("verb")?;
        let label = self.label("a verb's label")?;
        let mut kinds = vec![];
        while let (Token::Word(word), false) = (&self.peek().token, self.peek().first_on_line) {
            let Some(kind) = Kind::of_word(word) else { break };
            kinds.push(kind);
            self.at += 1;
        }
        self.line_end("the kind of a parameter or the end of the line")?;
        Ok(At { it: Verb { label: label.it, kinds }, span: start.to(self.before()) })
    }

    pub fn assertion(&mut self) -> Parsed<Assertion<Text>> {
        let start = self.peek().span;
        let serial = if self.take_symbol("#") { self.number("a serial number")? } else { 0 };
        let issuer = self.expression("an issuer")?;
        if !self.take_word("says") {
            return self.no_statement(&issuer.it);
        }
        let head = self.fact()?;
        let body = if self.take_word("if") { self.list(Parser::fact)? } else { vec![] };
        let constraints = self.constraints()?;
        let end = self.full_stop("a full stop, a comma, \"if\" or \"where\"")?;
        Ok(Assertion { serial, issuer, head, body, constraints, span: start.to(end) })
    }

    fn constraints(&mut self) -> Parsed<Vec<Constraint<Text>>> {
        match self.take_word("where") {
            true => self.list(Parser::constraint),
            false => Ok(vec![]),
        }
    }

    /// The full stop, or what else could stand there.
    fn full_stop(&mut self, what: &str) -> Parsed<Span> {
        match self.take_symbol(".") {
            true => Ok(self.before()),
            false => self.wanted(what),
        }
    }

    /// `withdraw North #17 where today <= 2027-01-01.`
    pub fn withdrawal(&mut self) -> Parsed<Withdrawal<Text>> {
        let start = self.word("withdraw")?;
        let issuer = self.expression("an issuer")?;
        self.symbol("#")?;
        let serial = self.number("a serial number")?;
        let constraints = self.constraints()?;
        let end = self.full_stop("a full stop, a comma or \"where\"")?;
        Ok(Withdrawal { issuer, serial, constraints, span: start.to(end) })
    }

    /// `family may-order 1: belt-parts over encoder, gearbox.`
    pub fn family(&mut self) -> Parsed<Family<Text>> {
        let start = self.word("family")?;
        let verb = self.verb_name()?;
        let position = self.position()?;
        self.symbol(":")?;
        let parent = self.expression("a name")?;
        self.word("over")?;
        let children = self.list(|p| p.expression("a name"))?;
        let end = self.full_stop("a full stop or a comma")?;
        Ok(Family { verb, position, parent, children, span: start.to(end) })
    }

    /// Which parameter of a verb, from 1.
    fn position(&mut self) -> Parsed<At<u8>> {
        let span = self.peek().span;
        match u8::try_from(self.number("the number of a parameter")?) {
            Ok(position) => Ok(At { it: position, span }),
            Err(_) => fault(span, format!("a verb has at most {} parameters", secpal::limits::ARITY)),
        }
    }

    /// What begins with a name but goes on without "says" may be a declaration whose word is misspelt.
    fn no_statement<T>(&self, first: &Name) -> Parsed<T> {
        let declared = match first {
            Name::Label(None, word) => near(word, &["principal", "thing", "day", "quantity", "verb", "version"]),
            _ => None,
        };
        let hint = declared.map_or(String::new(), |word| format!("; or, in the place of the first word, {word}"));
        let found = self.peek();
        fault(found.span, format!("\"says\" is wanted here, not {}{hint}", describe(&found.token)))
    }

    // ---- facts and constraints

    /// What an expression is, if one begins here.
    fn expression_here(&mut self) -> Parsed<Option<At<Name>>> {
        let Lexed { token, span, .. } = self.peek().clone();
        let name = match token {
            Token::Word(word) if word == "today" => Name::Today,
            Token::Word(word) if word == "principal" || word == "thing" => {
                self.at += 1;
                let label = self.label("a name")?;
                return Ok(Some(At { it: Name::Label(Kind::of_word(&word), label.it), span: span.to(label.span) }));
            }
            Token::Word(word) if RESERVED.contains(&word.as_str()) => return Ok(None),
            Token::Word(label) | Token::Quoted(label) => Name::Label(None, label),
            Token::Number(number) => Name::Quantity(number),
            Token::Date(day) => Name::Day(day),
            Token::Variable(variable) => Name::Variable(variable),
            Token::Symbol(_) | Token::End => return Ok(None),
        };
        self.at += 1;
        Ok(Some(At { it: name, span }))
    }

    pub fn expression(&mut self, what: &str) -> Parsed<At<Name>> {
        match self.expression_here()? {
            Some(expression) => Ok(expression),
            None => self.wanted(what),
        }
    }

    pub fn fact(&mut self) -> Parsed<Fact<Text>> {
        let start = self.peek().span;
        let mut speakers = vec![];
        let mut subject = self.expression("a subject")?;
        while self.is_word("can") && self.is_word_at(1, "say") {
            self.at += 2;
            let unlimited = match (&self.peek().token, self.is_word("inf")) {
                (_, true) => true,
                (Token::Number(0), _) => false,
                _ => return self.wanted("the depth, 0 or inf,"),
            };
            self.at += 1;
            speakers.push(Speaker { who: subject, unlimited });
            subject = self.expression("a subject")?;
        }
        let verb = self.verb_name()?;
        let mut parameters = vec![];
        while let Some(parameter) = self.expression_here()? {
            parameters.push(parameter);
        }
        Ok(Fact { speakers, subject, verb, parameters, span: start.to(self.before()) })
    }

    fn verb_name(&mut self) -> Parsed<At<VerbName>> {
        let start = self.peek().span;
        if self.take_word("can-act-as") {
            return Ok(At { it: VerbName::CanActAs, span: start });
        }
        if self.take_word("can") {
            self.word("act")?;
            return Ok(At { it: VerbName::CanActAs, span: start.to(self.word("as")?) });
        }
        let label = self.label("a verb")?;
        Ok(At { it: VerbName::Label(label.it), span: label.span })
    }

    fn constraint(&mut self) -> Parsed<Constraint<Text>> {
        let left = self.expression("an expression")?;
        self.constraint_after(left, "one of = != <= begins-with within-year-of")
    }

    fn constraint_after(&mut self, left: At<Name>, what: &str) -> Parsed<Constraint<Text>> {
        let found = OPERATORS.iter().position(|operator| self.is_word(operator) || self.is_symbol(operator));
        let Some(number) = found else { return self.wanted(what) };
        self.at += 1;
        let right = self.expression("an expression")?;
        let span = left.span.to(right.span);
        Ok(Constraint { operator: number as u8 + 1, left, right, span })
    }

    // ---- a request

    pub fn today(&mut self) -> Parsed<At<u32>> {
        self.word("on")?;
        match self.peek().token {
            Token::Date(day) => Ok(At { it: day, span: self.next().span }),
            _ => self.wanted("a date such as 2026-11-16"),
        }
    }

    pub fn node(&mut self) -> Parsed<Node<Text>> {
        let start = self.peek().span;
        if self.depth == DEEPEST {
            return fault(start, "too deep: parts stand at most 8 deep");
        }
        self.depth += 1;
        let part = self.part()?;
        self.depth -= 1;
        Ok(Node { part, span: start.to(self.before()) })
    }

    fn part(&mut self) -> Parsed<Part<Text>> {
        if self.take_word("all") {
            return Ok(Part::All(self.parts()?));
        }
        if self.take_word("any") {
            return Ok(Part::Any(self.parts()?));
        }
        if self.take_word("not") {
            return Ok(Part::Not(self.inner()?));
        }
        if self.take_word("exists") {
            let Lexed { token: Token::Variable(variable), span, .. } = self.peek().clone() else {
                return self.wanted("a variable");
            };
            self.at += 1;
            return Ok(Part::Exists(At { it: variable, span }, self.inner()?));
        }
        let left = self.expression("all, any, not, exists, an issuer or an expression")?;
        if self.take_word("says") {
            return Ok(Part::Says(left, self.fact()?));
        }
        Ok(Part::Constraint(self.constraint_after(left, "\"says\" or one of = != <= begins-with within-year-of")?))
    }

    fn parts(&mut self) -> Parsed<Vec<Node<Text>>> {
        self.symbol("(")?;
        let parts = self.list(Parser::node)?;
        self.symbol(")")?;
        Ok(parts)
    }

    fn inner(&mut self) -> Parsed<Box<Node<Text>>> {
        self.symbol("(")?;
        let node = self.node()?;
        self.symbol(")")?;
        Ok(Box::new(node))
    }
}
