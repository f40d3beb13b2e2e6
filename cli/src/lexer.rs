//! A text to words, and what a fault says of a place in it.
use crate::calendar;
use crate::syntax::{Span, Variable};

/// What is wrong, and where.
#[derive(Debug, Clone, PartialEq, Eq)]
pub struct Fault {
    pub span: Span,
    pub message: String,
}

pub fn fault<T>(span: Span, message: impl Into<String>) -> Result<T, Fault> {
    Err(Fault { span, message: message.into() })
}

#[derive(Debug, Clone, PartialEq, Eq)]
pub enum Token {
    /// a plain word: a reserved one or a label
    Word(String),
    /// a label in quotes
    Quoted(String),
    Number(u32),
    Date(u32),
    Variable(Variable),
    Symbol(&'static str),
    End,
}

#[derive(Debug, Clone)]
pub struct Lexed {
    pub token: Token,
    pub span: Span,
    pub first_on_line: bool,
}

#[derive(Debug, Clone)]
pub struct Comment {
    pub text: String,
    pub span: Span,
}

pub struct Words {
    /// ends with `Token::End`
    pub tokens: Vec<Lexed>,
    pub comments: Vec<Comment>,
}

/// Words of the language, and words kept for sections that later versions may add. As labels they are quoted.
#[rustfmt::skip]
pub const RESERVED: [&str; 38] = [
    "principal", "thing", "day", "quantity", "verb", "version",
    "says", "can", "say", "act", "as", "can-act-as", "inf", "if", "where", "today",
    "begins-with", "within-year-of", "and", "or", "on", "ask", "all", "any", "not", "exists",
    "allow", "deny", "answers", "are", "none",
    "from", "until", "family", "of", "withdraw", "revokes", "to",
];

const SYMBOLS: [&str; 11] = ["!=", "<=", ",", ".", "(", ")", "#", "=", ":", ";", "-"];

const SIGNS_OF_A_LABEL: &str = "a label has letters, digits and signs from ! to ~ alone, and no spaces";

/// Whether a label can stand without quotes.
pub fn is_plain(label: &str) -> bool {
    let starts = label.starts_with(|c: char| c.is_ascii_alphabetic() || c == '_');
    starts && word_length(label) == label.len() && !RESERVED.contains(&label)
}

/// How long the word at the front is: letters, digits, `_`, and `-` between two of them.
fn word_length(text: &str) -> usize {
    let bytes = text.as_bytes();
    let letter = |at: usize| bytes.get(at).is_some_and(|b| b.is_ascii_alphanumeric() || *b == b'_');
    let mut end = 0;
    while letter(end) || end > 0 && bytes.get(end) == Some(&b'-') && letter(end + 1) {
        end += 1;
    }
    end
}

/// Line and column of an offset, both from 1; a column counts characters.
pub fn line_and_column(text: &str, offset: usize) -> (usize, usize) {
    let before = &text[..offset.min(text.len())];
    let line = before.matches('\n').count() + 1;
    let start = before.rfind('\n').map_or(0, |at| at + 1);
    (line, before[start..].chars().count() + 1)
}

pub fn words(text: &str) -> Result<Words, Fault> {
    let mut lexer = Lexer { text, at: 0 };
    let (mut tokens, mut comments) = (vec![], vec![]);
    let mut first_on_line = true;
    loop {
        let rest = &text[lexer.at..];
        let start = lexer.at;
        match rest.chars().next() {
            None => break,
            Some('\n') => {
                first_on_line = true;
                lexer.at += 1;
            }
            Some(' ' | '\t' | '\r') => lexer.at += 1,
            Some(_) if rest.starts_with("--") => {
                let line = rest.split('\n').next().unwrap_or(rest);
                lexer.at += line.len();
                comments.push(Comment { text: line.trim_end().to_string(), span: Span { start, end: lexer.at } });
            }
            Some(first) => {
                let token = lexer.token(first)?;
                tokens.push(Lexed { token, span: Span { start, end: lexer.at }, first_on_line });
                first_on_line = false;
            }
        }
    }
    tokens.push(Lexed { token: Token::End, span: Span { start: text.len(), end: text.len() }, first_on_line });
    Ok(Words { tokens, comments })
}

struct Lexer<'a> {
    text: &'a str,
    at: usize,
}

impl<'a> Lexer<'a> {
    fn token(&mut self, first: char) -> Result<Token, Fault> {
        match first {
            '"' => self.quoted(),
            '?' => self.variable(),
            '0'..='9' => self.number(),
            'a'..='z' | 'A'..='Z' | '_' => Ok(Token::Word(self.word().to_string())),
            _ => self.symbol(first),
        }
    }

    fn word(&mut self) -> &'a str {
        let word = &self.text[self.at..][..word_length(&self.text[self.at..])];
        self.at += word.len();
        word
    }

    fn symbol(&mut self, first: char) -> Result<Token, Fault> {
        let rest = &self.text[self.at..];
        match SYMBOLS.into_iter().find(|symbol| rest.starts_with(symbol)) {
            Some(symbol) => {
                self.at += symbol.len();
                Ok(Token::Symbol(symbol))
            }
            None => {
                let span = Span { start: self.at, end: self.at + first.len_utf8() };
                match first {
                    '!'..='~' => fault(span, format!("'{first}' has no meaning here; a label that has it is quoted")),
                    _ => fault(span, SIGNS_OF_A_LABEL),
                }
            }
        }
    }

    /// A label: `\"` and `\\` stand for a quote and a backslash. It ends on its line.
    fn quoted(&mut self) -> Result<Token, Fault> {
        let start = self.at;
        let mut label = String::new();
        let mut characters = self.text[start..].char_indices().skip(1);
        while let Some((offset, character)) = characters.next() {
            match character {
                '"' => {
                    self.at = start + offset + 1;
                    return Ok(Token::Quoted(label));
                }
                '\n' => break,
                '\\' => match characters.next() {
                    Some((_, escaped @ ('"' | '\\'))) => label.push(escaped),
                    _ => {
                        let span = Span { start: start + offset, end: start + offset + 1 };
                        return fault(span, "after a backslash in quotes stands a quote or a backslash");
                    }
                },
                '!'..='~' => label.push(character),
                _ => {
                    let span = Span { start: start + offset, end: start + offset + character.len_utf8() };
                    return fault(span, SIGNS_OF_A_LABEL);
                }
            }
        }
        fault(Span { start, end: start + 1 }, "this quote is not closed on its line")
    }

    fn variable(&mut self) -> Result<Token, Fault> {
        let start = self.at;
        self.at += 1;
        let name = self.word();
        let span = Span { start, end: self.at };
        let digits = name.strip_prefix('v').filter(|rest| !rest.is_empty() && rest.bytes().all(|b| b.is_ascii_digit()));
        match digits {
            Some(number) if number.len() == 1 && number < "8" => Ok(Token::Variable(Variable::Numbered(number.as_bytes()[0] - b'0'))),
            Some(_) => fault(span, "variables by number are ?v0 to ?v7"),
            None if name.starts_with(|c: char| c.is_ascii_alphabetic() || c == '_') => {
                Ok(Token::Variable(Variable::Named(name.to_string())))
            }
            None => fault(span, "after ? stands the name of a variable"),
        }
    }

    fn number(&mut self) -> Result<Token, Fault> {
        let start = self.at;
        let word = self.word();
        let span = Span { start, end: self.at };
        if word.bytes().all(|b| b.is_ascii_digit()) {
            return match word.parse() {
                Ok(number) => Ok(Token::Number(number)),
                Err(_) => fault(span, format!("a number is at most {}", u32::MAX)),
            };
        }
        let parts: Vec<&str> = word.split('-').collect();
        let [year, month, day] = parts[..] else {
            return fault(span, "a label that begins with a digit is quoted; a date is written as 2026-11-16");
        };
        let lengths = (year.len(), month.len(), day.len()) == (4, 2, 2);
        match (year.parse(), month.parse(), day.parse()) {
            (Ok(year), Ok(month), Ok(day)) if lengths => match calendar::day(year, month, day) {
                Some(day) => Ok(Token::Date(day)),
                None => fault(span, format!("{word} is no date from 2000-01-01 to 2099-12-31")),
            },
            _ => fault(span, "a label that begins with a digit is quoted; a date is written as 2026-11-16"),
        }
    }
}
