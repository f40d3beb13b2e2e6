//! The same text in another layout.
use evaluator::generate::Random;
use language::lexer::{words, Lexed, Token};

/// Calls `between` with each token and what stands before it, and joins what it gives.
fn rewritten(text: &str, mut between: impl FnMut(&Lexed, bool) -> String) -> String {
    let mut out = String::new();
    let mut in_verb = false;
    for lexed in words(text).expect("a text of the language").tokens {
        if lexed.first_on_line {
            in_verb = lexed.token == Token::Word("verb".to_string());
        }
        out.push_str(&between(&lexed, in_verb));
        out.push_str(&text[lexed.span.start..lexed.span.end]);
    }
    out
}

/// White space of another sort between the words. Lines begin where they began, and verbs stay on their line.
pub fn loosened(text: &str, random: &mut Random) -> String {
    rewritten(text, |lexed, in_verb| {
        let space = match (lexed.first_on_line, in_verb) {
            (true, _) => random.pick(&["\n", "\r\n", "\n   ", " \n\t"]),
            (false, true) => random.pick(&[" ", "  ", "\t"]),
            (false, false) => random.pick(&[" ", "   ", "\t", "\n", "\n      ", "\t\n"]),
        };
        space.to_string()
    })
}

/// Comments before some of the words, and how many.
pub fn commented(text: &str, random: &mut Random) -> (String, usize) {
    let mut count = 0;
    let out = rewritten(text, |lexed, in_verb| {
        let newline = if lexed.first_on_line { "\n" } else { " " };
        if in_verb && !lexed.first_on_line || !random.once_in(5) {
            return newline.to_string();
        }
        count += 1;
        match lexed.first_on_line {
            true => format!("{}-- comment {count}\n", random.pick(&[" ", "\n", "\n\n"])),
            false => format!("{newline}-- comment {count}\n"),
        }
    });
    (out, count)
}
