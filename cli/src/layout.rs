//! The one layout of a text: `fmt` and `show` write it.
use crate::document::{Document, Expectation, Expected, Item, Section};
use crate::lexer::Comment;
use crate::print;
use crate::syntax::*;

fn item_text(item: &Item) -> String {
    match item {
        Item::Version(version) => print::version(*version),
        Item::Constants(kind, constants) => print::declaration(*kind, constants),
        Item::Verb(verb) => print::verb(verb),
        Item::Assertion(assertion) => print::assertion(assertion),
        Item::Withdrawal(withdrawal) => print::withdrawal(withdrawal),
        Item::Family(family) => print::family(family),
        Item::Request(request) => print::request(request),
        Item::Today(day) => format!("on {}", crate::calendar::date(*day)),
        Item::Expectation(expectation) => expectation_text(expectation),
    }
}

fn expectation_text(expectation: &Expectation) -> String {
    let answers = match &expectation.expected {
        Expected::Allow => return print::node_after("allow", &expectation.node) + ".",
        Expected::Deny => return print::node_after("deny", &expectation.node) + ".",
        Expected::Answers(answers) => answers,
    };
    let bindings = |answer: &Vec<(At<Variable>, At<Name>)>| {
        let one = |(v, name): &(At<Variable>, At<Name>)| format!("{} = {}", print::variable(&v.it), print::expression(&name.it));
        answer.iter().map(one).collect::<Vec<_>>().join(", ")
    };
    let listed = match answers.is_empty() {
        true => "none".to_string(),
        false => answers.iter().map(bindings).collect::<Vec<_>>().join("; "),
    };
    format!("{} are {listed}.", print::node_after("answers", &expectation.node))
}

/// A line or more of the formatted text, with the part of the old text that it comes from.
struct Block {
    text: String,
    span: Span,
    /// blocks of two sections have an empty line between them; a comment behind all items goes with what is before it
    section: Option<Section>,
    /// the declaration that this is, while others may still join it
    joins: Option<(Kind, Vec<At<Constant>>)>,
}

impl Block {
    fn comment(comment: &Comment, section: Option<Section>) -> Block {
        Block { text: comment.text.clone(), span: comment.span, section, joins: None }
    }
}

/// Which line an offset of a text is on, from 0.
struct Lines(Vec<usize>);

impl Lines {
    fn of(text: &str) -> Lines {
        Lines(text.match_indices('\n').map(|(offset, _)| offset).collect())
    }

    fn at(&self, offset: usize) -> usize {
        self.0.partition_point(|end| *end < offset)
    }

    /// Whether an empty line stands between two parts.
    fn apart(&self, before: Span, after: Span) -> bool {
        self.at(after.start) > self.at(before.end) + 1
    }
}

/// The text in its layout. Comments stay: before their item, or behind it if they stood behind its end.
pub fn format(text: &str, document: &Document) -> String {
    let lines = Lines::of(text);
    let blocks = blocks(&lines, document);
    let mut out = String::new();
    for (i, block) in blocks.iter().enumerate() {
        if i > 0 {
            let before = &blocks[i - 1];
            let other = block.section.is_some() && block.section != before.section;
            out.push_str(if other || lines.apart(before.span, block.span) { "\n\n" } else { "\n" });
        }
        out.push_str(&block.text);
    }
    if !out.is_empty() {
        out.push('\n');
    }
    out
}

fn blocks(lines: &Lines, document: &Document) -> Vec<Block> {
    let mut blocks: Vec<Block> = vec![];
    let mut comments = document.comments.iter().peekable();
    for At { it, span } in &document.items {
        while let Some(comment) = comments.next_if(|c| c.span.start < span.end) {
            blocks.push(Block::comment(comment, Some(it.section())));
        }
        // version 1 is what is meant where no version stands; a comment behind it goes before the next item
        if matches!(it, Item::Version(1)) {
            continue;
        }
        let block = add(&mut blocks, it, *span, lines);
        if let Some(comment) = comments.next_if(|c| lines.at(c.span.start) == lines.at(span.end)) {
            block.text = format!("{}  {}", block.text, comment.text);
            block.span.end = comment.span.end;
            block.joins = None;
        }
    }
    blocks.extend(comments.map(|comment| Block::comment(comment, None)));
    blocks
}

/// Puts an item behind the others; a declaration joins one of its kind that stands right above it. Gives the block that has the item.
fn add<'a>(blocks: &'a mut Vec<Block>, item: &Item, span: Span, lines: &Lines) -> &'a mut Block {
    let mut block = Block { text: item_text(item), span, section: Some(item.section()), joins: None };
    if let Item::Constants(kind, constants) = item {
        let same_kind = |last: &mut Block| last.joins.as_ref().is_some_and(|(other, _)| other == kind) && !lines.apart(last.span, span);
        let mut joined = constants.clone();
        if let Some(Block { span: above, joins: Some((_, first)), .. }) = blocks.pop_if(same_kind) {
            joined = [first, joined].concat();
            block.text = print::declaration(*kind, &joined);
            block.span = above.to(span);
        }
        block.joins = Some((*kind, joined));
    }
    blocks.push(block);
    blocks.last_mut().expect("it was put there")
}
