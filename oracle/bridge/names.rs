// Part of two crates: names, marks and literals in the source's types, and back.
use crate::token::*;
use files::image::Constant;
use files::NONE;

const BUILTINS: [&str; 9] = ["io", "strings", "type", "env", "import", "net", "re", "process", "lists"];

/// What stands before the word of an "other literal", which the source carries as a text that no name is.
const OTHER: &str = "\0other ";

/// The source's line has 32 bits and a sign: it holds a mark by its bits, so that every one of 32 bits comes back. Nothing but a message looks at it.
pub fn token(token: Token, mark: u32) -> TokenData {
    TokenData { token, lexeme: String::new(), literal: None, line: mark as i32 }
}

pub fn name_token(name: u16, mark: u32) -> TokenData {
    TokenData { token: Token::Identifier, lexeme: name_text(name), literal: None, line: mark as i32 }
}

/// The mark of an instruction; the one that says that there is none, 65,535 or in a wide tree 4,294,967,295, is none too.
pub fn mark(token: &Option<TokenData>, wide: bool) -> Option<u32> {
    let absent = if wide { u32::MAX } else { NONE.into() };
    token.as_ref().map(|t| t.line as u32).filter(|mark| *mark != absent)
}

/// Names 0 to 8 are the builtins, 65,535 is the empty text, any other is a text of its own.
pub fn name_text(name: u16) -> String {
    match BUILTINS.get(usize::from(name)) {
        Some(text) => text.to_string(),
        None if name == NONE => String::new(),
        None => format!("n{name}"),
    }
}

pub fn name_number(text: &str) -> u16 {
    if text.is_empty() {
        return NONE;
    }
    match BUILTINS.iter().position(|b| *b == text) {
        Some(n) => n as u16,
        None => text.strip_prefix('n').and_then(|n| n.parse().ok()).expect("a name"),
    }
}

pub fn text_literal(name: u16) -> Literal {
    Literal::String(name_text(name))
}

pub fn other_literal(word: u16) -> Literal {
    Literal::String(format!("{OTHER}{word}"))
}

pub fn constant(literal: &Literal) -> Constant {
    match literal {
        Literal::Number(n) => Constant::Number(n.to_bits()),
        Literal::String(s) => match s.strip_prefix(OTHER) {
            Some(word) => Constant::Other(word.parse().expect("a word")),
            None => Constant::Text(name_number(s)),
        },
        other => unreachable!("the reader makes no {other:?}"),
    }
}
