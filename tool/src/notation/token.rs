//! A text cut into tokens: words, numbers, labels and signs, without blanks and comments.

use crate::notation::Mistake;

#[derive(Clone, Debug, PartialEq, Eq)]
pub enum Token {
    Word(String),
    /// The digits as they are typed.
    Number(String),
    /// What follows the sign @.
    Label(String),
    /// A sign in its one spelling, and as it is typed.
    Sign(&'static str, &'static str),
    End,
}

/// A token, and the offset at which it begins.
#[derive(Clone, Debug)]
pub struct Placed {
    pub token: Token,
    pub at: usize,
}

/// Signs as they can be typed, the longer before the shorter, each with its one spelling.
const SIGNS: [(&str, &str); 39] = [
    ("<=>", "⇔"),
    ("=>", "⇒"),
    ("<=", "≤"),
    (">=", "≥"),
    ("/=", "≠"),
    (":=", "≔"),
    (":|", ":∣"),
    (":∣", ":∣"),
    ("⇔", "⇔"),
    ("⇒", "⇒"),
    ("≤", "≤"),
    ("≥", "≥"),
    ("≠", "≠"),
    ("≔", "≔"),
    ("<", "<"),
    (">", ">"),
    ("=", "="),
    ("∈", "∈"),
    (":", "∈"),
    ("∧", "∧"),
    ("&", "∧"),
    ("∨", "∨"),
    ("¬", "¬"),
    ("⊤", "⊤"),
    ("⊥", "⊥"),
    ("+", "+"),
    ("−", "−"),
    ("-", "−"),
    ("∗", "∗"),
    ("*", "∗"),
    ("×", "∗"),
    ("÷", "÷"),
    ("/", "÷"),
    ("(", "("),
    (")", ")"),
    (",", ","),
    ("'", "'"),
    ("′", "'"),
    ("ℤ", "ℤ"),
];

/// Words that are typed in place of signs.
const WORDS: [(&str, &str); 6] = [
    ("or", "∨"),
    ("not", "¬"),
    ("true", "⊤"),
    ("false", "⊥"),
    ("mod", "mod"),
    ("INT", "ℤ"),
];

/// The tokens of a text; the last one is its end.
pub fn tokens(text: &str) -> Result<Vec<Placed>, Mistake> {
    let mut tokens = Vec::new();
    let mut at = 0;
    loop {
        at = after_blanks(text, at)?;
        let (token, length) = match text[at..].chars().next() {
            None => break,
            Some(first) => token(text, at, first)?,
        };
        tokens.push(Placed { token, at });
        at += length;
    }
    tokens.push(Placed {
        token: Token::End,
        at,
    });
    Ok(tokens)
}

/// The place after blanks, a byte order mark and comments.
pub fn after_blanks(text: &str, start: usize) -> Result<usize, Mistake> {
    let mut at = start;
    loop {
        let rest = text[at..].trim_start_matches(|c: char| c.is_whitespace() || c == '\u{feff}');
        at = text.len() - rest.len();
        if rest.starts_with("//") {
            at += rest.find('\n').unwrap_or(rest.len());
        } else if let Some(comment) = rest.strip_prefix("/*") {
            let unclosed = || Mistake::new(at, "this comment has no end: expected */");
            at += comment.find("*/").ok_or_else(unclosed)? + "/**/".len();
        } else {
            return Ok(at);
        }
    }
}

/// The token that begins here, and its length.
fn token(text: &str, at: usize, first: char) -> Result<(Token, usize), Mistake> {
    let rest = &text[at..];
    let length = word_length(rest);
    if length > 0 {
        let word = &rest[..length];
        let sign = WORDS.iter().find(|(typed, _)| *typed == word);
        let token = match sign {
            Some((typed, sign)) => Token::Sign(sign, typed),
            None => Token::Word(word.to_string()),
        };
        return Ok((token, length));
    }
    if first.is_ascii_digit() {
        let length = span(rest, |c| c.is_ascii_digit());
        return Ok((Token::Number(rest[..length].to_string()), length));
    }
    if first == '@' {
        let length = span(&rest[1..], |c| c.is_alphanumeric() || "_'′-.".contains(c));
        let label = rest[1..1 + length].replace('′', "'");
        return match length {
            0 => Err(Mistake::new(at, "expected a label after @, such as @inv1")),
            _ => Ok((Token::Label(label), 1 + length)),
        };
    }
    let sign = SIGNS.iter().find(|(typed, _)| rest.starts_with(typed));
    match sign {
        Some((typed, sign)) => Ok((Token::Sign(sign, typed), typed.len())),
        None => Err(Mistake::new(
            at,
            &format!("{first:?} is no sign of the notation"),
        )),
    }
}

/// The length of the word that a text begins with, 0 if it begins with none. ℤ is a letter, but a sign here.
pub fn word_length(text: &str) -> usize {
    let first = text.chars().next().unwrap_or(' ');
    match (first.is_alphabetic() || first == '_') && first != 'ℤ' {
        true => span(text, |c| (c.is_alphanumeric() || c == '_') && c != 'ℤ'),
        false => 0,
    }
}

/// The length of the first characters that pass.
fn span(text: &str, passes: impl Fn(char) -> bool) -> usize {
    let end = text.find(|c| !passes(c));
    end.unwrap_or(text.len())
}

/// A token as a message names it.
pub fn shown(token: &Token) -> String {
    match token {
        Token::Word(word) => quoted(word),
        Token::Number(digits) => quoted(digits),
        Token::Label(label) => quoted(&format!("@{label}")),
        Token::Sign(_, typed) => quoted(typed),
        Token::End => "the end of the text".to_string(),
    }
}

/// A name as a message names it; a very long one is cut.
pub fn quoted(name: &str) -> String {
    match name.char_indices().nth(60) {
        Some((end, _)) => format!("`{}..`", &name[..end]),
        None => format!("`{name}`"),
    }
}
