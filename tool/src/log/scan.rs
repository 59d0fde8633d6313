//! The text of a log cut into tokens, one at a time: a long log has too many to keep.

use crate::notation::token::{after_blanks, quoted, word_length};
use crate::notation::Mistake;

#[derive(Clone, Copy, Debug, PartialEq, Eq)]
pub enum Token<'a> {
    Name(&'a str),
    /// The digits as they are typed, and whether a minus stands before them.
    Number(&'a str, bool),
    Colon,
    Equals,
    Comma,
    /// Two points: the variables that aren't named keep their values.
    Rest,
    End,
}

/// A text, the token that is next, and where it begins.
pub struct Scanner<'a> {
    text: &'a str,
    pub token: Token<'a>,
    pub at: usize,
    end: usize,
}

const SIGNS: [(&str, Token); 4] = [
    ("..", Token::Rest),
    (":", Token::Colon),
    ("=", Token::Equals),
    (",", Token::Comma),
];

impl<'a> Scanner<'a> {
    pub fn new(text: &'a str) -> Result<Scanner<'a>, Mistake> {
        let mut scanner = Scanner {
            text,
            token: Token::End,
            at: 0,
            end: 0,
        };
        scanner.go_on()?;
        Ok(scanner)
    }

    /// Takes the token; the one after it is next.
    pub fn go_on(&mut self) -> Result<(), Mistake> {
        self.at = after_blanks(self.text, self.end)?;
        let (token, length) = self.read()?;
        self.token = token;
        self.end = self.at + length;
        Ok(())
    }

    /// Takes the token if it is this one.
    pub fn take(&mut self, wanted: Token) -> Result<bool, Mistake> {
        let found = self.token == wanted;
        if found {
            self.go_on()?;
        }
        Ok(found)
    }

    /// The token that begins here, and its length.
    fn read(&self) -> Result<(Token<'a>, usize), Mistake> {
        let rest = &self.text[self.at..];
        let Some(first) = rest.chars().next() else {
            return Ok((Token::End, 0));
        };
        let word = word_length(rest);
        if word > 0 {
            return Ok((Token::Name(&rest[..word]), word));
        }
        if let Some((digits, length)) = number(rest) {
            return Ok((Token::Number(digits, length > digits.len()), length));
        }
        let sign = SIGNS.iter().find(|(typed, _)| rest.starts_with(typed));
        match sign {
            Some((typed, token)) => Ok((*token, typed.len())),
            None => Err(Mistake::new(
                self.at,
                &format!("{first:?} is no sign of a log"),
            )),
        }
    }

    /// What was expected here, and what is found.
    pub fn expected<T>(&self, wanted: &str) -> Result<T, Mistake> {
        let found = match self.token {
            Token::End => "the end of the text".to_string(),
            _ => quoted(&self.text[self.at..self.end]),
        };
        Err(Mistake::new(
            self.at,
            &format!("expected {wanted}, found {found}"),
        ))
    }
}

/// The digits of a number that begins here, and its length with the minus.
fn number(rest: &str) -> Option<(&str, usize)> {
    let unsigned = rest.trim_start_matches(['-', '−']);
    let minus = rest.len() - unsigned.len();
    let digits = unsigned.find(|c: char| !c.is_ascii_digit());
    let digits = &unsigned[..digits.unwrap_or(unsigned.len())];
    // one minus has one byte, or three
    let signed = matches!(&rest[..minus], "" | "-" | "−");
    (signed && !digits.is_empty()).then_some((digits, minus + digits.len()))
}
