//! Bytes to tokens.

use crate::fault::Fault;

/// The most bytes that a name has.
const NAME: usize = 32;

#[derive(Clone, Copy, Debug, PartialEq, Eq)]
pub enum Token<'a> {
    Name(&'a [u8]),
    Type,
    /// One of `{` `}` `[` `]` `(` `)` `:`.
    Symbol(u8),
    Arrow,
    End,
}

/// The tokens of a text, one after the other.
pub struct Lexer<'a> {
    text: &'a [u8],
    /// The place after the last token.
    next: usize,
}

impl<'a> Lexer<'a> {
    pub fn new(text: &'a [u8]) -> Lexer<'a> {
        Lexer { text, next: 0 }
    }

    /// The next token and its place. A byte that begins no token is 13, and a name that
    /// is too long is 14.
    pub fn token(&mut self) -> Result<(Token<'a>, usize), Fault> {
        self.skip_blanks();
        let place = self.next;
        let rest = &self.text[place..];
        let (token, length) = match rest {
            [] => (Token::End, 0),
            [byte @ (b'{' | b'}' | b'[' | b']' | b'(' | b')' | b':'), ..] => {
                (Token::Symbol(*byte), 1)
            }
            [b'-', b'>', ..] => (Token::Arrow, 2),
            [first, ..] if first.is_ascii_alphabetic() || *first == b'_' => {
                let length = rest.iter().take_while(|b| goes_on(**b)).count();
                let word = &rest[..length];
                Fault::ask(length <= NAME, 14, place, 0)?;
                (if word == b"type" { Token::Type } else { Token::Name(word) }, length)
            }
            _ => return Err(Fault::new(13, place, 0)),
        };
        self.next = place + length;
        Ok((token, place))
    }

    /// Passes over blanks and comments.
    fn skip_blanks(&mut self) {
        let mut comment = false;
        while let Some(byte) = self.text.get(self.next) {
            match byte {
                b'\n' => comment = false,
                _ if comment => {}
                b'%' => comment = true,
                b'\t' | b'\r' | b' ' => {}
                _ => return,
            }
            self.next += 1;
        }
    }
}

/// Can a name go on with this byte?
fn goes_on(byte: u8) -> bool {
    byte.is_ascii_alphanumeric() || matches!(byte, b'_' | b'\'' | b'/')
}
