//! Tokens to expressions.

use crate::fault::Fault;
use crate::lexer::{Lexer, Token};
use crate::store::Store;
use crate::tree::{node, size, Binder, Exp, Form, Head};

/// The greatest depth of what a token opens.
const DEPTH: usize = 64;

/// An expression that was read, and the count of its nodes.
pub struct Read {
    pub exp: Exp,
    pub nodes: usize,
}

/// A declaration that was read: the declared name, its place, and the `exp`.
pub struct Declaration<'a> {
    pub name: &'a [u8],
    pub place: usize,
    pub read: Read,
}

/// Reads a text as `name : exp`.
pub fn declaration<'a>(text: &'a [u8], store: &'a Store) -> Result<Declaration<'a>, Fault> {
    let mut reader = Reader::new(text, store)?;
    let place = reader.place;
    let name = reader.name()?;
    reader.fits(Token::Symbol(b':'))?;
    reader.advance()?;
    let read = reader.whole()?;
    Ok(Declaration { name, place, read })
}

/// Reads a text as one `exp`.
pub fn expression(text: &[u8], store: &Store) -> Result<Read, Fault> {
    Reader::new(text, store)?.whole()
}

/// Stands at a token. Each token is asked all its questions before the next one is made.
struct Reader<'a> {
    lexer: Lexer<'a>,
    store: &'a Store,
    token: Token<'a>,
    place: usize,
    /// The open binders, the newest last. The binder of an arrow has no name.
    open: Vec<(Option<&'a [u8]>, Binder)>,
}

impl<'a> Reader<'a> {
    fn new(text: &'a [u8], store: &'a Store) -> Result<Reader<'a>, Fault> {
        let mut lexer = Lexer::new(text);
        let (token, place) = lexer.token()?;
        Ok(Reader { lexer, store, token, place, open: Vec::new() })
    }

    fn advance(&mut self) -> Result<(), Fault> {
        (self.token, self.place) = self.lexer.token()?;
        Ok(())
    }

    /// The token does not fit the grammar.
    fn unfit<T>(&self) -> Result<T, Fault> {
        Err(Fault::new(15, self.place, 0))
    }

    /// Only this token fits here.
    fn fits(&self, token: Token) -> Result<(), Fault> {
        Fault::ask(self.token == token, 15, self.place, 0)
    }

    /// A name that is declared or that names a binder.
    fn name(&mut self) -> Result<&'a [u8], Fault> {
        let Token::Name(name) = self.token else {
            return self.unfit();
        };
        self.advance()?;
        Ok(name)
    }

    /// One `exp` at depth 0 and the end of the text.
    fn whole(&mut self) -> Result<Read, Fault> {
        let exp = self.exp(0)?;
        self.fits(Token::End)?;
        let nodes = size(&exp);
        Ok(Read { exp, nodes })
    }

    /// The `exp` that the token opens, one deeper than `depth`.
    fn opened(&mut self, depth: usize) -> Result<Exp, Fault> {
        Fault::ask(depth < DEPTH, 16, self.place, 0)?;
        self.advance()?;
        self.exp(depth + 1)
    }

    /// The same, below a binder.
    fn opened_below(
        &mut self,
        depth: usize,
        name: Option<&'a [u8]>,
    ) -> Result<(Binder, Exp), Fault> {
        let binder = Binder::fresh();
        self.open.push((name, binder));
        let exp = self.opened(depth)?;
        self.open.pop();
        Ok((binder, exp))
    }

    fn exp(&mut self, depth: usize) -> Result<Exp, Fault> {
        let at = self.place;
        match self.token {
            Token::Symbol(b'{') => {
                self.advance()?;
                let name = self.name()?;
                self.fits(Token::Symbol(b':'))?;
                let a = self.opened(depth)?;
                self.fits(Token::Symbol(b'}'))?;
                let (x, b) = self.opened_below(depth, Some(name))?;
                Ok(node(at, Form::Product(x, a, b)))
            }
            Token::Symbol(b'[') => self.abstraction(depth),
            _ => {
                let a = self.app(depth)?;
                if self.token != Token::Arrow {
                    return Ok(a);
                }
                let at = self.place;
                let (x, b) = self.opened_below(depth, None)?;
                Ok(node(at, Form::Product(x, a, b)))
            }
        }
    }

    /// `[x] exp`.
    fn abstraction(&mut self, depth: usize) -> Result<Exp, Fault> {
        let at = self.place;
        self.advance()?;
        let name = self.name()?;
        self.fits(Token::Symbol(b']'))?;
        let (x, m) = self.opened_below(depth, Some(name))?;
        Ok(node(at, Form::Abstraction(x, m)))
    }

    fn app(&mut self, depth: usize) -> Result<Exp, Fault> {
        let Token::Name(name) = self.token else {
            return self.atom(depth);
        };
        let at = self.place;
        let head = self.head(name)?;
        let mut spine = Vec::new();
        loop {
            match self.token {
                Token::Name(_) | Token::Type | Token::Symbol(b'(') => spine.push(self.atom(depth)?),
                Token::Symbol(b'[') => {
                    spine.push(self.abstraction(depth)?);
                    break;
                }
                _ => break,
            }
        }
        Ok(node(at, Form::Headed(head, spine)))
    }

    fn atom(&mut self, depth: usize) -> Result<Exp, Fault> {
        let at = self.place;
        match self.token {
            Token::Name(name) => {
                let head = self.head(name)?;
                Ok(node(at, Form::Headed(head, Vec::new())))
            }
            Token::Type => {
                self.advance()?;
                Ok(node(at, Form::Type))
            }
            Token::Symbol(b'(') => {
                let exp = self.opened(depth)?;
                self.fits(Token::Symbol(b')'))?;
                self.advance()?;
                Ok(exp)
            }
            _ => self.unfit(),
        }
    }

    /// The newest open binder of this name, or else the constant of this name.
    fn head(&mut self, name: &[u8]) -> Result<Head, Fault> {
        let binder = self.open.iter().rev().find(|(n, _)| *n == Some(name));
        let head = match binder {
            Some((_, x)) => Some(Head::Variable(*x)),
            None => self.store.find(name).map(Head::Constant),
        };
        let head = head.ok_or(Fault::new(21, self.place, 0))?;
        self.advance()?;
        Ok(head)
    }
}
