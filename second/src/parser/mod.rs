//! Grammar: refusal 4 at the first token that no accepted grammar continues (G12).

mod expressions;
mod operators;
mod sections;

use crate::answer::Refusal;
use crate::syntax::*;
use crate::token::{Kind, Token};

pub use expressions::operands;

type Parsed<T> = Result<T, Refusal>;

/// Parses the tokens of a text, or refuses it with 4.
pub fn parse<'t>(text: &'t [u8], tokens: Vec<Token>) -> Parsed<Syntax<'t>> {
    let mut parser = Parser {
        text,
        tokens,
        at: 0,
        exprs: Vec::new(),
        binder_count: 0,
        outermost: Vec::new(),
    };
    let info = parser.info()?;
    let global = parser.global()?;
    let main = parser.main()?;
    parser.end_of_text()?;
    let mut signals = main.inputs;
    signals.extend(main.outputs);
    Ok(Syntax {
        text,
        tokens: parser.tokens,
        exprs: parser.exprs,
        binder_count: parser.binder_count,
        info,
        parameters: global.parameters,
        definitions: global.definitions,
        enumerations: global.enumerations,
        signals,
        sections: main.sections,
        outermost: parser.outermost,
    })
}

struct Parser<'t> {
    text: &'t [u8],
    tokens: Vec<Token>,
    at: TokenId,
    exprs: Vec<Expr>,
    binder_count: usize,
    outermost: Vec<ExprId>,
}

// The cursor.
impl Parser<'_> {
    fn kind(&self) -> Option<Kind> {
        self.tokens.get(self.at).map(|token| token.kind)
    }

    fn fixed(&self) -> Option<&'static str> {
        match self.kind() {
            Some(Kind::Fixed(sign)) => Some(sign),
            _ => None,
        }
    }

    fn sees(&self, sign: &str) -> bool {
        self.fixed() == Some(sign)
    }

    /// Refusal 4 at the token to come, or at the text's length.
    fn refuse<T>(&self) -> Parsed<T> {
        let place = match self.tokens.get(self.at) {
            Some(token) => token.start,
            None => self.text.len(),
        };
        Err(Refusal::new(4, place))
    }

    fn advance(&mut self) -> TokenId {
        self.at += 1;
        self.at - 1
    }

    /// Goes past the sign if it comes next.
    fn skip(&mut self, sign: &str) -> bool {
        let seen = self.sees(sign);
        if seen {
            self.at += 1;
        }
        seen
    }

    fn expect(&mut self, sign: &str) -> Parsed<TokenId> {
        if self.sees(sign) {
            return Ok(self.advance());
        }
        self.refuse()
    }

    fn expect_kind(&mut self, kind: Kind) -> Parsed<TokenId> {
        if self.kind() == Some(kind) {
            return Ok(self.advance());
        }
        self.refuse()
    }

    fn name(&mut self) -> Parsed<TokenId> {
        self.expect_kind(Kind::Name)
    }

    // G12: text after MAIN's `}` is refused at its first token.
    fn end_of_text(&mut self) -> Parsed<()> {
        if self.at == self.tokens.len() {
            return Ok(());
        }
        self.refuse()
    }
}
