//! What the tables call literals, tokens and chains.
use liquid_grammar::{Literal, TokenKind};

/// Returns a literal's kind and its text, as the tables name them.
pub(super) fn told<'a>(literal: Literal<'a>) -> (&'a str, &'a str) {
    match literal {
        Literal::Nil => ("nil", ""),
        Literal::Empty => ("empty", ""),
        Literal::Blank => ("blank", ""),
        Literal::Truth(true) => ("true", ""),
        Literal::Truth(false) => ("false", ""),
        Literal::Text(text) => ("text", text),
        Literal::Integer(text) => ("integer", text),
        Literal::Decimal(text) => ("decimal", text),
    }
}

/// Returns the kind of a token or chain, and its text, as the tables name them.
pub(super) fn kind_told<'a>(kind: TokenKind<'a>) -> (&'a str, &'a str) {
    match kind {
        TokenKind::Identifier(name) => ("identifier", name),
        TokenKind::Literal(literal) => told(literal),
        TokenKind::Variable => ("variable", ""),
        TokenKind::Filtered => ("filtered", ""),
        TokenKind::Range => ("range", ""),
        TokenKind::Symbol => ("symbol", ""),
    }
}
