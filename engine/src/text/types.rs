//! Types in a text. Equal types are one, except where a statement makes a new one.

use super::parse::{Parse, Parser};
use super::token::Token;
use crate::rules::{Alternative, FieldType, Section, Type};

/// A type as it is written: one that has a number, or its content.
enum Written {
    Number(u16),
    Content(Type),
}

impl Parser<'_> {
    /// A type's number; what is not there yet is laid out.
    pub(super) fn ty(&mut self) -> Parse<u16> {
        let position = self.position();
        match self.nested(Self::written)? {
            Written::Number(number) => Ok(number),
            Written::Content(content) => match self.type_numbers.get(&content) {
                Some(&number) => Ok(number),
                None => self.laid_out(content, position),
            },
        }
    }

    /// A type of its own, for a label; the label of another type is that type.
    pub(super) fn new_type(&mut self) -> Parse<u16> {
        let position = self.position();
        match self.nested(Self::written)? {
            Written::Number(number) => Ok(number),
            Written::Content(content) => self.laid_out(content, position),
        }
    }

    fn laid_out(&mut self, content: Type, position: super::Position) -> Parse<u16> {
        let number = self.rules.types.len() as u16;
        self.begin(Section::Types, position)?;
        self.rules.types.push(content.clone());
        self.type_numbers.entry(content).or_insert(number);
        Ok(number)
    }

    fn written(&mut self) -> Parse<Written> {
        if self.is("#") {
            return self.table_number().map(Written::Number);
        }
        if self.is("{") {
            let fields = self.braces(|parser, _| {
                let name = parser.name()?;
                parser.sign(":")?;
                Ok(FieldType {
                    name,
                    ty: parser.ty()?,
                })
            })?;
            return Ok(Written::Content(Type::Record(fields)));
        }
        let Token::Word(word) = self.peek() else {
            return self.expected("a type");
        };
        if let Some(&number) = self.type_labels.get(word) {
            self.next();
            return Ok(Written::Number(number));
        }
        self.built_in(word).map(Written::Content)
    }

    fn built_in(&mut self, word: &str) -> Parse<Type> {
        if !super::parse::RESERVED.contains(&word) {
            return self.fault(format!("no type above has the label `{word}`"));
        }
        self.next();
        Ok(match word {
            "Int" => Type::Int,
            "Str" => Type::Str,
            "Bytes" => Type::Bytes,
            "Fact" => Type::Fact(self.predicate_number()?),
            _ => Type::Union(self.braces(Self::alternative)?),
        })
    }

    fn alternative(&mut self, at: usize) -> Parse<Alternative> {
        let name = self.name()?;
        let disc = match self.takes("=") {
            true => self.number("a disc", 4_294_967_295)?,
            false => at as u32,
        };
        self.sign(":")?;
        let ty = self.ty()?;
        Ok(Alternative { name, disc, ty })
    }
}
