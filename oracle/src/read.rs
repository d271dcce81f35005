//! Reading, front to back: the first fault met is the refusal, 3 to 7.

use crate::file::*;

pub const ENDS: u8 = 3;
pub const COUNT: u8 = 4;
pub const KIND: u8 = 5;
pub const NAME: u8 = 6;
pub const FOLLOWS: u8 = 7;

struct Reader<'a> {
    bytes: &'a [u8],
    at: usize,
}

/// A file of no bytes is ten empty sections.
pub fn read(bytes: &[u8]) -> Result<RuleFile, u8> {
    if bytes.is_empty() {
        return Ok(RuleFile::default());
    }
    let mut reader = Reader { bytes, at: 0 };
    let file = RuleFile {
        names: reader.section(0, Reader::name)?,
        types: reader.section(1, Reader::ty)?,
        predicates: reader.section(2, Reader::predicate)?,
        nodes: reader.section(3, Reader::node)?,
        bindings: reader.section(4, Reader::binding)?,
        hoisted: reader.section(5, Reader::hoisted)?,
        fetched: reader.section(6, Reader::fetched)?,
        constraints: reader.section(7, Reader::constraint)?,
        comparisons: reader.section(8, Reader::comparison)?,
        levels: reader.section(9, Reader::level)?,
    };
    if reader.at < bytes.len() {
        return Err(FOLLOWS);
    }
    Ok(file)
}

impl Reader<'_> {
    fn byte(&mut self) -> Result<u8, u8> {
        let byte = *self.bytes.get(self.at).ok_or(ENDS)?;
        self.at += 1;
        Ok(byte)
    }

    fn array<const N: usize>(&mut self) -> Result<[u8; N], u8> {
        let rest = &self.bytes[self.at..];
        let found = *rest.first_chunk::<N>().ok_or(ENDS)?;
        self.at += N;
        Ok(found)
    }

    fn u16(&mut self) -> Result<u16, u8> {
        Ok(u16::from_le_bytes(self.array()?))
    }

    fn u32(&mut self) -> Result<u32, u8> {
        Ok(u32::from_le_bytes(self.array()?))
    }

    fn section<T>(
        &mut self,
        section: usize,
        record: impl Fn(&mut Self) -> Result<T, u8>,
    ) -> Result<Vec<T>, u8> {
        let count = self.u16()? as usize;
        if count > LIMITS[section] {
            return Err(COUNT);
        }
        (0..count).map(|_| record(self)).collect()
    }

    fn counted<T>(&mut self, record: impl Fn(&mut Self) -> Result<T, u8>) -> Result<Vec<T>, u8> {
        let count = self.byte()?;
        (0..count).map(|_| record(self)).collect()
    }

    /// Read whole first, then judged by Rust's own reader of UTF-8.
    fn name(&mut self) -> Result<Vec<u8>, u8> {
        let bytes = self.counted(Self::byte)?;
        match std::str::from_utf8(&bytes) {
            Ok(_) => Ok(bytes),
            Err(_) => Err(NAME),
        }
    }

    fn pair(&mut self) -> Result<(u16, u16), u8> {
        Ok((self.u16()?, self.u16()?))
    }

    fn ty(&mut self) -> Result<Type, u8> {
        Ok(match self.byte()? {
            0 => Type::Int,
            1 => Type::Str,
            2 => Type::Bytes,
            3 => Type::Fact(self.u16()?),
            4 => Type::Record(self.counted(Self::pair)?),
            5 => Type::Union(self.counted(|r| Ok((r.u16()?, r.u32()?, r.u16()?)))?),
            _ => return Err(KIND),
        })
    }

    fn predicate(&mut self) -> Result<Predicate, u8> {
        let (key, value) = self.pair()?;
        Ok(Predicate { key, value })
    }

    fn node(&mut self) -> Result<Node, u8> {
        Ok(match self.byte()? {
            0 => Node::Int(i64::from_le_bytes(self.array()?)),
            1 => Node::Str(self.u16()?),
            2 => Node::Bytes(self.counted(Self::byte)?),
            3 => Node::Var(self.u16()?),
            4 => Node::Wildcard,
            5 => Node::Never,
            6 => Node::Prefix(self.u16()?),
            7 => Node::Fuzzy(self.u16()?, self.byte()?, self.anchor()?),
            8 => Node::Record(self.counted(Self::pair)?),
            9 => Node::KeyAccess(self.u16()?, self.u16()?),
            10 => Node::ValueAccess(self.u16()?),
            11 => Node::Select(self.u16()?, self.u16()?),
            12 => Node::Disjunction,
            13 => Node::Subquery,
            14 => Node::Fact(self.u16()?, self.u16()?),
            15 => Node::Arith,
            16 => Node::Error,
            _ => return Err(KIND),
        })
    }

    fn anchor(&mut self) -> Result<Anchor, u8> {
        match self.byte()? {
            0 => Ok(Anchor::Prefix),
            1 => Ok(Anchor::Whole),
            _ => Err(KIND),
        }
    }

    fn path(&mut self) -> Result<Path, u8> {
        Ok(Path {
            field: self.u16()?,
            steps: self.counted(Self::u32)?,
        })
    }

    fn binding(&mut self) -> Result<Binding, u8> {
        Ok(Binding {
            name: self.u16()?,
            slot: self.slot()?,
        })
    }

    fn slot(&mut self) -> Result<Slot, u8> {
        Ok(match self.byte()? {
            0 => Slot::Row(self.u16()?, self.u16()?),
            1 => Slot::Key(self.u16()?, self.u16()?),
            2 => Slot::Derived(self.u16()?),
            3 => Slot::Field(self.u16()?, self.path()?, self.u16()?),
            4 => Slot::Value(self.u16()?, self.u16()?),
            5 => Slot::Const(self.u16()?),
            _ => return Err(KIND),
        })
    }

    fn hoisted(&mut self) -> Result<Hoisted, u8> {
        let (node, name) = self.pair()?;
        Ok(Hoisted { node, name })
    }

    fn fetched(&mut self) -> Result<Fetched, u8> {
        Ok(Fetched {
            address: self.u16()?,
            path: self.path()?,
            register: self.u16()?,
        })
    }

    fn constraint(&mut self) -> Result<Constraint, u8> {
        let (name, node) = self.pair()?;
        Ok(Constraint { name, node })
    }

    fn comparison(&mut self) -> Result<Comparison, u8> {
        let op = match self.byte()? {
            0 => Op::Lt,
            1 => Op::Le,
            2 => Op::Gt,
            3 => Op::Ge,
            _ => return Err(KIND),
        };
        let (left, right) = self.pair()?;
        Ok(Comparison { op, left, right })
    }

    fn level(&mut self) -> Result<Level, u8> {
        Ok(Level {
            predicate: self.u16()?,
            node: self.u16()?,
            address: self.u16()?,
        })
    }
}
