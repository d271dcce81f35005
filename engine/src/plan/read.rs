//! A plan opened from its bytes.

use super::*;
use crate::rules::{MAX_STEPS, NONE, Slot};
use crate::{MAX_PLAN, Refusal, read_into};

type Read<T> = Result<T, PlanFault>;

impl Plan {
    /// Opens a plan's bytes: the proved reader accepts or refuses them.
    ///
    /// Every plan that a compile writes is accepted; [`Plan::to_bytes`] gives the
    /// very bytes back. [`PlanFault::of`] says where bytes are refused.
    ///
    /// ```
    /// use sinalvento::{Plan, Refusal};
    ///
    /// let empty = Plan::open(&[0; 10])?;
    /// assert!(empty.levels.is_empty());
    /// assert_eq!(empty.to_bytes(), [0; 10]);
    /// assert_eq!(Plan::open(&[0; 9]), Err(Refusal::PlanEnds));
    /// # Ok::<(), Refusal>(())
    /// ```
    pub fn open(bytes: &[u8]) -> Result<Self, Refusal> {
        let mut out = vec![0; bytes.len().min(MAX_PLAN)];
        let accepted = read_into(bytes, &mut out, &mut [])?;
        match Self::read(accepted) {
            Ok((plan, _)) => Ok(plan),
            Err(fault) => Err(fault.refusal()),
        }
    }

    /// The plan that bytes tell by their form alone, and where each level begins.
    pub(crate) fn read(bytes: &[u8]) -> Result<(Self, Vec<usize>), PlanFault> {
        let mut starts = vec![];
        let mut reader = Reader { bytes, at: 0 };
        let plan = Plan {
            levels: reader.list(|reader| {
                starts.push(reader.at);
                reader.level()
            })?,
            bindings: reader.list(Reader::binding)?,
            constrained: reader.list(Reader::u16)?,
            selects: reader.list(Reader::select)?,
            diagnostics: reader.list(Reader::diagnostic)?,
        };
        if reader.at < bytes.len() {
            return Err(PlanFault::Follows(reader.at));
        }
        Ok((plan, starts))
    }
}

struct Reader<'a> {
    bytes: &'a [u8],
    at: usize,
}

impl Reader<'_> {
    fn array<const N: usize>(&mut self) -> Read<[u8; N]> {
        let rest = &self.bytes[self.at..];
        let found = *rest
            .first_chunk()
            .ok_or(PlanFault::Ends(self.bytes.len()))?;
        self.at += N;
        Ok(found)
    }

    fn u8(&mut self) -> Read<u8> {
        self.array().map(|[byte]| byte)
    }

    fn u16(&mut self) -> Read<u16> {
        self.array().map(u16::from_le_bytes)
    }

    fn u32(&mut self) -> Read<u32> {
        self.array().map(u32::from_le_bytes)
    }

    /// The byte before has no meaning.
    fn meaningless<T>(&self) -> Read<T> {
        Err(PlanFault::Byte(self.at - 1))
    }

    fn list<T>(&mut self, mut each: impl FnMut(&mut Self) -> Read<T>) -> Read<Vec<T>> {
        let count = self.u16()?;
        (0..count).map(|_| each(self)).collect()
    }

    fn text(&mut self) -> Read<Vec<u8>> {
        self.list(Self::u8)
    }

    fn path(&mut self) -> Read<Path> {
        let field = self.u16()?;
        let count = self.u8()?;
        if count > MAX_STEPS {
            return self.meaningless();
        }
        let steps: Read<Vec<u32>> = (0..count).map(|_| self.u32()).collect();
        Ok(Path {
            field,
            steps: steps?,
        })
    }

    fn level(&mut self) -> Read<PlanLevel> {
        let (narrowings, closers, parts) = (self.u16()?, self.u16()?, self.u16()?);
        Ok(PlanLevel {
            narrowings,
            closers,
            parts,
            seek: self.seek(parts)?,
            guide: self.guide()?,
            residuals: self.list(Self::residual)?,
            folded: self.list(Self::u16)?,
        })
    }

    fn seek(&mut self, count: u16) -> Read<Seek> {
        match self.u8()? {
            0 => Ok(Seek::Prefix(self.text()?, self.nodes(count)?)),
            1 => Ok(Seek::Composite(self.parts(count)?)),
            2 => Ok(Seek::PrefixRange(self.parts(count)?, self.range()?)),
            3 => Ok(Seek::Bounded(
                self.parts(count)?,
                self.edge()?,
                self.edge()?,
            )),
            _ => self.meaningless(),
        }
    }

    fn parts(&mut self, count: u16) -> Read<Vec<Part>> {
        (0..count).map(|_| self.part()).collect()
    }

    fn part(&mut self) -> Read<Part> {
        let key = match self.u8()? {
            0 => KeyPart::Bytes(self.text()?),
            1 => KeyPart::RegisterField(self.u16()?, self.path()?),
            2 => KeyPart::RegisterFact(self.u16()?),
            _ => return self.meaningless(),
        };
        let node = self.u16()?;
        Ok(Part { key, node })
    }

    fn nodes(&mut self, count: u16) -> Read<Vec<u16>> {
        (0..count).map(|_| self.u16()).collect()
    }

    fn range(&mut self) -> Read<Range> {
        Ok(Range {
            prefix: self.text()?,
            path: self.path()?,
            node: self.u16()?,
        })
    }

    fn edge(&mut self) -> Read<Option<Edge>> {
        let inclusive = match self.u8()? {
            0 => return Ok(None),
            1 => false,
            2 => true,
            _ => return self.meaningless(),
        };
        let bytes = self.text()?;
        Ok(Some(Edge { inclusive, bytes }))
    }

    fn guide(&mut self) -> Read<Option<Guide>> {
        match self.u8()? {
            0 => Ok(None),
            1 => Ok(Some(Guide {
                path: self.path()?,
                fuzzy: self.fuzzy()?,
                node: self.u16()?,
            })),
            _ => self.meaningless(),
        }
    }

    fn fuzzy(&mut self) -> Read<Fuzzy> {
        let (name, distance) = (self.u16()?, self.u8()?);
        let anchor = match self.u8()? {
            0 => Anchor::Prefix,
            1 => Anchor::Whole,
            _ => return self.meaningless(),
        };
        Ok(Fuzzy {
            name,
            distance,
            anchor,
        })
    }

    fn residual(&mut self) -> Read<Residual> {
        let path = self.path()?;
        let op = match self.u8()? {
            0 => ResidualOp::Bytes(self.text()?),
            1 => ResidualOp::Prefix(self.text()?),
            2 => ResidualOp::RegisterField(self.u16()?, self.path()?),
            3 => ResidualOp::RegisterFact(self.u16()?),
            4 => ResidualOp::Disc(self.u32()?),
            5 => ResidualOp::Fuzzy(self.fuzzy()?),
            6 => ResidualOp::OwnField(self.path()?),
            _ => return self.meaningless(),
        };
        let node = self.u16()?;
        Ok(Residual { path, op, node })
    }

    fn binding(&mut self) -> Read<Binding> {
        let name = self.u16()?;
        let slot = match self.u8()? {
            0 => Slot::Row(self.u16()?, Some(self.u16()?).filter(|&p| p != NONE)),
            1 => Slot::Key(self.u16()?, self.u16()?),
            2 => Slot::Derived(self.u16()?),
            3 => Slot::Field(self.u16()?, self.path()?, self.u16()?),
            4 => Slot::Value(self.u16()?, self.u16()?),
            5 => Slot::Const(self.u16()?),
            _ => return self.meaningless(),
        };
        Ok(Binding { name, slot })
    }

    fn select(&mut self) -> Read<Select> {
        Ok(Select {
            address: self.u16()?,
            path: self.path()?,
            disc: self.u32()?,
        })
    }

    fn diagnostic(&mut self) -> Read<(u16, Diagnostic)> {
        let (node, code) = (self.u16()?, self.u8()?);
        match Diagnostic::from_code(code) {
            Diagnostic::Unknown(_) => self.meaningless(),
            diagnostic => Ok((node, diagnostic)),
        }
    }
}
