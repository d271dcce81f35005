//! The plan reader of request [1], written from the papers: refusals 15 to 18,
//! or the plan as data. It reads the nodes of request [2] and the op of request [8];
//! the base's form, without nodes, is read by its form alone.

use crate::file::*;
use crate::plan::{Edge, Fuzzy, Level, Part, Plan, ResidualOp, Seek};

pub const TOO_LONG: u8 = 15;
pub const ENDS: u8 = 16;
pub const MEANINGLESS: u8 = 17;
pub const BROKEN: u8 = 18;

/// The last diagnostic's code. Code 4 is among them, though no compile makes it.
const LAST_CODE: u8 = 11;

/// The plan that bytes tell, or the refusal's number, with an output buffer of
/// `room` bytes.
pub fn reread(bytes: &[u8], room: usize) -> Result<Plan, u8> {
    if bytes.len() > MAX_PLAN || bytes.len() > room {
        return Err(TOO_LONG);
    }
    let plan = form(bytes)?;
    if plan.levels.iter().any(|level| !broken(level).is_empty()) {
        return Err(BROKEN);
    }
    Ok(plan)
}

/// The plan that bytes tell by their form alone: 16 and 17.
pub fn form(bytes: &[u8]) -> Result<Plan, u8> {
    Left::new(bytes, true).plan()
}

/// As [`form`], of a plan in the base's form: its levels have no nodes.
pub fn base_form(bytes: &[u8]) -> Result<Plan, u8> {
    Left::new(bytes, false).plan()
}

/// Where the nodes of a plan stand, two bytes each, front to back.
pub fn node_places(bytes: &[u8]) -> Result<Vec<usize>, u8> {
    let mut left = Left::new(bytes, true);
    left.plan()?;
    Ok(left.places)
}

/// The places of a plan's bytes that have a list of meanings, each with the last
/// one: seeks, parts, edges, guides, ops, anchors, slots, step counts, codes.
pub fn marked(bytes: &[u8]) -> Vec<(usize, u8)> {
    let mut left = Left::new(bytes, true);
    // Of bytes that are no plan, as far as they go.
    let _ = left.plan();
    left.marked
}

/// A rule that a level keeps, in words.
type Rule = (&'static str, fn(&Level) -> bool);

/// What every level keeps: 18 where one doesn't.
pub const RULES: [Rule; 7] = [
    ("closers at most parts", |level| {
        level.closers <= level.parts
    }),
    ("the sum of narrowings", |level| {
        let placed = level.parts + level.residuals.len() + ranges(level) + guides(level);
        level.narrowings + level.closers == placed
    }),
    ("as many edges as folded", |level| {
        edges(level) == level.folded.len()
    }),
    (
        "Composite has a part that isn't bytes",
        |level| match &level.seek {
            Seek::Composite(parts) => parts.iter().any(|part| !matches!(part, Part::Bytes(_))),
            _ => true,
        },
    ),
    ("a guide has the range's path", |level| {
        match (&level.seek, &level.guide) {
            (Seek::PrefixRange(_, _, range), Some((path, _))) => range == path,
            _ => true,
        }
    }),
    ("Bounded has an edge", |level| {
        !is_bounded(level) || edges(level) > 0
    }),
    ("Bounded has no guide", |level| {
        !is_bounded(level) || level.guide.is_none()
    }),
];

/// The rules that a level breaks, by their place in [`RULES`].
pub fn broken(level: &Level) -> Vec<usize> {
    let rules = RULES.iter().enumerate();
    let broken = rules.filter(|(_, (_, keeps))| !keeps(level));
    broken.map(|(at, _)| at).collect()
}

fn is_bounded(level: &Level) -> bool {
    matches!(level.seek, Seek::Bounded(..))
}

fn ranges(level: &Level) -> usize {
    usize::from(matches!(level.seek, Seek::PrefixRange(..)))
}

fn guides(level: &Level) -> usize {
    usize::from(level.guide.is_some())
}

fn edges(level: &Level) -> usize {
    match &level.seek {
        Seek::Bounded(_, lo, hi) => lo.iter().count() + hi.iter().count(),
        _ => 0,
    }
}

/// The bytes not read yet, how many there were, which had a list of meanings, and
/// the nodes: where they stood, and those of the level at hand.
struct Left<'a> {
    rest: &'a [u8],
    length: usize,
    marked: Vec<(usize, u8)>,
    with_nodes: bool,
    places: Vec<usize>,
    nodes: Vec<u16>,
}

impl<'a> Left<'a> {
    fn new(bytes: &'a [u8], with_nodes: bool) -> Self {
        Self {
            rest: bytes,
            length: bytes.len(),
            marked: vec![],
            with_nodes,
            places: vec![],
            nodes: vec![],
        }
    }

    fn at(&self) -> usize {
        self.length - self.rest.len()
    }

    fn plan(&mut self) -> Result<Plan, u8> {
        let plan = Plan {
            levels: self.counted(Self::level)?,
            bindings: self.counted(Self::binding)?,
            constrained: self.counted(Self::u16)?,
            selects: self.counted(|left| Ok((left.u16()?, left.path()?, left.u32()?)))?,
            diagnostics: self.counted(|left| Ok((left.u16()?, left.one_of(1..=LAST_CODE)?)))?,
        };
        if !self.rest.is_empty() {
            return Err(MEANINGLESS);
        }
        Ok(plan)
    }

    fn take(&mut self, count: usize) -> Result<&'a [u8], u8> {
        let (taken, rest) = self.rest.split_at_checked(count).ok_or(ENDS)?;
        self.rest = rest;
        Ok(taken)
    }

    /// Bytes as a number, the lowest first.
    fn number(&mut self, count: usize) -> Result<u32, u8> {
        let bytes = self.take(count)?.iter().rev();
        Ok(bytes.fold(0, |number, &byte| number << 8 | u32::from(byte)))
    }

    fn u8(&mut self) -> Result<u8, u8> {
        self.number(1).map(|number| number as u8)
    }

    fn u16(&mut self) -> Result<u16, u8> {
        self.number(2).map(|number| number as u16)
    }

    fn u32(&mut self) -> Result<u32, u8> {
        self.number(4)
    }

    /// A byte that has a meaning.
    fn one_of(&mut self, known: std::ops::RangeInclusive<u8>) -> Result<u8, u8> {
        let at = self.at();
        let byte = self.u8()?;
        self.marked.push((at, *known.end()));
        if known.contains(&byte) {
            Ok(byte)
        } else {
            Err(MEANINGLESS)
        }
    }

    /// What an entry's node stands behind.
    fn noded<T>(&mut self, entry: T) -> Result<T, u8> {
        if self.with_nodes {
            self.places.push(self.at());
            let node = self.u16()?;
            self.nodes.push(node);
        }
        Ok(entry)
    }

    fn times<T>(
        &mut self,
        count: usize,
        one: impl Fn(&mut Self) -> Result<T, u8>,
    ) -> Result<Vec<T>, u8> {
        (0..count).map(|_| one(self)).collect()
    }

    fn counted<T>(&mut self, one: impl Fn(&mut Self) -> Result<T, u8>) -> Result<Vec<T>, u8> {
        let count = self.u16()?;
        self.times(count.into(), one)
    }

    fn text(&mut self) -> Result<Vec<u8>, u8> {
        let length = self.u16()?;
        Ok(self.take(length.into())?.to_vec())
    }

    /// A step count above what a path holds has no meaning, whatever follows.
    fn path(&mut self) -> Result<Path, u8> {
        let field = self.u16()?;
        let count = self.one_of(0..=MAX_STEPS as u8)?;
        let steps = self.times(count.into(), Self::u32)?;
        Ok(Path { field, steps })
    }

    fn fuzzy(&mut self) -> Result<Fuzzy, u8> {
        Ok(Fuzzy {
            name: self.u16()?,
            distance: self.u8()?,
            anchor: [Anchor::Prefix, Anchor::Whole][usize::from(self.one_of(0..=1)?)],
        })
    }

    fn level(&mut self) -> Result<Level, u8> {
        let narrowings = self.u16()?.into();
        let closers = self.u16()?.into();
        let parts = self.u16()?.into();
        Ok(Level {
            narrowings,
            closers,
            parts,
            seek: self.seek(parts)?,
            guide: match self.one_of(0..=1)? {
                0 => None,
                _ => Some(self.guide()?),
            },
            residuals: self.counted(Self::residual)?,
            folded: self.counted(|left| left.u16().map(usize::from))?,
            nodes: std::mem::take(&mut self.nodes),
        })
    }

    fn guide(&mut self) -> Result<(Path, Fuzzy), u8> {
        let guide = (self.path()?, self.fuzzy()?);
        self.noded(guide)
    }

    fn residual(&mut self) -> Result<(Path, ResidualOp), u8> {
        let residual = (self.path()?, self.op()?);
        self.noded(residual)
    }

    fn seek(&mut self, parts: usize) -> Result<Seek, u8> {
        let kind = self.one_of(0..=3)?;
        if kind == 0 {
            let joined = self.text()?;
            self.times(parts, |left| left.noded(()))?;
            return Ok(Seek::Prefix(joined));
        }
        let parts = self.times(parts, Self::part)?;
        Ok(match kind {
            1 => Seek::Composite(parts),
            2 => {
                let range = Seek::PrefixRange(parts, self.text()?, self.path()?);
                self.noded(range)?
            }
            _ => Seek::Bounded(parts, self.edge()?, self.edge()?),
        })
    }

    fn part(&mut self) -> Result<Part, u8> {
        let part = match self.one_of(0..=2)? {
            0 => Part::Bytes(self.text()?),
            1 => Part::RegisterField(self.u16()?, self.path()?),
            _ => Part::RegisterFactId(self.u16()?),
        };
        self.noded(part)
    }

    fn edge(&mut self) -> Result<Option<Edge>, u8> {
        let inclusive = match self.one_of(0..=2)? {
            0 => return Ok(None),
            kind => kind == 2,
        };
        let bytes = self.text()?;
        Ok(Some(Edge { inclusive, bytes }))
    }

    fn op(&mut self) -> Result<ResidualOp, u8> {
        Ok(match self.one_of(0..=6)? {
            0 => ResidualOp::Bytes(self.text()?),
            1 => ResidualOp::Prefix(self.text()?),
            2 => ResidualOp::RegisterField(self.u16()?, self.path()?),
            3 => ResidualOp::RegisterFactId(self.u16()?),
            4 => ResidualOp::Disc(self.u32()?),
            5 => ResidualOp::Fuzzy(self.fuzzy()?),
            _ => ResidualOp::OwnField(self.path()?),
        })
    }

    /// All six slots, though a compile writes two of them.
    fn binding(&mut self) -> Result<Binding, u8> {
        let name = self.u16()?;
        let slot = match self.one_of(0..=5)? {
            0 => Slot::Row(self.u16()?, self.u16()?),
            1 => Slot::Key(self.u16()?, self.u16()?),
            2 => Slot::Derived(self.u16()?),
            3 => Slot::Field(self.u16()?, self.path()?, self.u16()?),
            4 => Slot::Value(self.u16()?, self.u16()?),
            _ => Slot::Const(self.u16()?),
        };
        Ok(Binding { name, slot })
    }
}
