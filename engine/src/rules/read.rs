//! Reading, front to back, with the place of every field: the first fault met
//! is one of the refusals 3 to 7.

use super::*;
use crate::{MAX_FILE, Refusal};

/// A field that was read: where it stands and its value.
#[derive(Clone, Copy)]
pub(crate) struct Item {
    pub section: Section,
    pub record: usize,
    pub field: Field,
    pub offset: usize,
    pub value: u64,
}

/// A file that reads, with its fields in file order.
pub(crate) struct Located {
    pub rules: RuleFile,
    pub items: Vec<Item>,
}

impl Located {
    /// Where a record begins.
    pub fn offset(&self, section: Section, record: usize) -> Option<usize> {
        let found = self.items.iter().find(|item| {
            (item.section, item.record) == (section, record) && item.field.what != What::Count
        });
        found.map(|item| item.offset)
    }
}

/// Reads a file; 1 is told first. One of no bytes is ten empty sections.
pub(crate) fn located(file: &[u8]) -> Result<Located, Fault> {
    if file.len() > MAX_FILE {
        return Err(too_long(file.len()));
    }
    if file.is_empty() {
        return Ok(Located {
            rules: RuleFile::default(),
            items: vec![],
        });
    }
    let mut reader = Reader {
        file,
        at: 0,
        section: Section::Names,
        record: 0,
        items: vec![],
    };
    let rules = reader.rules()?;
    if reader.at < file.len() {
        return Err(reader.follows());
    }
    Ok(Located {
        rules,
        items: reader.items,
    })
}

fn too_long(length: usize) -> Fault {
    Fault {
        refusal: Refusal::FileTooLong,
        section: None,
        record: None,
        field: None,
        offset: MAX_FILE,
        expected: format!("at most {MAX_FILE} bytes"),
        found: format!("{length} bytes"),
    }
}

struct Reader<'a> {
    file: &'a [u8],
    at: usize,
    section: Section,
    record: usize,
    items: Vec<Item>,
}

type Read<T> = Result<T, Fault>;

/// A field that belongs to the record itself.
const fn own(what: What) -> Field {
    Field { what, of: None }
}

/// A field of one entry of the record's list.
const fn of(what: What, of: usize) -> Field {
    Field { what, of: Some(of) }
}

impl Reader<'_> {
    fn rules(&mut self) -> Read<RuleFile> {
        Ok(RuleFile {
            names: self.records(Section::Names, Self::name)?,
            types: self.records(Section::Types, Self::ty)?,
            predicates: self.records(Section::Predicates, Self::predicate)?,
            nodes: self.records(Section::Nodes, Self::node)?,
            bindings: self.records(Section::Bindings, Self::binding)?,
            hoisted: self.records(Section::Hoisted, Self::hoisted)?,
            fetched: self.records(Section::Fetched, Self::fetched)?,
            constraints: self.records(Section::Constraints, Self::constraint)?,
            comparisons: self.records(Section::Comparisons, Self::comparison)?,
            levels: self.records(Section::Levels, Self::level)?,
        })
    }

    fn records<T>(
        &mut self,
        section: Section,
        record: impl Fn(&mut Self) -> Read<T>,
    ) -> Read<Vec<T>> {
        self.section = section;
        self.record = 0;
        let count = usize::from(self.u16(own(What::Count))?);
        if count > section.limit() {
            let expected = format!("at most {} {section}", section.limit());
            return Err(self.wrong(Refusal::Count, expected, count.to_string()));
        }
        (0..count)
            .map(|number| {
                self.record = number;
                record(self)
            })
            .collect()
    }

    /// The next bytes, as a field's; 3 where they are cut short.
    fn array<const N: usize>(&mut self, field: Field) -> Read<[u8; N]> {
        let rest = &self.file[self.at..];
        let Some(&found) = rest.first_chunk::<N>() else {
            return Err(self.ends(field, N));
        };
        let mut value = [0; 8];
        value[..N].copy_from_slice(&found);
        self.items.push(Item {
            section: self.section,
            record: self.record,
            field,
            offset: self.at,
            value: u64::from_le_bytes(value),
        });
        self.at += N;
        Ok(found)
    }

    fn u8(&mut self, field: Field) -> Read<u8> {
        self.array(field).map(|[byte]| byte)
    }

    fn u16(&mut self, field: Field) -> Read<u16> {
        self.array(field).map(u16::from_le_bytes)
    }

    fn u32(&mut self, field: Field) -> Read<u32> {
        self.array(field).map(u32::from_le_bytes)
    }

    /// A count of one byte, then as many.
    fn list<T>(&mut self, count: What, each: impl Fn(&mut Self, usize) -> Read<T>) -> Read<Vec<T>> {
        let count = usize::from(self.u8(own(count))?);
        (0..count).map(|at| each(self, at)).collect()
    }

    /// Read whole, then judged: a fault at the first byte that is no character's.
    fn name(&mut self) -> Read<Vec<u8>> {
        let name = self.list(What::Length, |reader, at| reader.u8(of(What::NameByte, at)))?;
        let Err(error) = std::str::from_utf8(&name) else {
            return Ok(name);
        };
        let at = error.valid_up_to();
        let found: Vec<String> = name[at..]
            .iter()
            .map(|byte| format!("{byte:02x}"))
            .collect();
        Err(self.fault(
            Refusal::NameByte,
            Some(of(What::NameByte, at)),
            self.at - name.len() + at,
            String::from("a character of UTF-8"),
            format!("{} hex", found[..found.len().min(4)].join(" ")),
        ))
    }

    fn ty(&mut self) -> Read<Type> {
        Ok(match self.u8(own(What::Kind))? {
            0 => Type::Int,
            1 => Type::Str,
            2 => Type::Bytes,
            3 => Type::Fact(self.u16(own(What::Predicate))?),
            4 => Type::Record(self.list(What::Fields, |reader, at| {
                Ok(FieldType {
                    name: reader.u16(of(What::Name, at))?,
                    ty: reader.u16(of(What::Type, at))?,
                })
            })?),
            5 => Type::Union(self.list(What::Fields, Self::alternative)?),
            kind => return Err(self.unknown("a type's kind, 0 to 5", kind)),
        })
    }

    fn alternative(&mut self, at: usize) -> Read<Alternative> {
        Ok(Alternative {
            name: self.u16(of(What::Name, at))?,
            disc: self.u32(of(What::Disc, at))?,
            ty: self.u16(of(What::Type, at))?,
        })
    }

    fn predicate(&mut self) -> Read<Predicate> {
        Ok(Predicate {
            key: self.u16(own(What::KeyType))?,
            value: some(self.u16(own(What::ValueType))?),
        })
    }

    fn node(&mut self) -> Read<Node> {
        Ok(match self.u8(own(What::Kind))? {
            0 => Node::Int(i64::from_le_bytes(self.array(own(What::Integer))?)),
            1 => Node::Str(self.u16(own(What::Name))?),
            2 => Node::Bytes(self.list(What::Length, |reader, _| reader.u8(own(What::Bytes)))?),
            3 => Node::Var(self.u16(own(What::Name))?),
            4 => Node::Wildcard,
            5 => Node::Never,
            6 => Node::Prefix(self.u16(own(What::Name))?),
            7 => {
                let name = self.u16(own(What::Name))?;
                Node::Fuzzy(name, self.u8(own(What::Distance))?, self.anchor()?)
            }
            8 => Node::Record(self.list(What::Fields, |reader, at| {
                Ok(FieldPattern {
                    name: reader.u16(of(What::Name, at))?,
                    node: reader.u16(of(What::Node, at))?,
                })
            })?),
            9 => Node::KeyAccess(self.u16(own(What::Name))?, self.u16(own(What::Node))?),
            10 => Node::ValueAccess(self.u16(own(What::Node))?),
            11 => Node::Select(self.u16(own(What::Name))?, self.u16(own(What::Node))?),
            12 => Node::Disjunction,
            13 => Node::Subquery,
            14 => Node::Fact(self.u16(own(What::Predicate))?, self.u16(own(What::Node))?),
            15 => Node::Arith,
            16 => Node::Error,
            kind => return Err(self.unknown("a node's kind, 0 to 16", kind)),
        })
    }

    fn anchor(&mut self) -> Read<Anchor> {
        match self.u8(own(What::Anchor))? {
            0 => Ok(Anchor::Prefix),
            1 => Ok(Anchor::Whole),
            anchor => Err(self.unknown("an anchor, 0 (prefix) or 1 (whole)", anchor)),
        }
    }

    fn path(&mut self) -> Read<Path> {
        Ok(Path {
            field: self.u16(own(What::PathField))?,
            steps: self.list(What::Steps, |reader, at| reader.u32(of(What::Step, at)))?,
        })
    }

    fn binding(&mut self) -> Read<Binding> {
        Ok(Binding {
            name: self.u16(own(What::Name))?,
            slot: self.slot()?,
        })
    }

    fn slot(&mut self) -> Read<Slot> {
        let kind = self.u8(own(What::Kind))?;
        if kind == 5 {
            return Ok(Slot::Const(self.u16(own(What::Node))?));
        }
        if kind > 5 {
            return Err(self.unknown("a slot's kind, 0 to 5", kind));
        }
        let address = self.u16(own(What::Address))?;
        Ok(match kind {
            0 => Slot::Row(address, some(self.u16(own(What::RowPredicate))?)),
            1 => Slot::Key(address, self.u16(own(What::Type))?),
            2 => Slot::Derived(address),
            3 => Slot::Field(address, self.path()?, self.u16(own(What::Type))?),
            _ => Slot::Value(address, self.u16(own(What::Type))?),
        })
    }

    fn hoisted(&mut self) -> Read<Hoisted> {
        Ok(Hoisted {
            node: self.u16(own(What::Node))?,
            name: self.u16(own(What::Name))?,
        })
    }

    fn fetched(&mut self) -> Read<Fetched> {
        Ok(Fetched {
            address: self.u16(own(What::Address))?,
            path: self.path()?,
            register: self.u16(own(What::Register))?,
        })
    }

    fn constraint(&mut self) -> Read<Constraint> {
        Ok(Constraint {
            name: self.u16(own(What::Name))?,
            node: self.u16(own(What::Node))?,
        })
    }

    fn comparison(&mut self) -> Read<Comparison> {
        let number = self.u8(own(What::Op))?;
        let Some(&op) = Op::ALL.get(usize::from(number)) else {
            return Err(self.unknown("an op, 0 to 3 (<, <=, >, >=)", number));
        };
        Ok(Comparison {
            op,
            left: self.u16(own(What::LeftNode))?,
            right: self.u16(own(What::RightNode))?,
        })
    }

    fn level(&mut self) -> Read<Level> {
        Ok(Level {
            predicate: self.u16(own(What::Predicate))?,
            node: self.u16(own(What::Node))?,
            address: self.u16(own(What::Address))?,
        })
    }

    /// A fault at the field that was read last.
    fn wrong(&self, refusal: Refusal, expected: String, found: String) -> Fault {
        let last = self.items.last();
        self.fault(
            refusal,
            last.map(|item| item.field),
            last.map_or(self.at, |item| item.offset),
            expected,
            found,
        )
    }

    fn unknown(&self, expected: &str, found: u8) -> Fault {
        self.wrong(Refusal::Kind, String::from(expected), found.to_string())
    }

    fn ends(&self, field: Field, length: usize) -> Fault {
        let left = self.file.len() - self.at;
        let found = match left {
            0 => String::from("the end of the file"),
            1 => String::from("1 byte, then the end of the file"),
            _ => format!("{left} bytes, then the end of the file"),
        };
        let expected = format!(
            "{field}, {length} byte{}",
            if length == 1 { "" } else { "s" }
        );
        self.fault(Refusal::Ends, Some(field), self.at, expected, found)
    }

    fn follows(&self) -> Fault {
        let left = self.file.len() - self.at;
        Fault {
            section: None,
            record: None,
            ..self.fault(
                Refusal::Follows,
                None,
                self.at,
                String::from("the end of the file after the last level"),
                format!("{left} more byte{}", if left == 1 { "" } else { "s" }),
            )
        }
    }

    fn fault(
        &self,
        refusal: Refusal,
        field: Option<Field>,
        offset: usize,
        expected: String,
        found: String,
    ) -> Fault {
        let of_section = field.is_some_and(|field| field.what == What::Count);
        Fault {
            refusal,
            section: Some(self.section),
            record: (!of_section).then_some(self.record),
            field,
            offset,
            expected,
            found,
        }
    }
}

fn some(number: u16) -> Option<u16> {
    (number != NONE).then_some(number)
}
