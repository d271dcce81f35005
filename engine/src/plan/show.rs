//! A plan for people: a line for each part, range, edge, guide and residual, or a
//! sentence for each seek.

use std::fmt;

use super::values::{Piece, alternative, pieces, prefix, told_apart, values};
use super::*;
use crate::rules::Section;
use crate::rules::{Level, Node, RuleFile, Slot, Type};
use crate::text::{Patterns, Places, shown_bytes, shown_name, shown_text};

/// A plan as people read it, with the names of its rule file if that is at hand.
///
/// Each part, range, guide and residual is followed by the node that made it, in
/// brackets: `(node 7)`, with a rule file also the pattern, `(node 7: "k"..)`, and
/// with the places of its text the line, `(node 7, line 5: "k"..)`.
pub struct Shown<'a> {
    plan: &'a Plan,
    rules: Option<&'a RuleFile>,
    patterns: Option<Patterns<'a>>,
    predicates: &'a [String],
    places: Option<&'a Places>,
}

impl Plan {
    /// The plan as people read it, with the names of the rule file that it is of.
    pub fn shown<'a>(&'a self, rules: &'a RuleFile) -> Shown<'a> {
        Shown {
            rules: Some(rules),
            patterns: Some(Patterns::of(rules)),
            ..self.bare()
        }
    }

    fn bare(&self) -> Shown<'_> {
        Shown {
            plan: self,
            rules: None,
            patterns: None,
            predicates: &[],
            places: None,
        }
    }

    /// The plan in a sentence for each level, such as
    /// `seek prefix "k" (node 1: "k"..) of field 1 (tag) after room = 7 (node 0: 7)`.
    pub fn described<'a>(&'a self, rules: &'a RuleFile) -> Described<'a> {
        Described(self.shown(rules))
    }
}

/// A plan in sentences, for those who write rules. Nodes are told as in [`Shown`].
pub struct Described<'a>(Shown<'a>);

impl<'a> Described<'a> {
    /// With the predicates' labels, which a rule file does not keep.
    pub fn labelled(self, predicates: &'a [String]) -> Self {
        Self(self.0.labelled(predicates))
    }

    /// With the lines of the rule file's text.
    pub fn placed(self, places: &'a Places) -> Self {
        Self(self.0.placed(places))
    }
}

impl fmt::Display for Described<'_> {
    fn fmt(&self, f: &mut fmt::Formatter<'_>) -> fmt::Result {
        let Described(shown) = self;
        for (number, level) in shown.plan.levels.iter().enumerate() {
            let mut cursor = shown.cursor(number);
            write!(f, "level {number}")?;
            if let Some(facts) = shown.facts(number) {
                write!(f, " ({facts})")?;
            }
            writeln!(f, ": seek {}", shown.sentence(&level.seek, &mut cursor))?;
            shown.tests(f, level, cursor.key)?;
        }
        shown.lists(f)
    }
}

impl fmt::Display for Plan {
    fn fmt(&self, f: &mut fmt::Formatter<'_>) -> fmt::Result {
        self.bare().fmt(f)
    }
}

impl<'a> Shown<'a> {
    /// With the predicates' labels, which a rule file does not keep.
    pub fn labelled(mut self, predicates: &'a [String]) -> Self {
        self.predicates = predicates;
        if let Some(patterns) = &mut self.patterns {
            patterns.label(predicates);
        }
        self
    }

    /// With the lines of the rule file's text.
    pub fn placed(mut self, places: &'a Places) -> Self {
        self.places = Some(places);
        self
    }

    /// A node, with its line and its pattern where these are at hand.
    fn node(&self, node: u16) -> String {
        let place = (self.places).and_then(|places| places.of(Section::Nodes, node.into()));
        let line = place.map_or_else(String::new, |place| format!(", line {}", place.line));
        let pattern = self.patterns.as_ref().and_then(|all| all.shown(node));
        let pattern = pattern.map_or_else(String::new, |pattern| format!(": {pattern}"));
        format!("(node {node}{line}{pattern})")
    }
}

impl fmt::Display for Shown<'_> {
    fn fmt(&self, f: &mut fmt::Formatter<'_>) -> fmt::Result {
        for (number, level) in self.plan.levels.iter().enumerate() {
            self.level(f, number, level)?;
        }
        self.lists(f)
    }
}

impl Shown<'_> {
    /// What the levels added to the four lists.
    fn lists(&self, f: &mut fmt::Formatter<'_>) -> fmt::Result {
        for binding in &self.plan.bindings {
            writeln!(
                f,
                "binds {}: {}",
                self.name(binding.name),
                self.slot(&binding.slot)
            )?;
        }
        for name in &self.plan.constrained {
            writeln!(f, "constrained {}", self.name(*name))?;
        }
        for Select {
            address,
            path,
            disc,
        } in &self.plan.selects
        {
            let (place, ty) = self.register(*address, path);
            let found = alternative(self.rules, ty, *disc);
            let name = found.map_or_else(|| disc.to_string(), |(name, _)| name);
            writeln!(f, "selects {name} of {place}")?;
        }
        for (node, diagnostic) in &self.plan.diagnostics {
            let (code, name) = (diagnostic.code(), diagnostic.name());
            writeln!(f, "node {node}: code {code} {name}")?;
        }
        Ok(())
    }
}

/// The key's type of a level, and where in it a seek's next part belongs.
///
/// A plan does not say it: parts are of one field after the other, unless
/// something before them was reported, or a name has two values.
struct Cursor<'a> {
    key: Option<&'a Type>,
    sure: bool,
    field: u16,
    open: Vec<u32>,
}

impl Cursor<'_> {
    fn path(&self) -> Path {
        Path {
            field: self.field,
            steps: self.open.clone(),
        }
    }

    /// A whole value was met.
    fn pass(&mut self) {
        if self.open.is_empty() {
            self.field = self.field.saturating_add(1);
        }
    }
}

impl<'a> Shown<'a> {
    fn name(&self, number: u16) -> String {
        match self.rules {
            Some(rules) => shown_name(rules, number),
            None => format!("#{number}"),
        }
    }

    fn level(&self, f: &mut fmt::Formatter<'_>, number: usize, level: &PlanLevel) -> fmt::Result {
        write!(f, "level {number}: ")?;
        if let Some(facts) = self.facts(number) {
            write!(f, "{facts}, ")?;
        }
        writeln!(f, "seek {}", self.headline(level))?;
        let mut cursor = self.cursor(number);
        for line in self.seek(&level.seek, &mut cursor) {
            writeln!(f, "    {line}")?;
        }
        self.tests(f, level, cursor.key)
    }

    fn of_file(&self, number: usize) -> Option<&'a Level> {
        self.rules?.levels.get(number)
    }

    /// Whose facts a level looks for, and into which register.
    fn facts(&self, number: usize) -> Option<String> {
        let Level {
            predicate, address, ..
        } = *self.of_file(number)?;
        let label = self.predicates.get(usize::from(predicate));
        let label = label.map_or_else(|| format!("p{predicate}"), String::clone);
        Some(format!("{label} in r{address}"))
    }

    /// A level's key, before its first part.
    fn cursor(&self, number: usize) -> Cursor<'a> {
        let level = self.of_file(number);
        Cursor {
            key: level.and_then(|level| self.rules?.key_of(level)),
            sure: self.in_order(),
            field: 0,
            open: vec![],
        }
    }

    /// What each fact found is held against, beside the seek.
    fn tests(
        &self,
        f: &mut fmt::Formatter<'_>,
        level: &PlanLevel,
        key: Option<&'a Type>,
    ) -> fmt::Result {
        if let Some(guide) = &level.guide {
            let (place, _) = self.place(key, &guide.path);
            let (fuzzy, node) = (self.fuzzy(guide.fuzzy), self.node(guide.node));
            writeln!(f, "    guide: {place} = {fuzzy} {node}")?;
        }
        for residual in &level.residuals {
            let (test, node) = (self.residual(key, residual), self.node(residual.node));
            writeln!(f, "    residual: {test} {node}")?;
        }
        for index in &level.folded {
            writeln!(f, "    folded: comparison {index}")?;
        }
        Ok(())
    }

    fn headline(&self, level: &PlanLevel) -> String {
        let counted = |count: u16, one: &str| match count {
            1 => format!("1 {one}"),
            _ => format!("{count} {one}s"),
        };
        let mut words = vec![
            String::from(level.seek.name()),
            counted(level.narrowings, "narrowing"),
            counted(level.parts, "part"),
        ];
        if level.closers > 0 {
            words.push(counted(level.closers, "closer"));
        }
        words.join(", ")
    }

    /// A line for each part, range and edge.
    fn seek(&self, seek: &Seek, cursor: &mut Cursor<'a>) -> Vec<String> {
        let parts = self.parts(seek, cursor);
        let mut lines: Vec<String> = parts.iter().map(|part| format!("part: {part}")).collect();
        match seek {
            Seek::Prefix(bytes, _) if bytes.is_empty() => lines.push(String::from("every fact")),
            Seek::Prefix(..) | Seek::Composite(_) => {}
            Seek::PrefixRange(_, range) => {
                let (place, _) = self.place(cursor.key, &range.path);
                let (text, node) = (shown_prefix(&range.prefix), self.node(range.node));
                lines.push(format!("range: {place} = {text}.. {node}"));
            }
            Seek::Bounded(..) => {
                let edges = self.edges(seek, cursor);
                lines.extend(edges.iter().map(|edge| format!("edge: {edge}")));
            }
        }
        lines
    }

    /// The seek in a sentence: what is looked for, after what is known.
    fn sentence(&self, seek: &Seek, cursor: &mut Cursor<'a>) -> String {
        let parts = self.parts(seek, cursor);
        let known = match parts.as_slice() {
            [] => String::new(),
            parts => format!(" after {}", parts.join(", ")),
        };
        match seek {
            Seek::Prefix(..) | Seek::Composite(_) if parts.is_empty() => String::from("every fact"),
            Seek::Prefix(..) | Seek::Composite(_) => parts.join(", "),
            Seek::PrefixRange(_, Range { prefix, path, node }) => {
                let (prefix, mut place) = (shown_prefix(prefix), in_words(path));
                if let Some((name, _)) = self.named(cursor.key, path) {
                    place = format!("{place} ({name})");
                }
                format!("prefix {prefix} {} of {place}{known}", self.node(*node))
            }
            Seek::Bounded(..) => format!("{}{known}", self.edges(seek, cursor).join(" and ")),
        }
    }

    /// Its edges, lo first.
    fn edges(&self, seek: &Seek, cursor: &Cursor<'a>) -> Vec<String> {
        let Seek::Bounded(_, lo, hi) = seek else {
            return vec![];
        };
        let (place, ty) = self.next_place(cursor);
        let place = place.map_or_else(String::new, |place| format!("{place} "));
        let edge = |(edge, signs): (&Option<Edge>, [&str; 2])| {
            let Edge { inclusive, bytes } = edge.as_ref()?;
            let sign = signs[usize::from(*inclusive)];
            Some(format!("{place}{sign} {}", self.value(bytes, ty)))
        };
        let both = [(lo, [">", ">="]), (hi, ["<", "<="])];
        both.into_iter().filter_map(edge).collect()
    }

    /// Its parts in words, each with its node.
    fn parts(&self, seek: &Seek, cursor: &mut Cursor<'a>) -> Vec<String> {
        match seek {
            Seek::Prefix(bytes, nodes) => self.joined(bytes, nodes, cursor),
            Seek::Composite(parts) | Seek::PrefixRange(parts, ..) | Seek::Bounded(parts, ..) => {
                let parts = parts.iter();
                parts.map(|part| self.part(part, cursor)).collect()
            }
        }
    }

    fn part(&self, part: &Part, cursor: &mut Cursor<'a>) -> String {
        let node = self.node(part.node);
        let value = match &part.key {
            KeyPart::Bytes(bytes) => {
                let pieces = pieces(bytes).into_iter();
                let told: Vec<_> = pieces.map(|piece| self.piece(piece, cursor)).collect();
                return format!("{} {node}", told.join(", "));
            }
            KeyPart::RegisterField(address, path) => self.register(*address, path).0,
            KeyPart::RegisterFact(address) => format!("row r{address}"),
        };
        let (place, _) = self.next_place(cursor);
        cursor.pass();
        format!("{}{value} {node}", equal(place))
    }

    /// A Prefix's bytes are all parts, joined. Where they cannot be told apart, as
    /// in a plan that no compile wrote, the nodes follow the last piece.
    fn joined(&self, bytes: &[u8], nodes: &[u16], cursor: &mut Cursor<'a>) -> Vec<String> {
        let Some(parts) = told_apart(bytes, nodes) else {
            let pieces = pieces(bytes).into_iter();
            let mut told: Vec<_> = pieces.map(|piece| self.piece(piece, cursor)).collect();
            told.extend(nodes.iter().map(|&node| self.node(node)));
            return told;
        };
        let parts = parts.into_iter().zip(nodes);
        let told = parts.map(|(piece, &node)| (self.piece(piece, cursor), self.node(node)));
        told.map(|(piece, node)| format!("{piece} {node}"))
            .collect()
    }

    fn piece(&self, piece: Piece, cursor: &mut Cursor<'a>) -> String {
        let (place, ty) = self.next_place(cursor);
        match piece {
            Piece::Value(value) => {
                cursor.pass();
                format!("{}{}", equal(place), value.shown(self.rules, ty))
            }
            Piece::Tag(disc) => {
                let found = alternative(self.rules, ty, disc);
                let name = found.map_or_else(|| disc.to_string(), |(name, _)| name);
                cursor.open.push(disc);
                format!("{} is {name}", place.as_deref().unwrap_or("a union"))
            }
            Piece::Closer => {
                cursor.open.pop();
                let (place, _) = self.next_place(cursor);
                cursor.pass();
                format!("{} ends", place.as_deref().unwrap_or("a union"))
            }
            Piece::Other(bytes) => shown_bytes(&bytes),
        }
    }

    /// Where the next part belongs, if that is sure.
    fn next_place(&self, cursor: &Cursor<'a>) -> (Option<String>, Option<&'a Type>) {
        match self.named(cursor.key, &cursor.path()) {
            Some((place, ty)) if cursor.sure => (Some(place), Some(ty)),
            _ => (None, None),
        }
    }

    /// Whether a level's parts are of one field after the other.
    fn in_order(&self) -> bool {
        let passes = |code: u8| matches!(code, 4 | 6 | 8);
        let mut reported = self.plan.diagnostics.iter();
        let mut constrained = self.plan.constrained.iter();
        !reported.any(|(_, diagnostic)| passes(diagnostic.code()))
            && constrained.all(|name| self.values_of(*name) < 2)
    }

    /// How many constraints of a name may be parts.
    fn values_of(&self, name: u16) -> usize {
        let Some(rules) = self.rules else {
            return 0;
        };
        let ranged = |node: u16| {
            let node = rules.node(node);
            matches!(node, Some(Node::Prefix(_) | Node::Fuzzy(..)))
        };
        let of_name = rules.constraints.iter().filter(|each| each.name == name);
        of_name.filter(|each| !ranged(each.node)).count()
    }

    fn residual(&self, key: Option<&'a Type>, residual: &Residual) -> String {
        let (place, ty) = self.place(key, &residual.path);
        match &residual.op {
            ResidualOp::Bytes(bytes) => format!("{place} = {}", self.value(bytes, ty)),
            ResidualOp::Prefix(bytes) => format!("{place} = {}..", shown_prefix(bytes)),
            ResidualOp::RegisterField(address, path) => {
                format!("{place} = {}", self.register(*address, path).0)
            }
            ResidualOp::RegisterFact(address) => format!("{place} = row r{address}"),
            ResidualOp::Disc(disc) => match alternative(self.rules, ty, *disc) {
                Some((name, _)) => format!("{place} is {name}"),
                None => format!("{place} is {disc}"),
            },
            ResidualOp::Fuzzy(fuzzy) => format!("{place} = {}", self.fuzzy(*fuzzy)),
            ResidualOp::OwnField(other) => format!("{place} equals {}", self.place(key, other).0),
        }
    }

    fn fuzzy(&self, fuzzy: Fuzzy) -> String {
        let text = match self.rules.and_then(|rules| rules.name(fuzzy.name)) {
            Some(text) => shown_text(text),
            None => format!("!text #{}", fuzzy.name),
        };
        let dots = if fuzzy.anchor == Anchor::Prefix {
            ".."
        } else {
            ""
        };
        format!("{text}{dots} ~{}", fuzzy.distance)
    }

    fn value(&self, bytes: &[u8], ty: Option<&Type>) -> String {
        match values(bytes).as_deref() {
            Some([value]) => value.shown(self.rules, ty),
            _ => shown_bytes(bytes),
        }
    }

    fn slot(&self, slot: &Slot) -> String {
        match slot {
            Slot::Row(address, _) => format!("row r{address}"),
            Slot::Key(address, _) => format!("key r{address}"),
            Slot::Derived(address) => format!("derived r{address}"),
            Slot::Field(address, path, _) => self.register(*address, path).0,
            Slot::Value(address, _) => format!("value r{address}"),
            Slot::Const(node) => format!("const *#{node}"),
        }
    }

    /// A field of a register's key: by name where a level has that register.
    fn register(&self, address: u16, path: &Path) -> (String, Option<&'a Type>) {
        let levels = self.rules.map_or([].as_slice(), |rules| &rules.levels);
        let mut of_address = levels.iter().filter(|level| level.address == address);
        let key = of_address
            .next()
            .and_then(|level| self.rules?.key_of(level));
        match self.named(key, path) {
            Some((place, ty)) => (format!("r{address}.{place}"), Some(ty)),
            None => (format!("r{address}{}", numbered(path)), None),
        }
    }

    /// A path in a level's key, and its type.
    fn place(&self, key: Option<&'a Type>, path: &Path) -> (String, Option<&'a Type>) {
        match self.named(key, path) {
            Some((place, ty)) => (place, Some(ty)),
            None => (numbered(path), None),
        }
    }

    /// A path by names; none where it leaves the key's type.
    fn named(&self, key: Option<&'a Type>, path: &Path) -> Option<(String, &'a Type)> {
        let (rules, mut ty) = (self.rules?, key?);
        let mut place = String::from("key");
        let mut steps = path.steps.as_slice();
        if let Type::Record(fields) = ty {
            let field = fields.get(usize::from(path.field))?;
            (place, ty) = (shown_name(rules, field.name), rules.ty(field.ty)?);
        }
        while let [step, rest @ ..] = steps {
            let (name, next) = match ty {
                Type::Record(fields) => {
                    let field = fields.get(usize::try_from(*step).ok()?)?;
                    (shown_name(rules, field.name), rules.ty(field.ty))
                }
                _ => alternative(self.rules, Some(ty), *step)?,
            };
            place = format!("{place}.{name}");
            (ty, steps) = (next?, rest);
        }
        Some((place, ty))
    }
}

fn equal(place: Option<String>) -> String {
    place.map_or_else(String::new, |place| format!("{place} = "))
}

/// `[1/0/2]`.
fn numbered(path: &Path) -> String {
    let steps = path.steps.iter().map(|step| format!("/{step}"));
    format!("[{}{}]", path.field, steps.collect::<String>())
}

/// `field 1`, or `field 1, step 0, step 2`.
fn in_words(path: &Path) -> String {
    let steps = path.steps.iter().map(|step| format!(", step {step}"));
    format!("field {}{}", path.field, steps.collect::<String>())
}

fn shown_prefix(bytes: &[u8]) -> String {
    match prefix(bytes) {
        Some(text) => shown_text(&text),
        None => shown_bytes(bytes),
    }
}
