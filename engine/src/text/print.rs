//! A rule file as text.

use std::collections::HashSet;

use super::doc::Doc;
use super::layout::{Statement, Step, Trees, steps};
use super::parse;
use super::quote::{is_word, shown_bytes, shown_text, word};
use crate::rules::*;

/// The text of a rule file: parsed, it gives the same file again, whatever the
/// numbers in it say.
///
/// Names need no list where they are met in the file's order. This holds of every
/// file that [`RuleFile::read`] gives; one that is longer than the format allows
/// has no text.
pub fn print(rules: &RuleFile) -> String {
    let plain = Printer::new(rules).text(false);
    match parse(&plain) {
        Ok(parsed) if parsed.rules == *rules => plain,
        _ => Printer::new(rules).text(true),
    }
}

/// The patterns of a rule file, each by itself and in one line.
pub(crate) struct Patterns<'a>(Printer<'a>);

/// A longer pattern is cut off.
const LONGEST_SHOWN: usize = 60;

impl<'a> Patterns<'a> {
    pub fn of(rules: &'a RuleFile) -> Self {
        let mut printer = Printer::new(rules);
        printer.trees = Trees::shown(rules);
        Self(printer)
    }

    /// With the predicates' labels.
    pub fn label(&mut self, predicates: &'a [String]) {
        self.0.predicates = predicates;
    }

    /// A node's pattern as it is written; none where the file has no such node.
    pub fn shown(&self, node: u16) -> Option<String> {
        self.0.rules.node(node)?;
        let line = self.0.pattern(node).line();
        match line.char_indices().nth(LONGEST_SHOWN) {
            Some((end, _)) => Some(format!("{} ...", line[..end].trim_end())),
            None => Some(line),
        }
    }
}

/// How many types ahead a declared one may reach, with what it holds.
const REACH: usize = 32;
/// How deep a type may be written inside others: no accepted file has a deeper one.
const INSIDE: usize = MAX_DEPTH;

struct Printer<'a> {
    rules: &'a RuleFile,
    /// The predicates' labels, where they have other ones than their numbers'.
    predicates: &'a [String],
    trees: Trees,
    out: String,
    /// What the last statement was about: a change leaves a line free.
    group: u8,
    /// Nodes that are referred to by a label.
    labelled: HashSet<u16>,
    /// For each name, whether it is the first of its text.
    first_name: Vec<bool>,
    /// For each type, whether it is the first of its content.
    first_type: Vec<bool>,
    /// For each type, how often it is named.
    uses: Vec<usize>,
    /// How many types a parser has by now, and which of them by a label.
    count: usize,
    declared: HashSet<u16>,
}

impl<'a> Printer<'a> {
    fn new(rules: &'a RuleFile) -> Self {
        let (mut names, mut types) = (HashSet::new(), HashSet::new());
        Self {
            rules,
            predicates: &[],
            trees: Trees::of(rules),
            out: String::new(),
            group: 0,
            labelled: HashSet::new(),
            first_name: rules.names.iter().map(|name| names.insert(name)).collect(),
            first_type: rules.types.iter().map(|ty| types.insert(ty)).collect(),
            uses: uses(rules),
            count: 0,
            declared: HashSet::new(),
        }
    }

    fn text(mut self, names: bool) -> String {
        if names {
            self.names();
        }
        for (number, predicate) in self.rules.predicates.iter().enumerate() {
            self.predicate(number, predicate);
        }
        let steps = steps(self.rules, &self.trees);
        self.find_labels(&steps);
        for step in &steps {
            self.step(step);
        }
        while self.count < self.rules.types.len() {
            self.declare();
        }
        self.out
    }

    fn statement(&mut self, group: u8, doc: Doc) {
        if self.group != group && !self.out.is_empty() {
            self.out.push('\n');
        }
        self.group = group;
        doc.write(0, &mut self.out);
        self.out.push('\n');
    }

    fn names(&mut self) {
        let mut line = String::from("names ");
        for (at, name) in self.rules.names.iter().enumerate() {
            let name = if is_word(name) {
                word(name)
            } else {
                shown_text(name)
            };
            line.push_str(if at > 0 { ", " } else { "" });
            if line.len() + name.len() > 100 {
                self.out.push_str(line.trim_end());
                self.out.push('\n');
                line = String::from("    ");
            }
            line.push_str(&name);
        }
        if !self.rules.names.is_empty() {
            self.out.push_str(&line);
            self.out.push('\n');
        }
    }

    /// Its text, where that is enough to find it again.
    fn plain_name(&self, number: u16) -> Option<&'a [u8]> {
        let first = self.first_name.get(usize::from(number)) == Some(&true);
        self.rules.name(number).filter(|_| first)
    }

    fn name(&self, number: u16) -> String {
        match self.plain_name(number) {
            Some(name) => word(name),
            None => format!("#{number}"),
        }
    }

    fn predicate_name(&self, number: u16) -> String {
        if let Some(label) = self.predicates.get(usize::from(number)) {
            return label.clone();
        }
        if usize::from(number) < self.rules.predicates.len() {
            return format!("p{number}");
        }
        format!("#{number}")
    }

    fn predicate(&mut self, number: usize, predicate: &Predicate) {
        let wanted = [Some(predicate.key), predicate.value];
        let mut docs = self
            .types_for(wanted.into_iter().flatten().collect())
            .into_iter();
        let mut doc = docs.next().unwrap_or_default();
        if let Some(value) = docs.next() {
            doc = doc.then(&format!(" -> {}", value.written()));
        }
        self.statement(1, doc.before(&format!("predicate p{number}: ")));
    }

    /// The types that a statement names, once they can be written in it.
    fn types_for(&mut self, wanted: Vec<u16>) -> Vec<Doc> {
        loop {
            let mut count = self.count;
            let docs = wanted.iter().map(|&ty| self.inside(ty, &mut count, 0));
            if let Some(docs) = docs.collect() {
                self.count = count;
                return docs;
            }
            self.declare();
        }
    }

    /// A type as it is written where it is used, after `count` types; none where
    /// it has to wait for types before it.
    fn inside(&self, number: u16, count: &mut usize, depth: usize) -> Option<Doc> {
        let Some(content) = self.rules.ty(number) else {
            return Some(Doc::text(format!("#{number}")));
        };
        let at = usize::from(number);
        if at < self.count || (at < *count && content.children().is_empty()) {
            return Some(self.again(number));
        }
        let shared = !content.children().is_empty() && self.uses[at] > 1;
        if depth == INSIDE || shared || !self.first_type[at] {
            return None;
        }
        let doc = self.content(content, count, depth)?;
        if at != *count {
            return None;
        }
        *count += 1;
        Some(doc)
    }

    /// A type that was written before: by its content if a parser finds it by
    /// that, else by its label.
    fn again(&self, number: u16) -> Doc {
        let first = self.first_type[usize::from(number)];
        let content = self.rules.ty(number);
        let content = content.filter(|ty| first && ty.children().is_empty());
        if let Some(doc) = content.and_then(|ty| self.content(ty, &mut 0, 0)) {
            return doc;
        }
        let sign = if self.declared.contains(&number) {
            't'
        } else {
            '#'
        };
        Doc::text(format!("{sign}{number}"))
    }

    fn content(&self, content: &Type, count: &mut usize, depth: usize) -> Option<Doc> {
        let mut field = |head: String, ty: u16| {
            let doc = self.inside(ty, count, depth + 1)?;
            Some(doc.before(&format!("{head}: ")))
        };
        Some(match content {
            Type::Int => Doc::text("Int"),
            Type::Str => Doc::text("Str"),
            Type::Bytes => Doc::text("Bytes"),
            Type::Fact(predicate) => Doc::text(format!("Fact {}", self.predicate_name(*predicate))),
            Type::Record(fields) => {
                let items = fields
                    .iter()
                    .map(|each| field(self.name(each.name), each.ty));
                Doc::braces("", items.collect::<Option<_>>()?)
            }
            Type::Union(alternatives) => {
                let items = alternatives.iter().enumerate();
                let items = items.map(|(at, each)| field(self.alternative(at, each), each.ty));
                Doc::braces("union ", items.collect::<Option<_>>()?)
            }
        })
    }

    /// An alternative's name, and its disc where that is not its place.
    fn alternative(&self, at: usize, alternative: &Alternative) -> String {
        let name = self.name(alternative.name);
        match alternative.disc {
            disc if disc as usize == at => name,
            disc => format!("{name} = {disc}"),
        }
    }

    /// The next type as a statement of its own, or one above it that holds all
    /// from there on.
    fn declare(&mut self) {
        let next = self.count;
        let last = self.rules.types.len().min(next + REACH);
        let found = (next..last).rev().find_map(|number| {
            let mut count = next;
            let doc = self.content(&self.rules.types[number], &mut count, 0)?;
            (count == number).then_some((number, doc))
        });
        let (number, doc) = found.unwrap_or_else(|| (next, self.numbered(next)));
        self.count = number + 1;
        self.declared.insert(number as u16);
        self.statement(1, doc.before(&format!("type t{number} = ")));
    }

    /// A type whose fields' types stand after it: they are told by number.
    fn numbered(&self, number: usize) -> Doc {
        let field = |head: String, ty: u16| {
            let doc = match usize::from(ty) < number {
                true => self.again(ty),
                false => Doc::text(format!("#{ty}")),
            };
            doc.before(&format!("{head}: "))
        };
        match &self.rules.types[number] {
            Type::Record(fields) => {
                let items = fields
                    .iter()
                    .map(|each| field(self.name(each.name), each.ty));
                Doc::braces("", items.collect())
            }
            Type::Union(alternatives) => {
                let items = alternatives.iter().enumerate();
                let items = items.map(|(at, each)| field(self.alternative(at, each), each.ty));
                Doc::braces("union ", items.collect())
            }
            content => self.content(content, &mut 0, 0).unwrap_or_default(),
        }
    }

    /// A node that is named somewhere where it is not written has a label.
    fn find_labels(&mut self, steps: &[Step]) {
        for (node, within) in self.rules.nodes.iter().zip(&self.trees.inside) {
            let children = node.children().into_iter().zip(within);
            let named = children.filter(|(_, inside)| !**inside);
            self.labelled.extend(named.map(|(child, _)| child));
        }
        for step in steps {
            let nodes = self.nodes_of(step.statement);
            let named = nodes
                .iter()
                .zip(&step.written)
                .filter(|(_, written)| !**written);
            self.labelled.extend(named.map(|(node, _)| *node));
        }
    }

    fn nodes_of(&self, statement: Statement) -> Vec<u16> {
        let rules = self.rules;
        match statement {
            Statement::Binding(at) => match rules.bindings[at].slot {
                Slot::Const(node) => vec![node],
                _ => vec![],
            },
            Statement::Fetched(_) => vec![],
            Statement::Level(at) => vec![rules.levels[at].node],
            Statement::Constraint(at) => vec![rules.constraints[at].node],
            Statement::Comparison(at) => {
                vec![rules.comparisons[at].left, rules.comparisons[at].right]
            }
            Statement::Hoisted(at) => vec![rules.hoisted[at].node],
            Statement::Node(root) => vec![root as u16],
        }
    }

    fn step(&mut self, step: &Step) {
        let rules = self.rules;
        let nodes = self.nodes_of(step.statement);
        let patterns = nodes.iter().zip(&step.written);
        let patterns: Vec<Doc> = patterns
            .map(|(&node, &written)| self.pattern_or_label(node, written))
            .collect();
        let mut patterns = patterns.into_iter();
        let mut pattern = || patterns.next().unwrap_or_default();
        match step.statement {
            Statement::Binding(at) => self.binding(&rules.bindings[at], pattern()),
            Statement::Fetched(at) => {
                let fetched = &rules.fetched[at];
                let (address, path) = (fetched.address, shown_path(&fetched.path));
                let text = format!("fetch r{address}{path} into r{}", fetched.register);
                self.statement(2, Doc::text(text));
            }
            Statement::Level(at) => {
                let written = step.written == [true];
                self.level(at, pattern(), written);
            }
            Statement::Constraint(at) => {
                let name = self.var(self.rules.constraints[at].name);
                self.statement(3, pattern().before(&format!("where {name} = ")));
            }
            Statement::Comparison(at) => {
                let sign = self.rules.comparisons[at].op.sign();
                let left = pattern().written();
                self.statement(3, pattern().before(&format!("where {left} {sign} ")));
            }
            Statement::Hoisted(at) => {
                let name = self.name(self.rules.hoisted[at].name);
                self.statement(3, pattern().before("hoist ").then(&format!(" as {name}")));
            }
            Statement::Node(_) => self.statement(3, pattern().before("node ")),
        }
    }

    fn level(&mut self, at: usize, pattern: Doc, written: bool) {
        let level = self.rules.levels[at];
        let head = format!("level {}", self.predicate_name(level.predicate));
        let mut doc = self.key(level.node, pattern, written).before(&head);
        if usize::from(level.address) != at {
            doc = doc.then(&format!(" in r{}", level.address));
        }
        self.statement(3, doc);
    }

    /// A key's pattern after its predicate.
    fn key(&self, node: u16, pattern: Doc, written: bool) -> Doc {
        let record = matches!(self.rules.node(node), Some(Node::Record(_)));
        if record && written && !self.labelled.contains(&node) {
            return pattern.before(" ");
        }
        pattern.before("(").then(")")
    }

    fn binding(&mut self, binding: &Binding, pattern: Doc) {
        let doc = match &binding.slot {
            Slot::Const(_) => pattern.before("const "),
            Slot::Row(address, None) => Doc::text(format!("row r{address}")),
            Slot::Row(address, Some(predicate)) => Doc::text(format!(
                "row r{address} of {}",
                self.predicate_name(*predicate)
            )),
            Slot::Derived(address) => Doc::text(format!("derived r{address}")),
            Slot::Key(address, ty) => self.typed(format!("key r{address}"), *ty),
            Slot::Value(address, ty) => self.typed(format!("value r{address}"), *ty),
            Slot::Field(address, path, ty) => {
                self.typed(format!("field r{address}{}", shown_path(path)), *ty)
            }
        };
        let name = self.name(binding.name);
        self.statement(2, doc.before(&format!("let {name} = ")));
    }

    fn typed(&mut self, head: String, ty: u16) -> Doc {
        let ty = self.types_for(vec![ty]).pop().unwrap_or_default();
        ty.before(&format!("{head}: "))
    }

    fn pattern_or_label(&self, node: u16, written: bool) -> Doc {
        if written {
            return self.pattern(node);
        }
        if self.rules.node(node).is_some() {
            return Doc::text(format!("*n{node}"));
        }
        Doc::text(format!("*#{node}"))
    }

    fn pattern(&self, number: u16) -> Doc {
        let Some(node) = self.rules.node(number) else {
            return Doc::text(format!("*#{number}"));
        };
        let inside = &self.trees.inside[usize::from(number)];
        let children = node.children().into_iter().zip(inside);
        let children = children.map(|(child, &inside)| (child, inside));
        let doc = self.node(node, children.collect());
        if self.labelled.contains(&number) {
            return doc.before(&format!("&n{number} "));
        }
        doc
    }

    /// A node with its children, each written inside or not.
    fn node(&self, node: &Node, children: Vec<(u16, bool)>) -> Doc {
        let child = |at: usize| children.get(at).copied().unwrap_or_default();
        match node {
            Node::Int(number) => Doc::text(number.to_string()),
            Node::Str(name) => Doc::text(self.string(*name)),
            Node::Bytes(bytes) => Doc::text(shown_bytes(bytes)),
            Node::Var(name) => Doc::text(self.var(*name)),
            Node::Wildcard => Doc::text("_"),
            Node::Never => Doc::text("!never"),
            Node::Prefix(name) => Doc::text(format!("{}..", self.string(*name))),
            Node::Fuzzy(name, distance, Anchor::Prefix) => {
                Doc::text(format!("{}.. ~{distance}", self.string(*name)))
            }
            Node::Fuzzy(name, distance, Anchor::Whole) => {
                Doc::text(format!("{} ~{distance}", self.string(*name)))
            }
            Node::Record(fields) => {
                let fields = fields.iter().zip(children);
                let items = fields.map(|(field, (node, inside))| {
                    let pattern = self.pattern_or_label(node, inside);
                    pattern.before(&format!("{} = ", self.name(field.name)))
                });
                Doc::braces("", items.collect())
            }
            Node::KeyAccess(name, _) => self.base(child(0)).then(&format!(".{}", self.name(*name))),
            Node::ValueAccess(_) => self.base(child(0)).then(".*"),
            Node::Select(name, _) => self.base(child(0)).then(&format!("?{}", self.name(*name))),
            Node::Disjunction => Doc::text("!disjunction"),
            Node::Subquery => Doc::text("!subquery"),
            Node::Fact(predicate, _) => {
                let (key, inside) = child(0);
                let pattern = self.pattern_or_label(key, inside);
                let predicate = self.predicate_name(*predicate);
                self.key(key, pattern, inside).before(&predicate)
            }
            Node::Arith => Doc::text("!arith"),
            Node::Error => Doc::text("!error"),
        }
    }

    /// What is read from: in brackets where a read would not be taken as of all of it.
    fn base(&self, (node, inside): (u16, bool)) -> Doc {
        let doc = self.pattern_or_label(node, inside);
        let plain = match self.rules.node(node) {
            None => true,
            Some(_) if !inside => true,
            Some(_) if self.labelled.contains(&node) => false,
            Some(Node::Var(_) | Node::KeyAccess(..) | Node::ValueAccess(_)) => true,
            Some(Node::Select(..) | Node::Fact(..)) => true,
            Some(_) => false,
        };
        if plain {
            doc
        } else {
            doc.before("(").then(")")
        }
    }

    fn var(&self, name: u16) -> String {
        match self.plain_name(name) {
            Some(name) => word(name),
            None => format!("!var #{name}"),
        }
    }

    fn string(&self, name: u16) -> String {
        match self.plain_name(name) {
            Some(text) => shown_text(text),
            None => format!("!text #{name}"),
        }
    }
}

/// How often each type is named.
fn uses(rules: &RuleFile) -> Vec<usize> {
    let mut uses = vec![0; rules.types.len()];
    let mut count = |ty: u16| {
        if let Some(uses) = uses.get_mut(usize::from(ty)) {
            *uses += 1;
        }
    };
    rules
        .types
        .iter()
        .flat_map(Type::children)
        .for_each(&mut count);
    for predicate in &rules.predicates {
        count(predicate.key);
        predicate.value.into_iter().for_each(&mut count);
    }
    for binding in &rules.bindings {
        if let Slot::Key(_, ty) | Slot::Field(_, _, ty) | Slot::Value(_, ty) = binding.slot {
            count(ty);
        }
    }
    uses
}

/// `[1/0/2]`.
fn shown_path(path: &Path) -> String {
    let mut text = format!("[{}", path.field);
    path.steps
        .iter()
        .for_each(|step| text.push_str(&format!("/{step}")));
    text + "]"
}
