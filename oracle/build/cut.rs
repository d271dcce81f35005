//! Finds items in rustfmt's layout: an item begins at a line with its header and
//! ends at the first line that is its closing brace at the same indentation.

const PLAN_ITEMS: &[&str] = &[
    "pub struct Address(",
    "impl Address {",
    "pub struct FieldPath {",
    "impl FieldPath {",
    "pub enum SeekKey {",
    "pub struct RangeEdge {",
    "pub enum SeekKeyPart {",
    "pub struct Access {",
    "pub struct Guide {",
    "pub enum ResidualOp {",
    "pub enum Compare {",
    "impl Compare {",
    "pub struct Residual {",
    "pub struct ValueTest {",
    "pub enum Source {",
];

const FLATTEN_ITEMS: &[&str] = &[
    "enum Slot {",
    "struct Comparison {",
    "enum Const {",
    "struct SeekBuilder {",
    "impl SeekBuilder {",
    "fn field_pattern(",
    "fn field_of(",
];

/// The methods of `Flattener`. `report` is not on the list of covered bodies but
/// is what they hand a diagnostic to, so it is cut with them.
const METHODS: &[&str] = &[
    "hoisted_slot",
    "fetched_register",
    "key",
    "whole_key",
    "field",
    "matched",
    "partial",
    "inject",
    "narrow_by_tag",
    "narrow_by",
    "constrain",
    "bound",
    "constant",
    "folded_field",
    "resolve",
    "dereference",
    "field_slot",
    "lookup",
    "report",
];

/// One piece of the source, as it stands there.
#[derive(Clone)]
pub struct Item {
    pub name: String,
    pub text: String,
    /// The line of the source at which the text begins.
    pub line: usize,
}

impl Item {
    /// Whether this is one of plan.rs's pieces, or a type of flatten.rs.
    pub fn is_record(&self) -> bool {
        !self.name.starts_with("fn ") && self.name != "impl SeekBuilder"
    }
}

pub struct Cut {
    /// Types, their impls and the free functions.
    pub items: Vec<Item>,
    /// The methods of `Flattener`.
    pub methods: Vec<Item>,
}

impl Cut {
    pub fn new(flatten: &str, plan: &str) -> Self {
        let mut items = cut_all(plan, PLAN_ITEMS, "");
        items.extend(cut_all(flatten, FLATTEN_ITEMS, ""));
        let headers: Vec<String> = METHODS.iter().map(|name| format!("fn {name}(")).collect();
        let headers: Vec<&str> = headers.iter().map(String::as_str).collect();
        let methods = cut_all(flatten, &headers, "    ");
        Self { items, methods }
    }

    /// The pieces as one module's text, followed by the driver that calls them.
    /// `edit` makes a piece's text; the original module takes it as it is.
    pub fn module(&self, mut edit: impl FnMut(&Item) -> String) -> String {
        let mut text = String::new();
        for item in &self.items {
            text.push_str(&edit(item));
            text.push('\n');
        }
        text.push_str("impl Flattener<'_> {\n");
        for method in &self.methods {
            text.push_str(&edit(method));
            text.push('\n');
        }
        text.push_str("}\n");
        text.push_str(&include("/src/drive.rs"));
        text
    }
}

/// The line that includes a file of this project.
pub fn include(file: &str) -> String {
    format!("include!(concat!(env!(\"CARGO_MANIFEST_DIR\"), \"{file}\"));\n")
}

fn cut_all(source: &str, headers: &[&str], indent: &str) -> Vec<Item> {
    let lines: Vec<&str> = source.lines().collect();
    headers
        .iter()
        .map(|header| cut_one(&lines, header, indent))
        .collect()
}

fn cut_one(lines: &[&str], header: &str, indent: &str) -> Item {
    let start = format!("{indent}{header}");
    let found: Vec<usize> = (0..lines.len())
        .filter(|&at| lines[at].starts_with(&start))
        .collect();
    let [at] = found[..] else {
        panic!("`{header}` stands {} times in the source", found.len());
    };
    let close = format!("{indent}}}");
    let end = if lines[at].ends_with(';') {
        at
    } else {
        (at..lines.len())
            .find(|&line| lines[line] == close)
            .unwrap_or_else(|| panic!("`{header}` has no end"))
    };
    let first = first_attribute(lines, at);
    Item {
        name: header.trim_end_matches(['(', '{', ' ']).to_string(),
        text: lines[first..=end].join("\n"),
        line: first + 1,
    }
}

/// Derives and other attributes belong to the item below them.
fn first_attribute(lines: &[&str], at: usize) -> usize {
    let mut first = at;
    while first > 0 && lines[first - 1].trim_start().starts_with("#[") {
        first -= 1;
    }
    first
}
