//! Text that stands in one line if it fits, else its braces in lines of their own.

/// Lines are broken where they would be longer, if there are braces to break at.
const WIDTH: usize = 100;

/// A head, a list in braces or none, and what follows.
#[derive(Default)]
pub(super) struct Doc {
    head: String,
    items: Option<Vec<Doc>>,
    tail: String,
}

impl Doc {
    pub fn text(head: impl Into<String>) -> Self {
        Self {
            head: head.into(),
            ..Self::default()
        }
    }

    /// `{ a, b }` after a head.
    pub fn braces(head: &str, items: Vec<Doc>) -> Self {
        Self {
            head: format!("{head}{{"),
            items: Some(items),
            tail: String::from("}"),
        }
    }

    pub fn before(mut self, text: &str) -> Self {
        self.head.insert_str(0, text);
        self
    }

    pub fn then(mut self, text: &str) -> Self {
        self.tail.push_str(text);
        self
    }

    /// In a text of its own.
    pub fn written(&self) -> String {
        let mut out = String::new();
        self.write(0, &mut out);
        out
    }

    /// In one line, however long.
    pub fn line(&self) -> String {
        let mut out = String::new();
        self.flat(&mut out);
        out
    }

    fn flat(&self, out: &mut String) {
        out.push_str(&self.head);
        if let Some(items) = &self.items {
            let blank = if items.is_empty() { "" } else { " " };
            out.push_str(blank);
            for (at, item) in items.iter().enumerate() {
                out.push_str(if at > 0 { ", " } else { "" });
                item.flat(out);
            }
            out.push_str(blank);
        }
        out.push_str(&self.tail);
    }

    /// As it is written, `indent` blanks in.
    pub fn write(&self, indent: usize, out: &mut String) {
        let start = out.len();
        self.flat(out);
        let Some(items) = &self.items else {
            return;
        };
        if out.len() - start + indent <= WIDTH || items.is_empty() {
            return;
        }
        out.truncate(start);
        out.push_str(&self.head);
        let inner = indent + 4;
        for item in items {
            out.push('\n');
            out.extend(std::iter::repeat_n(' ', inner));
            item.write(inner, out);
            out.push(',');
        }
        out.push('\n');
        out.extend(std::iter::repeat_n(' ', indent));
        out.push_str(&self.tail);
    }
}
