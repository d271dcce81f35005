//! A copy of the cut text that counts its branches: each arm, each side of an
//! `if` and of a `let .. else`, each loop's body, both ways of a `?`, and each
//! right side of `&&` and `||` that is looked at.

use crate::cut::Item;
use crate::tokens::{Kind, Token, tokens};

/// A place that is counted.
pub struct Site {
    pub line: usize,
    pub function: String,
    pub what: String,
}

pub struct Counter {
    pub sites: Vec<Site>,
}

impl Counter {
    pub fn new() -> Self {
        Self { sites: vec![] }
    }

    /// The item's text, with a count at every branch of its functions.
    pub fn counted(&mut self, item: &Item) -> String {
        let tokens = tokens(&item.text);
        let mut pass = Pass {
            tokens: &tokens,
            at: 0,
            out: String::new(),
            first_line: item.line,
            function: String::new(),
            sites: &mut self.sites,
        };
        while pass.at < pass.tokens.len() {
            pass.outside();
        }
        pass.out
    }
}

struct Pass<'a> {
    tokens: &'a [Token<'a>],
    at: usize,
    out: String,
    first_line: usize,
    function: String,
    sites: &'a mut Vec<Site>,
}

impl Pass<'_> {
    fn text(&self) -> &str {
        self.tokens[self.at].text
    }

    fn emit(&mut self) {
        self.out.push_str(self.tokens[self.at].text);
        self.at += 1;
    }

    fn blanks(&mut self) {
        while self.at < self.tokens.len() && self.tokens[self.at].kind == Kind::Blank {
            self.emit();
        }
    }

    fn site(&mut self, what: &str) -> usize {
        self.sites.push(Site {
            line: self.first_line + self.tokens[self.at.min(self.tokens.len() - 1)].line,
            function: self.function.clone(),
            what: what.to_string(),
        });
        self.sites.len() - 1
    }

    fn hit(&mut self, what: &str) {
        let site = self.site(what);
        self.out.push_str(&format!(" hit({site}); "));
    }

    /// Between functions: attributes, `impl`, fields.
    fn outside(&mut self) {
        if self.text() != "fn" {
            self.emit();
            return;
        }
        self.emit();
        self.blanks();
        self.function = self.text().to_string();
        while self.text() != "{" {
            self.emit();
        }
        self.block("entered");
    }

    /// A block of statements, at its opening brace.
    fn block(&mut self, what: &str) {
        self.emit();
        self.hit(what);
        self.until(&["}"]);
        self.emit();
    }

    /// Statements or an expression, up to one of these marks on this level.
    fn until(&mut self, ends: &[&str]) {
        while !ends.contains(&self.text()) || self.tokens[self.at].kind == Kind::Quoted {
            self.piece();
        }
    }

    fn piece(&mut self) {
        let token = self.tokens[self.at];
        match (token.kind, token.text) {
            (Kind::Word, "if") => self.branch(),
            (Kind::Word, "match") => self.arms(),
            (Kind::Word, "for" | "while") => {
                self.emit();
                self.until(&["{"]);
                self.block("loop body");
            }
            (Kind::Word, "else") => self.let_else(),
            (Kind::Word, _) if self.is_macro() => self.raw_macro(),
            (Kind::Mark, "(") => self.group(")"),
            (Kind::Mark, "[") => self.group("]"),
            (Kind::Mark, "{") => self.group("}"),
            (Kind::Mark, "?") => self.question(),
            (Kind::Mark, "&&") => self.right_side("&&", "true"),
            (Kind::Mark, "||") => self.right_side("||", "false"),
            _ => self.emit(),
        }
    }

    fn group(&mut self, end: &str) {
        self.emit();
        self.until(&[end]);
        self.emit();
    }

    fn is_macro(&self) -> bool {
        let next = self.tokens.get(self.at + 1);
        let after = self.tokens.get(self.at + 2);
        next.is_some_and(|t| t.text == "!") && after.is_some_and(|t| ["(", "["].contains(&t.text))
    }

    /// A macro's inside is not looked at.
    fn raw_macro(&mut self) {
        self.emit();
        self.emit();
        self.raw_group();
    }

    fn raw_group(&mut self) {
        let mut depth = 0;
        loop {
            let mark = self.tokens[self.at].kind == Kind::Mark;
            match self.text() {
                "(" | "[" | "{" if mark => depth += 1,
                ")" | "]" | "}" if mark => depth -= 1,
                _ => {}
            }
            self.emit();
            if depth == 0 {
                return;
            }
        }
    }

    fn question(&mut self) {
        let none = self.site("`?` returns");
        self.site("`?` goes on");
        self.out.push_str(&format!(".seen({none})"));
        self.emit();
    }

    fn right_side(&mut self, mark: &str, neutral: &str) {
        let site = self.site(&format!("right side of `{mark}`"));
        self.emit();
        self.out
            .push_str(&format!(" {{ hit({site}); {neutral} }} {mark}"));
    }

    fn branch(&mut self) {
        self.emit();
        while self.text() != "{" {
            if self.text() == "let" {
                self.raw_pattern("=");
            } else {
                self.piece();
            }
        }
        self.block("`if` holds");
        if self.next_word() == Some("else") {
            self.blanks();
            self.emit();
            self.blanks();
            if self.text() == "if" {
                self.branch();
            } else {
                self.block("`else`");
            }
        } else {
            let site = self.site("`if` does not hold");
            self.out.push_str(&format!(" else {{ hit({site}); }}"));
        }
    }

    fn next_word(&self) -> Option<&str> {
        let rest = self.tokens[self.at..].iter();
        let next = rest.clone().find(|token| token.kind != Kind::Blank)?;
        Some(next.text)
    }

    /// A pattern, as it stands, up to a mark on this level.
    fn raw_pattern(&mut self, end: &str) {
        while self.text() != end {
            match self.text() {
                "(" | "[" | "{" => self.raw_group(),
                _ => self.emit(),
            }
        }
        self.emit();
    }

    fn let_else(&mut self) {
        self.emit();
        self.blanks();
        self.block("`let` fails");
        while self.text() != ";" {
            self.emit();
        }
        self.emit();
        self.hit("`let` holds");
    }

    fn arms(&mut self) {
        self.emit();
        self.until(&["{"]);
        self.emit();
        loop {
            self.blanks();
            if self.text() == "}" {
                self.emit();
                return;
            }
            self.arm();
        }
    }

    fn arm(&mut self) {
        let start = self.at;
        self.raw_pattern("=>");
        let pattern: Vec<&str> = self.tokens[start..self.at - 1]
            .iter()
            .filter(|token| token.kind != Kind::Blank)
            .map(|token| token.text)
            .collect();
        let what = format!("arm {}", pattern.join(" "));
        self.blanks();
        if self.text() == "{" {
            self.block(&what);
        } else {
            self.out.push('{');
            self.hit(&what);
            self.until(&[",", "}"]);
            self.out.push('}');
        }
        self.blanks();
        if self.text() == "," {
            self.emit();
        }
    }
}
