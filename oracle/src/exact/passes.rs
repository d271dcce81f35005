//! What a level of a plan lets through: parts, range, edges, guide and residuals.

use crate::file::Path;
use crate::plan::{Edge, Fuzzy, Level, Part, ResidualOp, Seek};

use super::given::Given;
use super::value::{Value, one_value};

/// Whether a level lets a key through.
pub fn passes(level: &Level, key: &Value, given: &Given) -> bool {
    let stored = key.stored();
    let guide = level.guide.as_ref();
    let mut residuals = level.residuals.iter();
    sought(&level.seek, &stored, given)
        && guide.is_none_or(|(path, fuzzy)| likened(key.at(path), fuzzy, given))
        && residuals.all(|(path, op)| holds(key, path, op, given))
}

/// Parts, and the range or the edges behind them.
fn sought(seek: &Seek, stored: &[u8], given: &Given) -> bool {
    match seek {
        Seek::Prefix(front) => stored.starts_with(front),
        Seek::Composite(parts) => stored.starts_with(&joined(parts, given)),
        Seek::PrefixRange(parts, prefix, _) => {
            let front = [joined(parts, given), prefix.clone()].concat();
            stored.starts_with(&front)
        }
        Seek::Bounded(parts, lo, hi) => {
            let rest = stored.strip_prefix(joined(parts, given).as_slice());
            rest.is_some_and(|rest| within(rest, lo, hi))
        }
    }
}

fn joined(parts: &[Part], given: &Given) -> Vec<u8> {
    parts.iter().flat_map(|part| bytes(part, given)).collect()
}

fn bytes(part: &Part, given: &Given) -> Vec<u8> {
    match part {
        Part::Bytes(bytes) => bytes.clone(),
        Part::RegisterField(address, path) => given.field(*address, path).encoded(),
        Part::RegisterFactId(address) => Value::Fact(given.fact(*address)).encoded(),
    }
}

/// The one value that follows the parts lies between the edges.
fn within(rest: &[u8], lo: &Option<Edge>, hi: &Option<Edge>) -> bool {
    let Some(length) = one_value(rest) else {
        return false;
    };
    let value = &rest[..length];
    let above = |edge: &Edge| value > edge.bytes.as_slice();
    let below = |edge: &Edge| value < edge.bytes.as_slice();
    let at = |edge: &Edge| edge.inclusive && value == edge.bytes;
    (lo.iter()).all(|edge| above(edge) || at(edge))
        && (hi.iter()).all(|edge| below(edge) || at(edge))
}

/// A residual; at a path that the key lacks it fails.
fn holds(key: &Value, path: &Path, op: &ResidualOp, given: &Given) -> bool {
    let Some(value) = key.at(path) else {
        return false;
    };
    let encoded = value.encoded();
    match op {
        ResidualOp::Bytes(bytes) => encoded == *bytes,
        ResidualOp::Prefix(prefix) => encoded.starts_with(prefix),
        ResidualOp::RegisterField(address, path) => {
            encoded == given.field(*address, path).encoded()
        }
        ResidualOp::RegisterFactId(address) => {
            encoded == Value::Fact(given.fact(*address)).encoded()
        }
        ResidualOp::Disc(disc) => matches!(value, Value::Uni(of, _) if of == disc),
        ResidualOp::Fuzzy(fuzzy) => likened(Some(value), fuzzy, given),
        ResidualOp::OwnField(other) => {
            key.at(other).map(Value::encoded).as_deref() == Some(&encoded)
        }
    }
}

fn likened(value: Option<&Value>, fuzzy: &Fuzzy, given: &Given) -> bool {
    matches!(value, Some(Value::Str(text)) if given.rule.accepts(fuzzy, text))
}

#[cfg(test)]
mod tests {
    use super::*;
    use crate::exact::given::Rule;
    use crate::file::Anchor;
    use crate::fixed::sketch::field;

    fn level(seek: Seek) -> Level {
        Level {
            narrowings: 0,
            closers: 0,
            parts: 0,
            seek,
            guide: None,
            residuals: vec![],
            folded: vec![],
            nodes: vec![],
        }
    }

    fn text(text: &str) -> Value {
        Value::Str(text.as_bytes().to_vec())
    }

    fn key(fields: &[Value]) -> Value {
        Value::Rec(fields.to_vec())
    }

    /// Register 4 holds "a" at path 1 and is fact 9.
    fn given(rule: Rule) -> Given {
        let mut given = Given::new(rule);
        given.fields.insert((4, field(1, &[])), text("a"));
        given.facts.insert(4, 9);
        given
    }

    fn keeps(level: &Level, fields: &[Value]) -> bool {
        passes(level, &key(fields), &given(Rule::Always))
    }

    #[test]
    fn parts() {
        let five = Value::Int(5);
        let bytes = level(Seek::Prefix(five.encoded()));
        assert!(keeps(&bytes, &[five.clone(), text("z")]));
        assert!(!keeps(&bytes, &[Value::Int(4), text("z")]));
        assert!(!keeps(&bytes, &[]));
        let register = Part::RegisterField(4, field(1, &[]));
        let register = level(Seek::Composite(vec![Part::Bytes(five.encoded()), register]));
        assert!(keeps(&register, &[five.clone(), text("a")]));
        assert!(!keeps(&register, &[five.clone(), text("ab")]));
        assert!(!keeps(&register, &[text("a"), five]));
        let fact = level(Seek::Composite(vec![Part::RegisterFactId(4)]));
        assert!(keeps(&fact, &[Value::Fact(9)]));
        assert!(!keeps(&fact, &[Value::Fact(8)]));
    }

    /// Tag, payload and closer; without its closer the next part stands too early.
    #[test]
    fn closers() {
        let part = |bytes: &[u8]| Part::Bytes(bytes.to_vec());
        let register = Part::RegisterField(4, field(1, &[]));
        let next = Part::Bytes(Value::Int(1).encoded());
        let tag = part(&[5, 0, 0, 0, 2]);
        let closed = [tag.clone(), register.clone(), part(&[0]), next.clone()];
        let union = Value::Uni(2, Box::new(text("a")));
        let fields = [union, Value::Int(1)];
        assert!(keeps(&level(Seek::Composite(closed.to_vec())), &fields));
        let open = level(Seek::Composite(vec![tag, register, next]));
        assert!(!keeps(&open, &fields));
    }

    #[test]
    fn ranges() {
        let part = Part::Bytes(Value::Int(5).encoded());
        let range = Seek::PrefixRange(vec![part], b"\x03ab".to_vec(), field(1, &[]));
        let range = level(range);
        assert!(keeps(&range, &[Value::Int(5), text("ab")]));
        assert!(keeps(&range, &[Value::Int(5), text("abc")]));
        assert!(!keeps(&range, &[Value::Int(5), text("a")]));
        assert!(!keeps(&range, &[Value::Int(6), text("ab")]));
    }

    fn edge(inclusive: bool, value: &Value) -> Option<Edge> {
        let bytes = value.encoded();
        Some(Edge { inclusive, bytes })
    }

    #[test]
    fn edges() {
        let part = || vec![Part::Bytes(text("p").encoded())];
        for inclusive in [false, true] {
            let four = edge(inclusive, &Value::Int(4));
            let lower = level(Seek::Bounded(part(), four.clone(), None));
            let upper = level(Seek::Bounded(part(), None, four));
            for number in 3..=5 {
                let fields = [text("p"), Value::Int(number)];
                assert_eq!(
                    keeps(&lower, &fields),
                    number > 4 || inclusive && number == 4
                );
                assert_eq!(
                    keeps(&upper, &fields),
                    number < 4 || inclusive && number == 4
                );
            }
            assert!(!keeps(&lower, &[text("q"), Value::Int(9)]));
            assert!(!keeps(&lower, &[text("p")]));
        }
    }

    /// An edge is compared with the one value alone, not with what follows it.
    #[test]
    fn an_edge_and_what_follows() {
        let upper = level(Seek::Bounded(vec![], None, edge(true, &text(""))));
        assert!(keeps(&upper, &[text(""), Value::Int(-1)]));
        assert!(!keeps(&upper, &[text("a"), Value::Int(-1)]));
    }

    fn fuzzy() -> Fuzzy {
        Fuzzy {
            name: 1,
            distance: 2,
            anchor: Anchor::Whole,
        }
    }

    /// By the rule, on a text; nothing else is like a text.
    #[test]
    fn guides() {
        let mut guided = level(Seek::Prefix(vec![]));
        guided.guide = Some((field(1, &[]), fuzzy()));
        let fields = [Value::Int(1), text("a")];
        assert!(keeps(&guided, &fields));
        assert!(!passes(&guided, &key(&fields), &given(Rule::Never)));
        assert!(!keeps(&guided, &[Value::Int(1), Value::Int(2)]));
        assert!(!keeps(&guided, &[Value::Int(1)]));
    }

    /// A residual at path 1, step 0, and what is kept there and what is just not.
    fn residual(op: ResidualOp, kept: Value, missed: Value) {
        let mut residual = level(Seek::Prefix(vec![]));
        residual.residuals = vec![(field(1, &[0]), op)];
        let fields = |value| [text("a"), key(&[value])];
        assert!(keeps(&residual, &fields(kept)));
        assert!(!keeps(&residual, &fields(missed)));
        assert!(!keeps(&residual, &[text("a"), key(&[])]));
    }

    #[test]
    fn residuals() {
        let union = |disc| Value::Uni(disc, Box::new(text("a")));
        let (a, ab) = (text("a"), text("ab"));
        residual(ResidualOp::Bytes(a.encoded()), a.clone(), ab.clone());
        residual(
            ResidualOp::Prefix(b"\x03ab".to_vec()),
            ab.clone(),
            a.clone(),
        );
        let register = ResidualOp::RegisterField(4, field(1, &[]));
        residual(register, a.clone(), ab.clone());
        let fact = ResidualOp::RegisterFactId(4);
        residual(fact, Value::Fact(9), Value::Fact(10));
        residual(ResidualOp::Disc(3), union(3), union(2));
        residual(ResidualOp::Fuzzy(fuzzy()), a.clone(), Value::Int(1));
        residual(ResidualOp::OwnField(field(0, &[])), a, ab);
    }

    /// The other path of an equality may be lacking too.
    #[test]
    fn a_path_that_the_key_lacks_equals_nothing() {
        let mut level = level(Seek::Prefix(vec![]));
        let own = ResidualOp::OwnField(field(1, &[7]));
        level.residuals = vec![(field(0, &[]), own)];
        let union = |disc| Value::Uni(disc, Box::new(text("a")));
        assert!(keeps(&level, &[text("a"), union(7)]));
        assert!(!keeps(&level, &[text("a"), union(6)]));
    }

    /// Why the request speaks of keys without zero bytes: the bytes of the text "" begin
    /// those of the text of one zero byte.
    #[test]
    fn a_zero_byte_passes_without_matching() {
        let empty = level(Seek::Prefix(text("").encoded()));
        assert!(keeps(&empty, &[text("")]));
        assert!(!keeps(&empty, &[text("a")]));
        assert!(keeps(&empty, &[text("\0")]));
    }
}
