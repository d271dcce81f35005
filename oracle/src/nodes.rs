//! A plan's nodes left aside: what is compared with the original Rust is the plan
//! in the base's form, which has none.

use crate::compile::{hex, unhex};
use crate::reread::node_places;

/// The bytes of a plan without its nodes, or 16 or 17 where they tell no plan.
pub fn dropped(plan: &[u8]) -> Result<Vec<u8>, u8> {
    let places = node_places(plan)?;
    let mut left = Vec::with_capacity(plan.len());
    let mut from = 0;
    for at in places {
        left.extend_from_slice(&plan[from..at]);
        from = at + 2;
    }
    left.extend_from_slice(&plan[from..]);
    Ok(left)
}

/// A line of program `plan` without the nodes of the plan in it.
pub fn line_dropped(line: &str) -> String {
    let plan = unhex(line).and_then(|plan| dropped(&plan).ok());
    plan.map_or_else(|| String::from(line), |base| hex(&base))
}

/// The nodes of a plan, front to back.
pub fn nodes(plan: &[u8]) -> Result<Vec<u16>, u8> {
    let places = node_places(plan)?.into_iter();
    let node = |at: usize| u16::from_le_bytes([plan[at], plan[at + 1]]);
    Ok(places.map(node).collect())
}

#[cfg(test)]
mod tests {
    use super::*;
    use crate::draw::plans::made;
    use crate::plan::{Plan, write_base, write_plan};
    use crate::reread::base_form;
    use crate::rng::Rng;

    /// Bytes with two more at each of these places, which are those of the whole.
    fn put_back(base: &[u8], places: &[usize], nodes: &[u16]) -> Vec<u8> {
        let mut whole = base.to_vec();
        for (&at, node) in places.iter().zip(nodes) {
            whole.splice(at..at, node.to_le_bytes());
        }
        whole
    }

    fn without(mut plan: Plan) -> Plan {
        plan.levels.iter_mut().for_each(|level| level.nodes.clear());
        plan
    }

    /// The papers have D1's plan in both forms: 0000 stands behind its part and 0100
    /// behind its range's path.
    #[test]
    fn d1_without_its_nodes() {
        let (head, part) = ("010002000000010002", "000900028000000000000007");
        let (range, tail) = ("0200036b010000", "00000000000000000000000000");
        let plan = unhex(&format!("{head}{part}0000{range}0100{tail}")).expect("hex");
        let base = unhex(&format!("{head}{part}{range}{tail}")).expect("hex");
        assert_eq!((plan.len(), base.len()), (45, 41));
        assert_eq!(line_dropped(&hex(&plan)), hex(&base));
        assert_eq!(dropped(&plan), Ok(base));
        assert_eq!(nodes(&plan), Ok(vec![0, 1]));
    }

    /// What is left has the base's form and tells the same plan; with the nodes put
    /// back at their places it is the very plan.
    #[test]
    fn nodes_go_and_nothing_else() {
        let mut rng = Rng::new(71, 0);
        let mut count = 0;
        for _ in 0..3_000 {
            let plan = made(&mut rng);
            let bytes = write_plan(&plan);
            let (places, nodes) = (node_places(&bytes), nodes(&bytes));
            let (places, nodes) = (places.expect("a plan"), nodes.expect("a plan"));
            let base = dropped(&bytes).expect("a plan");
            assert_eq!(base.len() + 2 * nodes.len(), bytes.len());
            assert_eq!(put_back(&base, &places, &nodes), bytes);
            let of_levels = plan.levels.iter().flat_map(|level| &level.nodes);
            assert_eq!(of_levels.copied().collect::<Vec<_>>(), nodes);
            assert_eq!(base, write_base(&plan));
            assert_eq!(base_form(&base), Ok(without(plan)));
            count += nodes.len();
        }
        assert!(count > 10_000, "{count}");
    }

    /// A change of a node is left aside, one of any other byte is not.
    #[test]
    fn other_bytes_are_seen() {
        let mut rng = Rng::new(72, 0);
        for _ in 0..300 {
            let bytes = write_plan(&made(&mut rng));
            let places = node_places(&bytes).expect("a plan");
            let base = dropped(&bytes);
            for at in 0..bytes.len().min(400) {
                let mut other = bytes.clone();
                other[at] ^= 1 << rng.below(8);
                let of_node = places.iter().any(|&place| place == at || place + 1 == at);
                assert_eq!(dropped(&other) == base, of_node, "{at} of {bytes:02x?}");
            }
        }
    }

    #[test]
    fn what_is_no_plan_has_no_nodes() {
        assert_eq!(dropped(&[]), Err(16));
        assert_eq!(dropped(&[0; 11]), Err(17));
        assert_eq!(dropped(&[0; 10]), Ok(vec![0; 10]));
        for line in ["refused 7", "00", "(nothing within 20 s)"] {
            assert_eq!(line_dropped(line), line);
        }
    }
}
