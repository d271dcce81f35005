//! Plans opened, shown and written back; bytes that are no plan.

mod drawn;
mod files;

use std::collections::BTreeMap;

use sinalvento::plan::{LevelRule, PlanFault, Residual, ResidualOp, Seek};
use sinalvento::rules::{Node, Path};
use sinalvento::{Buffers, MAX_PLAN, Plan, Refusal, RuleFile, compile, read_into, text};

/// The plans of the fixed list's accepted files.
fn plans() -> Vec<Vec<u8>> {
    let mut buffers = Buffers::new();
    let files = drawn::fixed().into_iter();
    files
        .filter_map(|file| compile(&file, &mut buffers).ok().map(<[u8]>::to_vec))
        .collect()
}

#[test]
fn every_plan_is_opened_and_written_back() {
    let mut buffers = Buffers::new();
    let mut count = 0;
    drawn::each(20_000, |file| {
        if let Ok(bytes) = compile(file, &mut buffers) {
            let plan = Plan::open(bytes).expect("a plan");
            assert_eq!(plan.to_bytes(), bytes);
            assert_eq!(PlanFault::of(bytes), None);
            let rules = RuleFile::read(file).expect("it was read");
            let shown = plan.shown(&rules).to_string();
            // A part that is no value is told as bytes, and so is a pattern of bytes.
            let mut nodes = rules.nodes.iter();
            let bytes = nodes.any(|node| matches!(node, Node::Bytes(_)));
            assert!(bytes || !shown.contains("part: hex"), "{shown}");
            // Joined parts are told apart: each has its own node.
            assert!(!shown.contains("part: (node"), "{shown}");
            let described = plan.described(&rules).to_string();
            assert!(bytes || !described.contains("seek hex"), "{described}");
            count += 1;
        }
    });
    assert!(count > 1_000, "{count}");
}

/// Whatever the bytes are, they are opened or refused; the place that is told
/// has the same refusal, and lies within the bytes.
fn tried(bytes: &[u8], met: &mut BTreeMap<u8, usize>) {
    let opened = Plan::open(bytes);
    let fault = PlanFault::of(bytes);
    assert_eq!(
        opened.as_ref().err().copied(),
        fault.map(PlanFault::refusal),
        "{bytes:02x?}"
    );
    let number = fault.map_or(0, |fault| fault.refusal().number());
    *met.entry(number).or_default() += 1;
    if let Some(fault) = fault {
        assert!(fault.offset() <= bytes.len(), "{fault}");
    }
    if let Ok(plan) = opened {
        assert_eq!(plan.to_bytes(), bytes);
        let _ = plan.to_string();
    }
}

#[test]
fn bytes_that_are_no_plan() {
    let plans = plans();
    let mut rng = drawn::Rng(3);
    let mut met = BTreeMap::new();
    for _ in 0..20_000 {
        let plan = &plans[rng.below(plans.len())];
        tried(&drawn::damaged(&mut rng, plan), &mut met);
        let noise: Vec<u8> = (0..rng.below(60)).map(|_| rng.below(4) as u8).collect();
        tried(&noise, &mut met);
    }
    tried(&[0; MAX_PLAN + 1], &mut met);
    for number in [0, 15, 16, 17, 18] {
        assert!(met.contains_key(&number), "{number} of {met:?}");
    }
}

/// A plan that is cut short ends early, wherever it is cut.
#[test]
fn a_plan_that_is_cut_short() {
    for plan in plans().iter().filter(|plan| plan.len() < 500) {
        for length in 0..plan.len() {
            assert_eq!(Plan::open(&plan[..length]), Err(Refusal::PlanEnds));
            assert_eq!(
                PlanFault::of(&plan[..length]),
                Some(PlanFault::Ends(length))
            );
        }
    }
}

/// D1's plan with so many bytes of it changed: offset, byte.
fn changed(changes: &[(usize, u8)]) -> Vec<u8> {
    let mut bytes = files::d1_plan();
    for &(at, byte) in changes {
        bytes[at] = byte;
    }
    bytes
}

#[test]
fn faults_have_a_place() {
    let level = |rule: LevelRule| PlanFault::Level {
        level: 0,
        offset: 2,
        rule,
    };
    for (bytes, fault) in [
        (changed(&[(8, 4)]), PlanFault::Byte(8)),
        (changed(&[(9, 3)]), PlanFault::Byte(9)),
        (changed(&[(29, 32)]), PlanFault::Byte(29)),
        ([files::d1_plan(), vec![0]].concat(), PlanFault::Follows(45)),
        (changed(&[(2, 3)]), level(LevelRule::NarrowingsSum)),
        (changed(&[(4, 2)]), level(LevelRule::ClosersAmongParts)),
        (vec![0; MAX_PLAN + 1], PlanFault::TooLong),
    ] {
        assert_eq!(PlanFault::of(&bytes), Some(fault));
        assert_eq!(Plan::open(&bytes), Err(fault.refusal()));
    }
    let fault = PlanFault::of(&changed(&[(2, 3)])).expect("it is refused");
    assert_eq!(
        fault.to_string(),
        "refused by 18: level of the plan breaks a rule of every level\n  \
         at offset 2 (2 hex): level 0: narrowings = parts - closers + residuals + range + guide"
    );
}

/// The reader's memory: any work area, an output buffer of the plan's length.
#[test]
fn memory_of_the_reader() {
    let plan = files::d1_plan();
    for room in [plan.len(), plan.len() + 1, MAX_PLAN, 2 * MAX_PLAN] {
        for work in [0, 1, 100_000] {
            let (mut out, mut work) = (vec![7; room], vec![7; work]);
            assert_eq!(read_into(&plan, &mut out, &mut work), Ok(plan.as_slice()));
            assert!(out[plan.len()..].iter().all(|&byte| byte == 0));
            assert!(work.iter().all(|&byte| byte == 0));
        }
    }
    for room in [0, 1, plan.len() - 1] {
        let mut out = vec![7; room];
        let outcome = read_into(&plan, &mut out, &mut []);
        assert_eq!(outcome, Err(Refusal::PlanTooLong));
        assert!(out.iter().all(|&byte| byte == 0));
    }
}

/// What a viewer changes in a plan's data is judged anew by its bytes.
#[test]
fn changed_data_is_judged_by_its_bytes() {
    let mut plan = Plan::open(&files::d1_plan()).expect("a plan");
    assert_eq!(plan.levels[0].broken(), None);
    plan.levels[0].seek = Seek::Prefix(vec![], vec![0]);
    assert_eq!(plan.levels[0].broken(), Some(LevelRule::NarrowingsSum));
    assert_eq!(Plan::open(&plan.to_bytes()), Err(Refusal::PlanRule));
    plan.levels[0].narrowings = 1;
    assert_eq!(Plan::open(&plan.to_bytes()), Ok(plan));
}

/// A mistyped prefix is reported and leaves no part; a name with two values has
/// two: then a part's field is not told.
#[test]
fn fields_are_named_only_where_they_are_sure() {
    let mut buffers = Buffers::new();
    for (rules, line) in [
        (
            "level p { a = \"f\"~1, b = 1 }",
            "    part: 1 (node 1: 1)\n",
        ),
        (
            "level p { a = x, b = 1 } where x = 2 where x = 3",
            "    part: 2 (node 3: 2)\n",
        ),
        (
            "level p { a = x, b = 1 } where x = 2",
            "    part: a = 2 (node 3: 2)\n    part: b = 1 (node 1: 1)\n",
        ),
    ] {
        let text = format!("predicate p: {{ a: Int, b: Int }} {rules}");
        let rules = sinalvento::text::parse(&text).expect("it parses").rules;
        let bytes = compile(&rules.write(), &mut buffers).expect("it is accepted");
        let shown = Plan::open(bytes).expect("a plan").shown(&rules).to_string();
        assert!(shown.contains(line), "{shown}");
    }
}

#[test]
fn d1_as_people_read_it() {
    let rules = RuleFile::read(&files::d1()).expect("D1 reads");
    let plan = Plan::open(&files::d1_plan()).expect("a plan");
    assert_eq!(
        plan.shown(&rules).to_string(),
        "level 0: p0 in r0, seek PrefixRange, 2 narrowings, 1 part\n    \
         part: room = 7 (node 0: 7)\n    range: tag = \"k\".. (node 1: \"k\"..)\n"
    );
    assert_eq!(
        plan.to_string(),
        "level 0: seek PrefixRange, 2 narrowings, 1 part\n    \
         part: 7 (node 0)\n    range: [1] = \"k\".. (node 1)\n"
    );
    assert_eq!(
        plan.described(&rules).to_string(),
        "level 0 (p0 in r0): seek prefix \"k\" (node 1: \"k\"..) of field 1 (tag) \
         after room = 7 (node 0: 7)\n"
    );
}

/// The plan of a rule text, as it is shown with that text at hand.
fn shown(text: &str) -> String {
    let parsed = text::parse(text).unwrap_or_else(|fault| panic!("{text}: {fault}"));
    let mut buffers = Buffers::new();
    let bytes = compile(&parsed.rules.write(), &mut buffers).expect("it is accepted");
    let plan = Plan::open(bytes).expect("a plan");
    let shown = plan.shown(&parsed.rules).labelled(&parsed.predicates);
    shown.placed(&parsed.places).to_string()
}

/// Each entry has the pattern that its designer wrote, with the line: of a union the
/// record, of a constraint the constraint, of a read the whole read, of an opened
/// constant the field.
#[test]
fn entries_are_found_in_the_text() {
    let told = shown(
        "predicate key: { at: { x: Int, y: Int }, cut: Int }
         predicate door: { lock: union { open: Int, shut: Int }, code: Int, tag: Str, at: { x: Int, y: Int } }
         let k = key r9: { at: { x: Int, y: Int }, cut: Int }
         let middle = const { y = 3 }
         level door {
             lock = { shut = n },
             code = k.cut,
             tag = t,
             at = middle,
         }
         where n = 4
         where t = \"gate\"..
         where t = \"gatehouse\" ~2
         where t = \"gat\"..",
    );
    let lines: Vec<&str> = told.lines().map(str::trim).collect();
    assert_eq!(
        lines[..10],
        [
            "level 0: door in r0, seek PrefixRange, 7 narrowings, 4 parts, 1 closer",
            "part: lock is shut (node 3, line 6: { shut = n })",
            "part: lock.shut = 4 (node 9, line 11: 4)",
            "part: lock ends (node 3, line 6: { shut = n })",
            "part: code = r9[1] (node 5, line 7: k.cut)",
            "range: tag = \"gate\".. (node 10, line 12: \"gate\"..)",
            "guide: tag = \"gatehouse\" ~2 (node 11, line 13: \"gatehouse\" ~2)",
            "residual: tag = \"gat\".. (node 12, line 14: \"gat\"..)",
            "residual: at.y = 3 (node 0, line 4: 3)",
            "binds n: r0.lock.shut",
        ]
    );
}

/// A union in a Prefix's joined bytes: one part where it is constant, three where a
/// constraint gives its payload.
#[test]
fn joined_parts_are_told_apart() {
    let head = "predicate p: { u: union { x: Int, y: union { z: Int } }, b: Int }\n";
    for (rules, lines) in [
        (
            "level p { u = { x = 4 }, b = 1 }",
            &["u = { x = 4 } (node 1, line 2: { x = 4 })"][..],
        ),
        (
            "level p { u = { x = v }, b = 1 } where v = 4",
            &[
                "u is x (node 1, line 2: { x = v })",
                "u.x = 4 (node 4, line 2: 4)",
                "u ends (node 1, line 2: { x = v })",
            ],
        ),
        (
            "level p { u = { y = { z = v } }, b = 1 } where v = 4",
            &[
                "u is y (node 2, line 2: { y = { z = v } })",
                "u.y is z (node 1, line 2: { z = v })",
                "u.y.z = 4 (node 5, line 2: 4)",
                "u.y ends (node 1, line 2: { z = v })",
                "u ends (node 2, line 2: { y = { z = v } })",
            ],
        ),
        (
            "level p { u = { y = v }, b = 1 } where v = { z = 4 }",
            &[
                "u is y (node 1, line 2: { y = v })",
                "u.y = { z = 4 } (node 5, line 2: { z = 4 })",
                "u ends (node 1, line 2: { y = v })",
            ],
        ),
    ] {
        let told = shown(&format!("{head}{rules}"));
        let parts = told
            .lines()
            .filter_map(|line| line.strip_prefix("    part: "));
        let parts: Vec<&str> = parts.collect();
        let (last, union) = parts.split_last().expect("there are parts");
        assert_eq!(union, lines, "{rules}");
        assert!(last.starts_with("b = 1 (node "), "{rules}");
    }
}

/// "A door whose lock equals its key": by name, and by number without a rule file.
#[test]
fn equal_fields_of_one_row() {
    let told = shown(
        "predicate door: { key: Str, lock: union { open: Int, shut: Str } }
         level door { key = k, lock = { shut = k } }",
    );
    let test = "residual: lock.shut equals key (node 1, line 2: k)";
    assert!(told.contains(test), "{told}");

    let mut plan = Plan::open(&files::d1_plan()).expect("a plan");
    let path = |field, steps: &[u32]| Path {
        field,
        steps: steps.to_vec(),
    };
    plan.levels[0].narrowings += 1;
    plan.levels[0].residuals.push(Residual {
        path: path(1, &[]),
        op: ResidualOp::OwnField(path(0, &[2])),
        node: 7,
    });
    let bytes = plan.to_bytes();
    assert_eq!(Plan::open(&bytes), Ok(plan.clone()));
    let told = plan.to_string();
    assert!(
        told.contains("residual: [1] equals [0/2] (node 7)"),
        "{told}"
    );
}

/// Of a plan that no compile wrote the nodes are told though they fit nothing.
#[test]
fn nodes_that_fit_nothing_are_told() {
    let mut plan = Plan::open(&files::d1_plan()).expect("a plan");
    let level = &mut plan.levels[0];
    level.seek = Seek::Prefix(vec![3, b'k', 0], vec![1, 0, 7]);
    (level.parts, level.narrowings) = (3, 3);
    let plan = Plan::open(&plan.to_bytes()).expect("a plan");
    let rules = RuleFile::read(&files::d1()).expect("D1 reads");
    assert_eq!(
        plan.described(&rules).to_string(),
        "level 0 (p0 in r0): seek room = \"k\", (node 1: \"k\"..), (node 0: 7), (node 7)\n"
    );
}

/// A long pattern is cut off, and a deep one stays outside.
#[test]
fn long_patterns_are_cut_off() {
    let fields: Vec<String> = (0..40).map(|at| format!("f{at}: Int")).collect();
    let values: Vec<String> = (0..40).map(|at| format!("f{at} = {at}")).collect();
    let told = shown(&format!(
        "predicate p: {{ a: {{ {} }} }} level p {{ a = {{ {} }} }}",
        fields.join(", "),
        values.join(", ")
    ));
    let note =
        "(node 40, line 1: { f0 = 0, f1 = 1, f2 = 2, f3 = 3, f4 = 4, f5 = 5, f6 = 6, f7 ...)";
    assert!(told.contains(note), "{told}");

    let mut rules = text::parse("predicate p: Int level p(x) let x = field r5[0]: Int")
        .expect("it parses")
        .rules;
    for below in 0..2_000 {
        rules
            .nodes
            .push(sinalvento::rules::Node::KeyAccess(0, below));
    }
    let mut plan = Plan::open(&files::d1_plan()).expect("a plan");
    plan.levels[0].seek = Seek::Prefix(vec![], vec![2_000]);
    let told = plan.shown(&rules).to_string();
    assert!(told.contains("(node 2000: *n"), "{told}");
}

/// Each kind of seek as a sentence.
#[test]
fn sentences() {
    let mut buffers = Buffers::new();
    for (rules, sentence) in [
        ("level p { a = _ }", "every fact"),
        (
            "level p { a = 1, b = \"x\" }",
            "a = 1 (node 0: 1), b = \"x\" (node 1: \"x\")",
        ),
        ("level p { b = \"x\".. }", "every fact"),
        (
            "level q(\"x\"..)",
            "prefix \"x\" (node 0: \"x\"..) of field 0 (key)",
        ),
        (
            "level p { a = n } where n >= 3 where 9 > n",
            "a >= 3 and a < 9",
        ),
        (
            "level p { a = 1, b = t } where t < \"m\"",
            "b < \"m\" after a = 1 (node 0: 1)",
        ),
        (
            "level q(t) level p { a = 1, b = t } in r1",
            "a = 1 (node 1: 1), b = r0.key (node 2: t)",
        ),
    ] {
        let text = format!("predicate p: {{ a: Int, b: Str }} predicate q: Str {rules}");
        let rules =
            sinalvento::text::parse(&text).unwrap_or_else(|fault| panic!("{text}: {fault}"));
        let bytes = compile(&rules.rules.write(), &mut buffers).expect("it is accepted");
        let plan = Plan::open(bytes).expect("a plan");
        let told = plan.described(&rules.rules).to_string();
        assert!(told.contains(&format!("seek {sentence}\n")), "{told}");
    }
}
