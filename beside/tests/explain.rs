//! What the crate's ordinary Rust says of drawn files, beside the exported function.

use oracle::draw;
use sinalvento::{Buffers, Explanation, Plan, RuleFile, compile, explain, text};

/// The refusal's number and the plan's length, by the function and by `explain`;
/// the rule file as text and back; the plan opened and written back.
#[test]
fn drawn_files_are_explained() {
    let mut buffers = Buffers::new();
    for (index, file) in draw::files(16, 4_000).enumerate() {
        let given = match compile(&file, &mut buffers) {
            Ok(plan) => {
                assert_eq!(
                    Plan::open(plan).map(|it| it.to_bytes()).as_deref(),
                    Ok(plan),
                    "{index}"
                );
                (0, plan.len())
            }
            Err(refusal) => (refusal.number(), 0),
        };
        let explained = match explain(&file) {
            Explanation::Accepted(accepted) => (0, accepted.length),
            Explanation::Refused(fault) => (fault.refusal.number(), 0),
        };
        assert_eq!(explained, given, "file {index}");
        if let Ok(rules) = RuleFile::read(&file) {
            let written = text::print(&rules);
            let parsed =
                text::parse(&written).unwrap_or_else(|fault| panic!("file {index}: {fault}"));
            let bytes = if file.is_empty() { &[0; 20][..] } else { &file };
            assert_eq!(parsed.rules.write(), bytes, "file {index}");
            assert_eq!(text::print(&parsed.rules), written, "file {index}");
        }
    }
}
