//! The program: its commands, their lines and their exit status.

use std::io::Write;
use std::process::{Command, Output, Stdio};

const ORACLE: &str = env!("CARGO_BIN_EXE_oracle");

fn oracle(arguments: &[&str], input: &[u8]) -> Output {
    let mut child = Command::new(ORACLE)
        .args(arguments)
        .stdin(Stdio::piped())
        .stdout(Stdio::piped())
        .stderr(Stdio::piped())
        .spawn()
        .expect("the program was built");
    let mut stdin = child.stdin.take().expect("it was piped");
    // A command that reads nothing may have ended already.
    let _ = stdin.write_all(input);
    drop(stdin);
    child.wait_with_output().expect("it ends")
}

fn text(output: &Output) -> &str {
    std::str::from_utf8(&output.stdout).expect("the lines are plain")
}

#[test]
fn gen_prints_a_line_for_each_file() {
    let output = oracle(&["gen", "1", "200"], &[]);
    assert_eq!(output.status.code(), Some(0));
    assert_eq!(text(&output).lines().count(), 200);
}

#[test]
fn unknown_words_are_refused() {
    assert_eq!(oracle(&["plant"], &[]).status.code(), Some(2));
    assert_eq!(oracle(&["gen", "one", "2"], &[]).status.code(), Some(2));
}

#[cfg(not(fjord_bodies))]
#[test]
fn without_the_bodies_there_is_no_answer() {
    for command in [vec!["plan"], vec!["pairs", "1", "1"], vec!["fixed"]] {
        let output = oracle(&command, &[]);
        assert_eq!(output.status.code(), Some(2));
        let said = String::from_utf8_lossy(&output.stderr).into_owned();
        assert!(said.contains("without the bodies"), "{said}");
    }
}

#[cfg(fjord_bodies)]
mod with_bodies {
    use super::{ORACLE, oracle, text};

    #[test]
    fn plan_prints_one_line() {
        let empty = [0; 20];
        assert_eq!(text(&oracle(&["plan"], &empty)), "00000000000000000000\n");
        assert_eq!(text(&oracle(&["plan"], &[])), "00000000000000000000\n");
        assert_eq!(text(&oracle(&["plan"], &[0])), "refused 3\n");
        assert_eq!(text(&oracle(&["plan"], &[0; 32_769])), "refused 1\n");
    }

    #[test]
    fn pairs_keep_their_length() {
        let output = oracle(&["pairs", "2", "100", "--max", "90"], &[]);
        let lines: Vec<&str> = text(&output).lines().collect();
        assert_eq!(lines.len(), 100);
        for (file, _) in lines.iter().filter_map(|line| line.split_once(" = ")) {
            assert!(file.len() <= 180);
        }
    }

    #[test]
    fn compare_agrees_with_itself() {
        let output = oracle(&["compare", &format!("{ORACLE} plan"), "3", "150"], &[]);
        assert_eq!(output.status.code(), Some(0));
        let counts = "0 different in their nodes alone\n150 compared, 0 different\n";
        assert!(text(&output).ends_with(counts));
    }

    #[test]
    fn compare_shows_and_shrinks_what_differs() {
        let output = oracle(&["compare", "true", "3", "5"], &[]);
        assert_eq!(output.status.code(), Some(1));
        assert!(text(&output).ends_with("5 compared, 5 different\n"));
        assert!(text(&output).contains("expected"));
    }
}
