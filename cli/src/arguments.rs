//! What the command is asked for.

pub const USAGE: &str = "\
usage: sinalvento build ROOM.rules [-o FILE]   text to a rule file
       sinalvento show FILE                    a rule file as text
       sinalvento plan [--brief | --hex | --json] [-o PLAN] FILE
                                               its plan, for people or programs
       sinalvento open [--brief | --json] PLAN [FILE]
                                               a plan's bytes the same way, with the names of FILE
       sinalvento explain FILE                 where and why it is refused, or what its plan reports
       sinalvento --help | --version

A FILE whose name ends in .rules is text, any other one is bytes; --text and
--bytes say it of any FILE. FILE may be -, standard input, which is bytes unless
--text is given; what `build` reads is always text. `build` writes ROOM.bin
beside ROOM.rules, or FILE, or to standard output (-o -, or where it reads there).
How rules are written as text: docs/TEXT.md. `plan -o` writes the plan's bytes, which
`open` reads (PLAN may be -); FILE is the rule file that the plan is of. --brief has a
sentence for each level.

Plans, texts and explanations go to standard output, everything else to standard
error. Exit status: 0 accepted, 1 refused or a fault in the text, 2 a word of the
command is not understood or a file cannot be read or written.
";

/// A whole command line.
#[derive(Debug, PartialEq, Eq)]
pub enum Arguments {
    Help,
    Version,
    Command(Command),
}

/// What is to be done, and with which file.
#[derive(Debug, PartialEq, Eq)]
pub struct Command {
    pub verb: Verb,
    pub file: String,
    pub form: Form,
    /// Where `build` and `plan` write.
    pub output: Option<String>,
    /// The rule file beside the plan that `open` opens.
    pub rules: Option<String>,
}

#[derive(Debug, Clone, Copy, PartialEq, Eq)]
pub enum Verb {
    Build,
    Show,
    Plan(Manner),
    Open(Manner),
    Explain,
}

/// How a plan is written.
#[derive(Debug, Clone, Copy, PartialEq, Eq)]
pub enum Manner {
    Readable,
    Brief,
    Hex,
    Json,
}

/// What a file holds.
#[derive(Debug, Clone, Copy, PartialEq, Eq)]
pub enum Form {
    ByName,
    Text,
    Bytes,
}

/// The arguments, or what is wrong with them.
pub fn read(words: &[String]) -> Result<Arguments, String> {
    let mut words = words.iter().map(String::as_str);
    let verb = match words.next() {
        None => {
            return Err(String::from(
                "build, show, plan, open or explain is expected",
            ));
        }
        Some("--help" | "-h" | "help") => return Ok(Arguments::Help),
        Some("--version" | "-V") => return Ok(Arguments::Version),
        Some("build") => Verb::Build,
        Some("show") => Verb::Show,
        Some("plan") => Verb::Plan(Manner::Readable),
        Some("open") => Verb::Open(Manner::Readable),
        Some("explain") => Verb::Explain,
        Some(word) => return Err(format!("there is no command `{word}`")),
    };
    let mut command = Command {
        verb,
        file: String::new(),
        form: Form::ByName,
        output: None,
        rules: None,
    };
    let mut file = None;
    while let Some(word) = words.next() {
        match (command.verb, word) {
            (_, "--help" | "-h") => return Ok(Arguments::Help),
            (Verb::Build | Verb::Plan(_), "-o") => {
                let name = words.next().ok_or("-o needs a file's name")?;
                command.output = Some(String::from(name));
            }
            (Verb::Plan(_), "--hex") => command.verb = Verb::Plan(Manner::Hex),
            (Verb::Plan(_), "--json") => command.verb = Verb::Plan(Manner::Json),
            (Verb::Plan(_), "--brief") => command.verb = Verb::Plan(Manner::Brief),
            (Verb::Open(_), "--json") => command.verb = Verb::Open(Manner::Json),
            (Verb::Open(_), "--brief") => command.verb = Verb::Open(Manner::Brief),
            (_, "--text") => command.form = Form::Text,
            (_, "--bytes") => command.form = Form::Bytes,
            (_, option) if option.starts_with('-') && option != "-" => {
                return Err(format!("`{option}` is not understood here"));
            }
            (_, name) if file.is_none() => file = Some(String::from(name)),
            (Verb::Open(_), "-") if file.as_deref() == Some("-") => {
                return Err(String::from("standard input is one file, not two"));
            }
            (Verb::Open(_), name) if command.rules.is_none() => {
                command.rules = Some(String::from(name));
            }
            (_, name) => return Err(format!("there are files enough, and `{name}` is another")),
        }
    }
    command.file = file.ok_or("a file's name is expected, or - for standard input")?;
    Ok(Arguments::Command(command))
}

#[cfg(test)]
mod tests {
    use super::*;

    fn of(line: &str) -> Result<Arguments, String> {
        let words: Vec<String> = line.split_whitespace().map(String::from).collect();
        read(&words)
    }

    #[test]
    fn commands_are_read() {
        let Ok(Arguments::Command(command)) = of("plan --json --text -") else {
            panic!("it is a command");
        };
        assert_eq!(command.verb, Verb::Plan(Manner::Json));
        assert_eq!((command.file.as_str(), command.form), ("-", Form::Text));
        assert_eq!(of("--help"), Ok(Arguments::Help));
        assert_eq!(of("show --help"), Ok(Arguments::Help));
        assert_eq!(of("--version"), Ok(Arguments::Version));
    }

    #[test]
    fn the_rest_is_told() {
        for (line, why) in [
            ("", "build, show, plan, open or explain is expected"),
            ("shwo x", "there is no command `shwo`"),
            ("show", "a file's name is expected, or - for standard input"),
            ("show --hex x", "`--hex` is not understood here"),
            ("build x -o", "-o needs a file's name"),
            ("show x y", "there are files enough, and `y` is another"),
            ("open x y z", "there are files enough, and `z` is another"),
            ("open - -", "standard input is one file, not two"),
            ("open --hex x", "`--hex` is not understood here"),
        ] {
            assert_eq!(of(line), Err(String::from(why)));
        }
    }
}
