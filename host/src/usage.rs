//! The help, from one text: a part for each command behind a line `== NAME`.
//! The script ./feyqoolad shows the same parts without the program.

use std::ffi::OsString;

const TEXT: &str = include_str!("usage.txt");

/// The part with this name, if there is one.
pub fn part(name: &str) -> Option<&'static str> {
    TEXT.split("== ").find_map(|part| {
        let (of, text) = part.split_once('\n')?;
        (of == name).then_some(text)
    })
}

/// The name of the part that these words ask for: all of it, the version, or a
/// command. Behind `--` nothing is an option.
pub fn asked(given: &[OsString]) -> Option<&str> {
    let word = |at: usize| given.get(at).and_then(|word| word.to_str());
    match word(0) {
        None if given.is_empty() => Some("help"),
        Some("-h" | "--help") => Some("help"),
        Some("-V" | "--version") => Some("version"),
        Some("help") => word(1).or(Some("help")),
        first => {
            let mut options = given.iter().take_while(|word| *word != "--");
            options.any(|word| word == "--help").then_some(first?)
        }
    }
}

#[cfg(test)]
mod tests {
    use super::*;
    use crate::command::OPERATIONS;

    fn words(text: &str) -> Vec<OsString> {
        text.split_whitespace().map(OsString::from).collect()
    }

    #[test]
    fn each_command_has_a_part() {
        let others = [
            "help", "version", "serve", "show", "sheet", "encode", "decode",
        ];
        let commands = OPERATIONS.iter().map(|one| one.word);
        for name in commands.chain(others) {
            assert!(part(name).is_some(), "{name}");
        }
        assert_eq!(part("nothing"), None);
        assert_eq!(part(""), None);
    }

    #[test]
    fn help_is_asked_for_in_many_ways() {
        for (given, wanted) in [
            ("", Some("help")),
            ("-h", Some("help")),
            ("help", Some("help")),
            ("help put", Some("put")),
            ("put --help", Some("put")),
            ("put a b --help", Some("put")),
            ("put a -- --help", None),
            ("put a b", None),
            ("-V", Some("version")),
            ("replaceifunmodified a b --version 1", None),
        ] {
            assert_eq!(asked(&words(given)), wanted, "{given}");
        }
    }
}
