//! The words of a command line: words in order, and options by name.

use std::ffi::{OsStr, OsString};
use std::ops::RangeInclusive;
use std::os::unix::ffi::OsStrExt;

use crate::failure::Failure;

/// The words of a command and the options among them.
pub struct Words {
    words: Vec<OsString>,
    options: Vec<(String, OsString)>,
    flags: Vec<String>,
}

impl Words {
    /// Parts the words. `with` are the options that have a value, behind them or
    /// behind `=`, `bare` those that have none; behind `--` nothing is an option.
    pub fn part(given: &[OsString], with: &[&str], bare: &[&str]) -> Result<Words, Failure> {
        let mut parted = Words {
            words: Vec::new(),
            options: Vec::new(),
            flags: Vec::new(),
        };
        let mut rest = given.iter();
        while let Some(word) = rest.next() {
            let Some((name, value)) = option(word) else {
                parted.words.push(word.clone());
                continue;
            };
            match (name, value) {
                ("", None) => parted.words.extend(rest.by_ref().cloned()),
                (name, None) if bare.contains(&name) => parted.flags.push(name.to_string()),
                (name, Some(_)) if bare.contains(&name) => {
                    return Err(format!("--{name} takes no value"))
                }
                (name, value) if with.contains(&name) => {
                    let value = value.or_else(|| rest.next().map(OsString::as_os_str));
                    let value = value.ok_or(format!("--{name} needs a value"))?;
                    parted
                        .options
                        .push((name.to_string(), value.to_os_string()));
                }
                (name, _) => return Err(format!("there is no option --{name} here")),
            }
        }
        Ok(parted)
    }

    pub fn words(&self) -> &[OsString] {
        &self.words
    }

    pub fn has(&self, name: &str) -> bool {
        self.flags.iter().any(|flag| flag == name)
    }

    /// The option's value as text; the last one counts.
    pub fn text(&self, name: &str) -> Result<Option<&str>, Failure> {
        let Some((_, value)) = self.options.iter().rev().find(|(is, _)| is == name) else {
            return Ok(None);
        };
        let text = value.to_str().ok_or(format!("--{name} is not a text"))?;
        Ok(Some(text))
    }

    /// The option's value as a number of this range, in digits alone.
    pub fn number(&self, name: &str, range: RangeInclusive<u64>) -> Result<Option<u64>, Failure> {
        let Some(text) = self.text(name)? else {
            return Ok(None);
        };
        let digits = text.bytes().all(|byte| byte.is_ascii_digit());
        match text.parse() {
            Ok(number) if digits && range.contains(&number) => Ok(Some(number)),
            _ => Err(format!(
                "--{name} has to be a number from {} to {}",
                range.start(),
                range.end()
            )),
        }
    }
}

/// The name of an option, and its value where one stands behind `=`.
fn option(word: &OsStr) -> Option<(&str, Option<&OsStr>)> {
    let rest = word.as_bytes().strip_prefix(b"--")?;
    let mut parts = rest.splitn(2, |byte| *byte == b'=');
    let name = std::str::from_utf8(parts.next()?).ok()?;
    Some((name, parts.next().map(OsStr::from_bytes)))
}

#[cfg(test)]
mod tests {
    use super::*;

    fn part(text: &str) -> Result<Words, Failure> {
        let given: Vec<OsString> = text.split_whitespace().map(OsString::from).collect();
        Words::part(&given, &["to"], &["json"])
    }

    #[test]
    fn a_value_stands_behind_its_option_or_behind_the_sign() {
        for (given, to) in [
            ("a --to x b", Some("x")),
            ("--to=x a b", Some("x")),
            ("a --to= b", Some("")),
            ("a b --to=x=y --json", Some("x=y")),
            ("a b --json", None),
            ("a --to=1 --to 2 b", Some("2")),
        ] {
            let words = part(given).unwrap();
            assert_eq!(words.text("to").unwrap(), to, "{given}");
            assert_eq!(words.words(), ["a", "b"], "{given}");
            assert_eq!(words.has("json"), given.contains("--json"), "{given}");
        }
        assert_eq!(part("-- --to=x --json").unwrap().words().len(), 2);
        for (given, wanted) in [
            ("--json=yes", "--json takes no value"),
            ("a --to", "--to needs a value"),
            ("--what=1", "there is no option --what here"),
            ("--=1", "there is no option -- here"),
        ] {
            assert_eq!(part(given).err().as_deref(), Some(wanted), "{given}");
        }
    }
}
