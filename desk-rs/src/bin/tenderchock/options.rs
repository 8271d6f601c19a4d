//! The options among the words of the command line.

use std::ffi::{OsStr, OsString};
use std::path::PathBuf;

use crate::table::{Known, Value, KNOWN};

/// The options, and the other words in their order.
#[derive(Default)]
pub struct Words {
    pub help: bool,
    pub version: bool,
    pub plain: Vec<OsString>,
    given: Vec<(&'static Known, OsString)>,
}

impl Words {
    pub fn sorted(words: &[OsString]) -> Result<Words, String> {
        let mut sorted = Words::default();
        let mut left = words.iter();
        while let Some(word) = left.next() {
            match word.to_str() {
                Some("--help" | "-h") => sorted.help = true,
                Some("--version" | "-V") => sorted.version = true,
                Some("--") => sorted.plain.extend(left.by_ref().cloned()),
                Some(option) if option.starts_with('-') && option != "-" => {
                    sorted.add(option, || left.next().cloned())?;
                }
                _ => sorted.plain.push(word.clone()),
            }
        }
        Ok(sorted)
    }

    fn add(&mut self, option: &str, next: impl FnOnce() -> Option<OsString>) -> Result<(), String> {
        let (name, after) = match option.split_once('=') {
            Some((name, after)) => (name, Some(OsString::from(after))),
            None => (option, None),
        };
        let known = KNOWN.iter().find(|known| known.name == name);
        let known = known.ok_or_else(|| format!("there is no option `{name}`"))?;
        let value = match (known.value != Value::None, after) {
            (true, Some(value)) => value,
            (true, None) => next().ok_or_else(|| format!("{name} must be followed by a word"))?,
            (false, None) => OsString::new(),
            (false, Some(_)) => return Err(format!("{name} takes no value")),
        };
        if self.value(name).is_some() {
            return Err(format!("{name} is given twice"));
        }
        self.given.push((known, value));
        Ok(())
    }

    /// Tells an option that this command doesn't take.
    pub fn allowed(&self, command: &str) -> Result<(), String> {
        let other = self
            .given
            .iter()
            .find(|(known, _)| !known.commands.contains(&command));
        match other {
            Some((known, _)) => Err(format!("{command} has no option `{}`", known.name)),
            None => Ok(()),
        }
    }

    pub fn flag(&self, name: &str) -> bool {
        self.value(name).is_some()
    }

    pub fn value(&self, name: &str) -> Option<&OsStr> {
        let given = self.given.iter().find(|(known, _)| known.name == name);
        given.map(|(_, value)| value.as_os_str())
    }

    pub fn path(&self, name: &str) -> Option<PathBuf> {
        self.value(name).map(PathBuf::from)
    }
}
