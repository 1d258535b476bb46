//! Options of the form `--name value`.

use std::collections::BTreeMap;
use std::path::PathBuf;

#[derive(Debug)]
pub struct Options(BTreeMap<String, String>);

impl Options {
    /// Reads the options; each has to be one of `known`, with a value, and comes once.
    pub fn parse(arguments: &[String], known: &[&str]) -> Result<Options, String> {
        let mut options = BTreeMap::new();
        for pair in arguments.chunks(2) {
            let name = pair[0].as_str();
            if !known.contains(&name) {
                return Err(format!("unknown option {name}; known are {}", known.join(", ")));
            }
            let value = pair.get(1).ok_or(format!("{name} needs a value"))?;
            if options.insert(name.to_string(), value.clone()).is_some() {
                return Err(format!("{name} is given twice"));
            }
        }
        Ok(Options(options))
    }

    pub fn text(&self, name: &str) -> Option<&str> {
        self.0.get(name).map(String::as_str)
    }

    pub fn number(&self, name: &str, default: u64) -> Result<u64, String> {
        let parse = |text: &str| {
            text.parse().map_err(|_| format!("{name} needs a whole number, not {text:?}"))
        };
        self.text(name).map_or(Ok(default), parse)
    }

    pub fn path(&self, name: &str) -> Result<PathBuf, String> {
        self.text(name).map(PathBuf::from).ok_or(format!("{name} is missing"))
    }

    /// The full path of something that is there.
    pub fn existing(&self, name: &str) -> Result<PathBuf, String> {
        let path = self.path(name)?;
        path.canonicalize().map_err(|error| format!("{name}: {}: {error}", path.display()))
    }
}
