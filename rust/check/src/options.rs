//! The options of a command, names that begin with two dashes, each with its value; and how a command ends.

use std::process::ExitCode;

pub struct Options(Vec<(String, String)>);

impl Options {
    /// Those of a command that knows these names.
    pub fn parse(words: &[String], known: &[&str]) -> Result<Options, String> {
        let option = |pair: &[String]| match pair {
            [name, value] if known.contains(&name.as_str()) => Ok((name.clone(), value.clone())),
            [name, _] => Err(format!("no option {name}: there are {}", known.join(" "))),
            _ => Err(format!("{} has no value", pair[0])),
        };
        Ok(Options(words.chunks(2).map(option).collect::<Result<_, _>>()?))
    }

    pub fn text(&self, name: &str) -> Option<&str> {
        self.0.iter().find(|option| option.0 == name).map(|option| option.1.as_str())
    }

    pub fn number(&self, name: &str, default: u64) -> Result<u64, String> {
        let parsed = self.text(name).map(|value| value.parse().map_err(|error| format!("{name} {value}: {error}")));
        parsed.unwrap_or(Ok(default))
    }
}

/// Prints what a command says, or the first difference that it found, which makes its exit status 1.
pub fn exit(command: Result<String, String>) -> ExitCode {
    match command {
        Ok(said) => {
            println!("{said}");
            ExitCode::SUCCESS
        }
        Err(difference) => {
            println!("{difference}");
            ExitCode::FAILURE
        }
    }
}
