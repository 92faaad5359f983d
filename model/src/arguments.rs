//! The words after a command: options with a value, and options without one.

use model::generate::Kind;

pub struct Arguments {
    options: Vec<(String, String)>,
    flags: Vec<String>,
}

impl Arguments {
    /// Reads the words of a command that knows these options and flags.
    pub fn read(words: &[String], options: &[&str], flags: &[&str]) -> Result<Arguments, String> {
        let mut read = Arguments {
            options: Vec::new(),
            flags: Vec::new(),
        };
        let mut words = words.iter();
        while let Some(word) = words.next() {
            let name = word
                .strip_prefix("--")
                .ok_or(format!("{word} is no option"))?;
            if read.text(name).is_some() || read.flag(name) {
                return Err(format!("{word} is given twice"));
            }
            if flags.contains(&name) {
                read.flags.push(name.into());
            } else if options.contains(&name) {
                let value = words.next().ok_or(format!("{word} needs a value"))?;
                read.options.push((name.into(), value.clone()));
            } else {
                return Err(format!("there is no option {word} here"));
            }
        }
        Ok(read)
    }

    pub fn flag(&self, name: &str) -> bool {
        self.flags.iter().any(|flag| flag == name)
    }

    pub fn text(&self, name: &str) -> Option<&str> {
        let found = self.options.iter().find(|(option, _)| option == name);
        found.map(|(_, value)| value.as_str())
    }

    /// The number of an option, from `low` to `high`, if it is given.
    pub fn number(&self, name: &str, low: u64, high: u64) -> Result<Option<u64>, String> {
        let Some(text) = self.text(name) else {
            return Ok(None);
        };
        match text.parse() {
            Ok(number) if (low..=high).contains(&number) => Ok(Some(number)),
            _ => Err(format!(
                "--{name} needs a number from {low} to {high}, not {text}"
            )),
        }
    }

    pub fn kind(&self) -> Result<Option<Kind>, String> {
        let Some(name) = self.text("kind") else {
            return Ok(None);
        };
        match Kind::named(name) {
            Some(kind) => Ok(Some(kind)),
            None => Err(format!("there is no kind {name}")),
        }
    }
}

#[cfg(test)]
mod tests {
    use super::*;

    fn read(line: &str) -> Result<Arguments, String> {
        let words: Vec<_> = line.split_whitespace().map(String::from).collect();
        Arguments::read(&words, &["seed", "kind", "save"], &["all"])
    }

    #[test]
    fn options_and_flags() {
        let read = read("--seed 12 --all --kind living").expect("good words");
        assert_eq!(read.number("seed", 0, 12), Ok(Some(12)));
        assert_eq!(read.kind(), Ok(Some(Kind::Living)));
        assert_eq!((read.flag("all"), read.text("save")), (true, None));
        assert!(read.number("seed", 0, 11).is_err());
    }

    #[test]
    fn words_that_are_refused() {
        for line in [
            "seed 1",
            "--seed",
            "--other 1",
            "--all --all",
            "--seed 1 --seed 1",
        ] {
            assert!(read(line).is_err(), "{line}");
        }
        assert!(read("--kind lively").expect("good words").kind().is_err());
        assert!(read("--seed x")
            .expect("good words")
            .number("seed", 0, 9)
            .is_err());
    }
}
