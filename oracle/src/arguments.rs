//! What comes after the subcommand: plain arguments, and options with a value each.

pub struct Arguments {
    plain: Vec<String>,
    options: Vec<(String, String)>,
}

impl Arguments {
    pub fn parse(texts: &[String]) -> Result<Self, String> {
        let mut arguments = Self { plain: Vec::new(), options: Vec::new() };
        let mut texts = texts.iter();
        while let Some(text) = texts.next() {
            match text.strip_prefix("--") {
                Some(name) => {
                    let value = texts.next().ok_or(format!("--{name} wants a value"))?;
                    arguments.options.push((name.to_string(), value.clone()));
                }
                None => arguments.plain.push(text.clone()),
            }
        }
        Ok(arguments)
    }

    /// Refuses more or fewer plain arguments than `count`, and options that are not `known`.
    pub fn expect(&self, count: usize, known: &[&str]) -> Result<(), String> {
        if self.plain.len() != count {
            return Err(format!("{count} arguments wanted, {} given", self.plain.len()));
        }
        match self.options.iter().find(|(name, _)| !known.contains(&name.as_str())) {
            Some((name, _)) => Err(format!("no option --{name} here")),
            None => Ok(()),
        }
    }

    pub fn plain(&self, index: usize) -> &str {
        &self.plain[index]
    }

    pub fn option(&self, name: &str) -> Option<&str> {
        self.options.iter().find(|(known, _)| known == name).map(|(_, value)| value.as_str())
    }

    pub fn wanted(&self, name: &str) -> Result<&str, String> {
        self.option(name).ok_or(format!("--{name} is wanted"))
    }

    pub fn number(&self, name: &str, default: u64) -> Result<u64, String> {
        match self.option(name) {
            Some(text) => text.parse().map_err(|error| format!("--{name} {text}: {error}")),
            None => Ok(default),
        }
    }
}
