//! The options of a command: names, each with a whole number behind it.

pub struct Options<'a>(Vec<(&'a str, u64)>);

impl<'a> Options<'a> {
    /// The options of the words given, or what is wrong with them.
    pub fn of(words: &[&'a str]) -> Result<Options<'a>, String> {
        words
            .chunks(2)
            .map(|words| match *words {
                [name, number] => match number.parse() {
                    Ok(number) => Ok((name, number)),
                    Err(_) => Err(format!("{name} {number}: not a whole number")),
                },
                _ => Err(format!("{}: no number behind it", words[0])),
            })
            .collect::<Result<Vec<_>, _>>()
            .map(Options)
    }

    /// The number behind a name, or the one that stands where the option is not given.
    pub fn take(&mut self, name: &str, otherwise: u64) -> u64 {
        let at = self.0.iter().position(|&(given, _)| given == name);
        at.map_or(otherwise, |at| self.0.remove(at).1)
    }

    /// Nothing, where every option was taken, and otherwise what is wrong.
    pub fn rest(&self) -> Result<(), String> {
        match self.0.first() {
            None => Ok(()),
            Some((name, _)) => Err(format!("{name}: no such option, or given twice")),
        }
    }
}
