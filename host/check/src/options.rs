//! What the caller of the check asks for.

/// The seed, unless another is asked for.
const SEED: u64 = 0x7B1C_2016_25F8_3215;

/// The options of `check`.
#[derive(Clone, Debug, PartialEq, Eq)]
pub struct Options {
    /// What all the random batches start from.
    pub seed: u64,
    /// Seconds of further batches after the others.
    pub soak: u64,
    /// Only the checks whose name begins so.
    pub only: Option<String>,
    /// Calls between two comparisons of the whole array.
    pub every: Option<u64>,
    /// Divides the number of random calls, for a first look.
    pub part: u64,
}

impl Default for Options {
    fn default() -> Options {
        Options {
            seed: SEED,
            soak: 0,
            only: None,
            every: None,
            part: 1,
        }
    }
}

/// How to call the check.
pub const USAGE: &str = "\
check [--seed N] [--soak SECONDS] [--only NAME] [--every N] [--part N]
  --seed N        another seed, decimal or 0x..
  --soak SECONDS  further random batches for so long, after all else
  --only NAME     only the checks whose names begin so, as `edges` or `random/chained/17`
  --every N       compare the whole array after every N calls; 1 finds the very call
  --part N        only one in N of the random batches";

impl Options {
    /// Reads the arguments, without the program's name.
    ///
    /// # Errors
    ///
    /// Says which argument is not understood.
    pub fn parse(mut arguments: impl Iterator<Item = String>) -> Result<Options, String> {
        let mut options = Options::default();
        while let Some(name) = arguments.next() {
            let value = arguments
                .next()
                .ok_or_else(|| format!("{name}: no value"))?;
            match name.as_str() {
                "--seed" => options.seed = number(&value)?,
                "--soak" => options.soak = number(&value)?,
                "--only" => options.only = Some(value),
                "--every" => options.every = Some(number(&value)?.max(1)),
                "--part" => options.part = number(&value)?.max(1),
                _ => return Err(format!("{name}: not understood")),
            }
        }
        Ok(options)
    }

    /// Whether everything is run, so that everything must be reached.
    #[must_use]
    pub fn complete(&self) -> bool {
        self.only.is_none() && self.part == 1
    }

    /// Whether a check of this name, or one below it, is asked for.
    #[must_use]
    pub fn wants(&self, name: &str) -> bool {
        match &self.only {
            None => true,
            Some(only) => name.starts_with(only.as_str()) || only.starts_with(&format!("{name}/")),
        }
    }
}

fn number(text: &str) -> Result<u64, String> {
    let parsed = match text.strip_prefix("0x") {
        Some(digits) => u64::from_str_radix(digits, 16),
        None => text.parse(),
    };
    parsed.map_err(|_| format!("{text}: no number"))
}

#[cfg(test)]
mod tests {
    use super::*;

    fn parse(line: &str) -> Result<Options, String> {
        Options::parse(line.split_whitespace().map(String::from))
    }

    #[test]
    fn arguments_are_read() {
        let options = parse("--seed 0x1F --soak 60 --only random/chained/17").unwrap();
        assert_eq!((options.seed, options.soak), (31, 60));
        assert!(options.wants("random/chained/17") && options.wants("random/chained"));
        assert!(!options.wants("edges/n") && !options.complete());
        assert!(parse("").unwrap().complete());
        assert!(
            parse("--seed").is_err() && parse("--speed 1").is_err() && parse("--seed x").is_err()
        );
    }
}
