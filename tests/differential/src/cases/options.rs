//! The command line: how long a run is, its seed, and whether the run is of the driver itself.

const DEFAULT_SEED: u64 = 0x5838;

#[derive(Clone, Copy, Debug, Eq, PartialEq)]
pub enum Length {
    Short,
    Long,
}

impl Length {
    /// The number of rounds that goes with this length.
    #[must_use]
    pub fn rounds(self, short: usize, long: usize) -> usize {
        match self {
            Self::Short => short,
            Self::Long => long,
        }
    }
}

#[derive(Clone, Copy, Debug)]
pub struct Options {
    pub length: Length,
    pub seed: u64,
    pub self_check: bool,
}

impl Options {
    /// # Errors
    ///
    /// Names the first argument that can't be used.
    pub fn parse(mut arguments: impl Iterator<Item = String>) -> Result<Self, String> {
        let mut options = Self {
            length: Length::Short,
            seed: DEFAULT_SEED,
            self_check: false,
        };
        while let Some(argument) = arguments.next() {
            match argument.as_str() {
                "--short" => options.length = Length::Short,
                "--long" => options.length = Length::Long,
                "--self-check" => options.self_check = true,
                "--seed" => {
                    let seed = arguments.next().ok_or("--seed wants a number")?;
                    options.seed = seed
                        .parse()
                        .map_err(|_| format!("--seed {seed}: not a number below 2^64"))?;
                }
                _ => return Err(format!("{argument}: unknown argument")),
            }
        }
        Ok(options)
    }
}
