//! The numbers with which the port refuses a call. They are listed in `refusals.txt`.
use std::{error::Error, fmt};

include!(concat!(env!("OUT_DIR"), "/refusals.rs"));

impl Refusal {
    /// All of them, in order of their numbers.
    pub fn all() -> impl Iterator<Item = Refusal> {
        TABLE.iter().map(|(refusal, ..)| *refusal)
    }

    /// Its row of the table.
    fn row(self) -> &'static (Refusal, &'static str, &'static str) {
        TABLE.iter().find(|(refusal, ..)| *refusal == self).expect("every refusal has a row")
    }

    /// The refusal of a number; none for 0 and for what no function returns.
    pub fn from_number(number: u32) -> Option<Refusal> {
        Refusal::all().find(|refusal| refusal.number() == number)
    }

    /// The number.
    pub fn number(self) -> u32 {
        self as u32
    }

    /// The variant's name.
    pub fn name(self) -> &'static str {
        self.row().1
    }

    /// What is wrong, in plain words.
    pub fn sentence(self) -> &'static str {
        self.row().2
    }
}

impl fmt::Display for Refusal {
    fn fmt(&self, f: &mut fmt::Formatter) -> fmt::Result {
        write!(f, "refusal {} ({}): {}", self.number(), self.name(), self.sentence())
    }
}

impl Error for Refusal {}
