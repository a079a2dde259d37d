//! A refusal: its number in the paper's table and its place.

#[derive(Clone, Copy, Debug, PartialEq, Eq)]
pub struct Refusal {
    pub number: u8,
    pub place: usize,
}

impl Refusal {
    /// The one line that is printed for it.
    pub fn line(&self) -> String {
        format!("refused {} at {}\n", self.number, self.place)
    }
}

/// Refuses with this number and place when `applies` holds.
pub fn refuse_if(applies: bool, number: u8, place: usize) -> Result<(), Refusal> {
    if applies {
        Err(Refusal { number, place })
    } else {
        Ok(())
    }
}
