//! Document 01: 'Every answer is either accepted with its counts or a refusal'.

/// A refusal: its number in document 01's table, and its place.
#[derive(Clone, Copy, Debug, PartialEq, Eq, PartialOrd, Ord)]
pub struct Refusal {
    pub number: u32,
    pub place: usize,
}

/// An answer of the reader, the rewriter or the evaluator.
#[derive(Clone, Copy, Debug, PartialEq, Eq)]
pub enum Answer {
    Accepted { nodes: usize, signals: usize },
    Refused(Refusal),
}

impl Refusal {
    pub fn new(number: u32, place: usize) -> Refusal {
        Refusal { number, place }
    }

    /// 'first place first': the refusal with this number at the smallest of the places, if any.
    pub fn at_first(number: u32, places: impl IntoIterator<Item = usize>) -> Result<(), Refusal> {
        match places.into_iter().min() {
            Some(place) => Err(Refusal::new(number, place)),
            None => Ok(()),
        }
    }
}

impl From<Refusal> for Answer {
    fn from(refusal: Refusal) -> Answer {
        Answer::Refused(refusal)
    }
}

impl Answer {
    pub fn refused(number: u32, place: usize) -> Answer {
        Answer::Refused(Refusal::new(number, place))
    }

    pub fn is_accepted(&self) -> bool {
        matches!(self, Answer::Accepted { .. })
    }
}
