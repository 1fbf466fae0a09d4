use std::fmt;

/// A refusal: the number of the rule, and the place. It prints the rule in words.
///
/// ```
/// let refusal = bagwezin::read(&[6, 0, 1, 0, 9, 0]).unwrap_err();
/// assert_eq!((refusal.number, refusal.place), (7, 0));
/// assert_eq!(refusal.to_string(), "refused 7 at byte 0: a field of the record breaks a rule");
/// ```
#[derive(Clone, Copy, Debug, PartialEq, Eq, Hash)]
pub struct Refusal {
    /// The rule, 1 to 18.
    pub number: u32,
    /// The record's offset in bytes for 3 to 7 and 10 to 13, the node for 14, else 0.
    pub place: u32,
}

impl Refusal {
    /// The rule in words.
    pub fn text(&self) -> &'static str {
        match self.number {
            1 => "an area is shorter than stated",
            2 => "the network has no bytes",
            3 => "a network record's length is broken",
            4 => "the network record has a kind outside 1 to 10",
            5 => "it would be the 33rd node",
            6 => "the record's length is not its kind's, or a count is out of range",
            7 => "a field of the record breaks a rule",
            8 => "the areas are not of good form",
            9 => "the batch number is at its end",
            10 => "an event record's length is broken",
            11 => "the event's kind is neither 32 nor 33",
            12 => "it is the 65th event",
            13 => "the event names no table, or its length does not fit",
            14 => "after the batch a node has more than 64 rows",
            15 => "the node does not exist or has no watch",
            16 => "the report's buffer is too short",
            17 => "the pending area is too short or not of good form, or folding would take a node above 64 rows",
            18 => "nothing is pending",
            _ => "not a rule",
        }
    }
}

impl fmt::Display for Refusal {
    fn fmt(&self, f: &mut fmt::Formatter) -> fmt::Result {
        let (number, place, text) = (self.number, self.place, self.text());
        match number {
            3..=7 | 10..=13 => write!(f, "refused {number} at byte {place}: {text}"),
            14 => write!(f, "refused {number} at node {place}: {text}"),
            _ => write!(f, "refused {number}: {text}"),
        }
    }
}

impl std::error::Error for Refusal {}

/// The value of an answer of [`crate::raw`], or its refusal.
pub fn outcome(answer: u64) -> Result<u32, Refusal> {
    match (answer >> 32) as u32 {
        0 => Ok(answer as u32),
        number => Err(Refusal { number, place: answer as u32 }),
    }
}
