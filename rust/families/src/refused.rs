//! A refusal: its number, its place and its sentence.

use std::error::Error;
use std::fmt;

/// Why a call gave no answer, and at which byte of the sheet or dump (0
/// where the cause lies in neither).
#[derive(Clone, Copy, Debug, PartialEq, Eq)]
pub struct Refused {
    pub number: u8,
    pub place: usize,
}

const SENTENCES: [&str; 24] = [
    "mark: under 3 bytes or not PLS",
    "version: under 5 bytes or not 1",
    "length: under 8 bytes or not 8 + 8p + 4m; \
     from the writer: name bytes not in eights, or lists of unequal length",
    "p is 0 or above 64",
    "a name is not one or more bytes 33 to 126, then spaces to the end",
    "a part number not below p, or lower not below higher",
    "weight 0",
    "weight above the link before",
    "pair given before",
    "k outside 2 to 6",
    "tables of unequal length, or a clique list of unequal lengths",
    "a state whose k, p or used slots lie outside their ranges, \
     or a used joining entry above its slot number",
    "a set that is no k-clique of the whole sheet; \
     for a mean link weight: of the links of weight t or more",
    "a name asked for a part not below p",
    "too few slots, or a clique list too short",
    "an output is shorter than its part of the answer",
    "a dump's mark is not PRD, its version not 1, or its length not 8 + 8p + 8n",
    "a dump's row has a part not below p",
    "a state with no link to take back",
    "a journal of other than 2,016 entries",
    "a name equal to an earlier one",
    "a product with k above 4",
    "a threshold that is not a number",
    "tree lines that are not whole, more than 999,999, \
     or have a part that the sheet lacks",
];

impl Refused {
    /// The cause in words.
    pub fn sentence(&self) -> &'static str {
        usize::from(self.number)
            .checked_sub(1)
            .and_then(|index| SENTENCES.get(index).copied())
            .unwrap_or("a number without a meaning")
    }
}

impl fmt::Display for Refused {
    fn fmt(&self, f: &mut fmt::Formatter<'_>) -> fmt::Result {
        let Refused { number, place } = self;
        write!(f, "refused {number} at {place}: {}", self.sentence())
    }
}

impl Error for Refused {}
