//! Refusals, in the words of document 01's two tables and, for 39, 42, 43 and the object of a request, of document 02 as well.

use core::error::Error;
use core::fmt;

/// Why a call was refused: a number of document 01 or 02 and a place. A refused call has changed nothing.
///
/// ```
/// use register::Refusal;
///
/// let refusal = Refusal { number: 32, place: 5 };
/// assert_eq!(refusal.to_string(), "refusal 32 at step 5: the ceder would be below 0");
/// ```
#[derive(Clone, Copy, Debug, PartialEq, Eq, Hash)]
pub struct Refusal {
    /// 1 to 10 come from the input, 20 to 41 from the state; 42 and 43 are of the object of a request.
    pub number: u32,
    /// The line of a file (3, 4, 6, 7; the header is 1), the step of an object, from 1 (6, 7), or the step (32 to 35); 0 for all others.
    pub place: u32,
}

impl Refusal {
    /// The sentence that belongs to the number.
    pub fn words(&self) -> &'static str {
        match self.number {
            1 => "the name isn't of the form NER_ceder_acquirer_date_category.csv",
            2 => "the body is empty, too long, or doesn't end with LF",
            3 => "line 1 isn't a header",
            4 => "header and name differ",
            5 => "the lines after the header, or the steps of the object, aren't as many as the day's steps",
            6 => {
                "the line doesn't begin with its step's two labels, each with its ';', \
                 or the object's step hasn't these labels"
            }
            7 => "the rest of the line isn't a power and ';', or the object's step hasn't a power",
            8 => "every power is 0",
            9 => "a code or category to enrol or to write has a wrong form",
            10 => {
                "a day, minute, step or power is outside its range, a contract ends before it begins, \
                 a load or a notification to write has the wrong count of steps, \
                 or a load has a power above the approved one"
            }
            11 => "the script's line has no known form, or its file can't be read",
            20 => "the ceder isn't enrolled",
            21 => "the acquirer isn't enrolled",
            22 => "the submitter, or the actor named, isn't enrolled",
            23 => "the category isn't enrolled",
            24 => "the submitter is neither party",
            25 => "the ceder is the acquirer",
            26 => "the day is before the clock's",
            27 => "the day is more than 7 days after the clock's",
            28 => "the first counted step isn't below the day's step count",
            29 => "the day is outside the contract of the acquirer",
            30 => "the day is outside the contract of the ceder",
            31 => "the ceder has no load for the category and day",
            32 => "the ceder would be below 0",
            33 => "the acquirer would be above its approved power",
            34 => "the ceder would be above its approved power",
            35 => "the acquirer would be below 0",
            36 => "every place is taken, or a lent buffer is too short",
            37 => "the actor, category or load is there already",
            38 => "the clock would go back",
            39 => "the load's day isn't after the clock's, or its first counted step isn't 0",
            40 => "there is no record of that id",
            41 => "the asker isn't a party to the record",
            42 => {
                "the text is over 8,192 bytes, or isn't the object of a request, \
                 apart from step count, labels and powers"
            }
            43 => "the origin member isn't the submitter",
            _ => "a number that the documents don't have",
        }
    }
}

impl fmt::Display for Refusal {
    fn fmt(&self, f: &mut fmt::Formatter<'_>) -> fmt::Result {
        write!(f, "refusal {}", self.number)?;
        match self.number {
            3 | 4 => write!(f, " at line {}", self.place)?,
            6 | 7 => write!(f, " at line or step {}", self.place)?,
            32..=35 => write!(f, " at step {}", self.place)?,
            _ => {}
        }
        write!(f, ": {}", self.words())
    }
}

impl Error for Refusal {}
