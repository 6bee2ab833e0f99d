//! The answers of the library below 0, as an error.
use std::fmt;

/// Why a call did nothing.
///
/// Every call tests what it needs first, so a call that answers an error changed nothing. All but
/// [`NoMemory`](Error::NoMemory) are misuse: the call doesn't fit its arguments or the state of the
/// rank ([`Phase`](crate::Phase)).
#[derive(Clone, Copy, PartialEq, Eq, Hash, Debug)]
#[non_exhaustive]
pub enum Error {
    /// An allocation failed; the call may be made again.
    NoMemory,
    /// The epoch has not begun: [`Rank::begin`](crate::Rank::begin) comes first.
    NotBegun,
    /// `begin`, but the epoch has begun already.
    Begun,
    /// `push` or `advance(false)`, but the rank said in this epoch that it is done.
    SaidDone,
    /// No rank has this number.
    NoRank,
    /// `reset`, but the epoch is not over for this rank.
    NotComplete,
    /// `Group::new` with a grid, a buffer or a number of slots that is out of range.
    BadNumbers,
    /// `Group::rank`, but the rank with this number was made before.
    Taken,
    /// `reset`, but 2^63 epochs are over and no number is left for another.
    LastEpoch,
    /// Fewer items are there to be viewed than are to be pulled.
    NotLent,
    /// A string has more than 65,535 bytes.
    TooLong,
}

/// Each error, the answer of `bale.h` that it stands for, and its text. A rank or a group of this
/// crate always has a live handle, so -7 (no handle) and -9 (a handle made twice) never come.
const ERRORS: [(Error, i64, &str); 11] = [
    // answers: checks/answers writes these lines
    (Error::NoMemory, -1, "no memory"),
    (Error::NotBegun, -2, "the epoch has not begun"),
    (Error::Begun, -3, "the epoch has begun already"),
    (Error::SaidDone, -4, "the rank said that it is done"),
    (Error::NoRank, -5, "no rank has this number"),
    (Error::NotComplete, -6, "the epoch isn't over"),
    (Error::BadNumbers, -8, "no grid, no capacity or no number of slots"),
    (Error::Taken, -10, "the rank was made before"),
    (Error::LastEpoch, -11, "no number is left for another epoch"),
    (Error::NotLent, -12, "a view lends fewer items"),
    (Error::TooLong, -13, "a string has more than 65,535 bytes"),
    // end of answers
];

/// An answer from 0 up, or the error that an answer below 0 stands for.
pub(crate) fn checked(answer: i64) -> Result<i64, Error> {
    if answer >= 0 {
        return Ok(answer);
    }
    let row = ERRORS.iter().find(|(_, code, _)| *code == answer);
    Err(row.unwrap_or_else(|| panic!("the library is of another version: it answered {answer}")).0)
}

impl fmt::Display for Error {
    fn fmt(&self, f: &mut fmt::Formatter<'_>) -> fmt::Result {
        let row = ERRORS.iter().find(|(error, ..)| error == self);
        f.write_str(row.expect("each error has a row").2)
    }
}

impl std::error::Error for Error {}

#[cfg(test)]
mod tests {
    use super::*;

    #[test]
    fn answers_from_zero_up_are_kept() {
        assert_eq!(checked(0), Ok(0));
        assert_eq!(checked(1 << 40), Ok(1 << 40));
    }

    #[test]
    fn each_error_has_one_answer_and_a_text_of_its_own() {
        for (k, (error, answer, text)) in ERRORS.into_iter().enumerate() {
            assert_eq!(checked(answer), Err(error));
            assert_eq!(error.to_string(), text);
            assert!(ERRORS[..k].iter().all(|(e, a, t)| *e != error && *a != answer && *t != text));
        }
    }

    #[test]
    #[should_panic(expected = "another version: it answered -14")]
    fn an_unknown_answer_is_no_success() {
        let _ = checked(-14);
    }
}
