//! Answers of the library, as the refusals of a store and as those of a cache.

use crate::sys;
use std::fmt;

/// Writes what makes an `Error` of an answer, `done` and `telling`, and what tells the number and the text of one. Each
/// row has a variant of the `Error` beside it, made with what it holds, and its number by the header's name. `set` gives
/// a name to what a call has set where it is refused, for the rows; the variant `other` holds any other number.
macro_rules! answers {
    (
        set: $set:ident, other: $other:ident,
        $($variant:ident $(($why:expr))? $({ $field:ident $(: $value:expr)? })? = $number:ident,)*
    ) => {
        impl Error {
            /// The number of the answer, as the header has it.
            pub fn number(&self) -> i32 {
                match self {
                    $(Error::$variant { .. } => crate::sys::$number,)*
                    Error::$other(number) => *number,
                }
            }

            /// The refusal of this number. It is made right behind the call, as long as errno says why the system
            /// refused one.
            fn of(answer: i32, $set: u32) -> Error {
                match answer {
                    $(crate::sys::$number => Error::$variant $(($why))? $({ $field $(: $value)? })?,)*
                    _ => Error::$other(answer),
                }
            }
        }

        /// What a call comes to that sets nothing where it is refused.
        pub(crate) fn done(answer: i32) -> Result<()> {
            telling(answer, u32::MAX)
        }

        /// What a call comes to, with what it has set where it is refused, or else `u32::MAX`.
        pub(crate) fn telling(answer: i32, set: u32) -> Result<()> {
            match answer {
                crate::sys::FSTCH_DONE => Ok(()),
                _ => Err(Error::of(answer, set)),
            }
        }

        impl std::fmt::Display for Error {
            fn fmt(&self, out: &mut std::fmt::Formatter<'_>) -> std::fmt::Result {
                crate::answers::write_text(self.number(), out)
            }
        }
    };
}
pub(crate) use answers;

/// Writes the library's text of an answer.
pub(crate) fn write_text(answer: i32, out: &mut fmt::Formatter<'_>) -> fmt::Result {
    let mut text = [0_u8; sys::TEXT_ROOM];
    // SAFETY: the buffer is as long as is said. The call takes any number, and copies as much of its text as fits.
    let length = unsafe { sys::fstch_error_text(answer, text.as_mut_ptr().cast(), sys::TEXT_ROOM) };
    out.pad(&String::from_utf8_lossy(text.get(..length).unwrap_or(&text)))
}
