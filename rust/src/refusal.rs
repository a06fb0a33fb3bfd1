//! Refusals: why a call gave no result.
use std::fmt;

/// Makes the enum of a table: for each refusal its number, its word, under which condition it is given, and what to do about it.
macro_rules! refusals {
    ($($(#[$doc:meta])* $name:ident = $number:literal, $word:literal, $condition:literal, $advice:literal;)*) => {
        /// Why a call gave no result.
        #[derive(Clone, Copy, Debug, PartialEq, Eq, Hash, PartialOrd, Ord)]
        pub enum Refusal {
            $($(#[$doc])* $name = $number,)*
        }

        impl Refusal {
            /// All refusals, in the order of their numbers.
            pub const ALL: [Refusal; [$(Refusal::$name),*].len()] = [$(Refusal::$name),*];

            /// The word of the refusal, as the specification has it.
            pub const fn word(self) -> &'static str {
                match self {
                    $(Refusal::$name => $word,)*
                }
            }

            /// Under which condition the refusal is given.
            pub const fn condition(self) -> &'static str {
                match self {
                    $(Refusal::$name => $condition,)*
                }
            }

            /// What to do about the refusal, as the command says it; no part of the interface.
            #[doc(hidden)]
            pub const fn advice(self) -> &'static str {
                match self {
                    $(Refusal::$name => $advice,)*
                }
            }
        }
    };
}

refusals! {
    /// 1: bytes run out in a record, in a body, or before GO is read.
    Truncated = 1, "short",
        "bytes run out in a record, in a body, or before GO is read",
        "get the file anew; it was cut off, or a length in it is wrong";
    /// 2: a mark is unknown or out of its turn.
    UnexpectedMark = 2, "mark",
        "a mark is unknown or out of its turn",
        "see whether it is a rule file, which begins with TY; if so, a count before the mark is wrong";
    /// 3: a count, length, D, S, file size, nesting or view is beyond its limit.
    OutOfRange = 3, "range",
        "a count, length, D, S, the file's size, nesting or view is beyond its limit",
        "split the rule, or lower D or S";
    /// 4: a type, constructor, function or variable number does not exist.
    UnknownNumber = 4, "stranger",
        "a type, constructor, function or variable number does not exist",
        "build the file anew from its text";
    /// 5: an expression byte above 5, or an alternative byte above 1.
    UnknownCode = 5, "code",
        "an expression byte above 5, or an alternative byte above 1",
        "build the file anew from its text";
    /// 6: an expression's type is not the one expected.
    TypeMismatch = 6, "misfit",
        "an expression's type is not the one expected",
        "build the file anew from its text";
    /// 7: bytes follow a body's expression, or GO.
    TrailingBytes = 7, "tail",
        "bytes follow a body's expression, or GO",
        "build the file anew from its text; a length is wrong, or something stands behind the end";
    /// 8: a type has no closed value.
    EmptyType = 8, "hollow",
        "a type has no closed value",
        "give the type a constructor that ends";
    /// 9: a source parameter's least depth exceeds D.
    DepthTooSmall = 9, "shallow",
        "a source parameter's least depth exceeds D",
        "raise D, or give a larger --depth";
    /// 10, of [`run`](crate::run) only: the bytes are not one closed, fitting value per parameter.
    BadInput = 10, "input",
        "the bytes are not one closed, fitting value per parameter",
        "see that every constructor is one of its type, that nothing is left over, and that no value is deeper than D";
    /// 11, of [`search`](crate::search), [`run`](crate::run) and [`names`](crate::names()): the work slice is shorter than
    /// [`work_words`](crate::work_words) of S.
    WorkTooShort = 11, "bench",
        "the work slice is too short",
        "lend more words";
    /// 12, of [`search`](crate::search) and [`names`](crate::names()): the next entry does not fit the list slice.
    ListFull = 12, "full",
        "the next entry does not fit the list slice",
        "lower D or S, or give a smaller --depth or --steps";
    /// 13, of [`write_text`](crate::write_text) only: the text slice is shorter than the text.
    TextTooShort = 13, "page",
        "the text slice is shorter than the text",
        "lend as many bytes as the text has";
    /// 14, of [`text_length`](crate::text_length) and [`write_text`](crate::write_text): the list has more than
    /// [`LIST_LIMIT`](crate::LIST_LIMIT) bytes, or is not whole entries that fit the rule file.
    BadList = 14, "scrap",
        "the list is longer than 16777216 bytes, or not whole entries that fit the rule file",
        "give the list that remburai list --save has stored for this rule, with the --depth and the --steps of that search";
    /// 15, of the rule file, straight after 9: the type that its record NA names is not of the form that spells names.
    BadSpelling = 15, "spelling",
        "the type named by NA is not of the form that spells names",
        "name a type of two constructors: one without fields, then one with two halves, each of a type of sixteen without fields, and the type itself";
}

impl Refusal {
    /// The number of the refusal, from 1 on.
    pub const fn number(self) -> u8 {
        self as u8
    }

    /// The refusal in bits 0 to 7 of an answer, if there is one.
    pub(crate) fn of(answer: u64) -> Option<Refusal> {
        match answer & 0xFF {
            0 => None,
            number => Some(Refusal::ALL[number as usize - 1]),
        }
    }
}

impl fmt::Display for Refusal {
    fn fmt(&self, f: &mut fmt::Formatter<'_>) -> fmt::Result {
        write!(
            f,
            "refused {} {}: {}",
            self.number(),
            self.word(),
            self.condition()
        )
    }
}

impl std::error::Error for Refusal {}
