//! Why a call is turned down: the table of docs/01-scope.md, and 14 to 24 of
//! docs/02-change-requests.md.

use std::{error::Error, fmt};

use crate::{
    ast::Span,
    file::File,
    image::{comment_at, span_at},
};

/// A row of [`Refusal::TABLE`].
#[derive(Clone, Debug, PartialEq, Eq)]
#[non_exhaustive]
pub struct RefusalRow {
    /// The number by which a call is refused.
    pub number: usize,
    /// The case of [`Refusal`].
    pub name: &'static str,
    /// What is wrong, in words.
    pub cause: &'static str,
    /// What the refusal's place is. Where there is nothing, the place is 0.
    pub place: Option<&'static str>,
    /// What is wrong with a span of the source, which stands for #, where the
    /// place is an offset in an image, which people don't see.
    pub in_source: Option<&'static str>,
}

/// From one table: the cases and what there is to know of each. A row has the
/// number, the name and the cause; then, if there is a place, how the case
/// calls it and what it is; then, if that is an offset in an image and there
/// is a span, what people are told, with # for the span.
macro_rules! refusals {
    ($(
        $number:literal $name:ident $cause:literal
        $(, $field:ident: $place:literal $(, # is $in_source:literal)?)?;
    )*) => {
        /// A refused call. The number and the place are all that comes back;
        /// each case names what its place is.
        #[derive(Clone, Copy, Debug, PartialEq, Eq, Hash)]
        #[non_exhaustive]
        pub enum Refusal {
            $(
                #[doc = concat!($number, ": ", $cause, ".")]
                $name $({
                    #[doc = concat!("The ", $place, ".")]
                    $field: usize,
                })?,
            )*
            /// A number that the table doesn't have: the static library
            /// isn't the one this crate was written for.
            Unknown {
                /// The number.
                number: usize,
                /// Its place.
                place: usize,
            },
        }

        impl Refusal {
            /// What there is to know of each, in the order of numbers.
            pub const TABLE: &[RefusalRow] = &[$(
                RefusalRow {
                    number: $number,
                    name: stringify!($name),
                    cause: $cause,
                    place: refusals!(@maybe $($place)?),
                    in_source: refusals!(@maybe $($($in_source)?)?),
                },
            )*];

            /// The refusal with this number and place.
            pub fn from_numbers(number: usize, place: usize) -> Refusal {
                match number {
                    $($number => Self::$name $({ $field: place })?,)*
                    _ => Self::Unknown { number, place },
                }
            }

            /// The table's number.
            pub fn number(&self) -> usize {
                match *self {
                    $(Self::$name $({ $field: _ })? => $number,)*
                    Self::Unknown { number, .. } => number,
                }
            }

            /// The table's place: 0 where the cause has none.
            pub fn place(&self) -> usize {
                match *self {
                    $(
                        Self::$name $({ $field })? => {
                            refusals!(@or_zero $($field)?)
                        }
                    )*
                    Self::Unknown { place, .. } => place,
                }
            }
        }
    };
    (@maybe) => { None };
    (@maybe $words:literal) => { Some($words) };
    (@or_zero) => { 0 };
    (@or_zero $field:ident) => { $field };
}

refusals! {
    1 SourceTooLong "the source is over 65,536 bytes";
    2 SourceNotUtf8 "the source isn't well-formed UTF-8",
        at: "first byte of the bad sequence";
    3 NoImage "the tree image's version or length is wrong, or its body over \
        1,048,576 bytes";
    4 BadRecord "a record of the tree image is malformed",
        at: "offset in the image";
    5 TooDeep "a record of the tree image is over 64 deep",
        at: "record's offset in the image",
        # is "what stands at # is over 64 deep in the tree";
    6 BadSpan "a record's span is no range of characters of the source",
        at: "record's offset in the image",
        # is "the tree has the span #, which is no range of characters of \
            the source";
    7 BadComment "the comment list is cut off or over 8,192, or a comment is \
        empty or no range of characters of the source, or, but in an archived \
        image, starts before the end of the one before",
        at: "offset of the count or the comment in the image",
        # is "the comment # is empty or no range of characters of the source, \
            or starts before the end of the one before";
    8 MoreRows "the store has too few rows",
        needed: "rows needed in all";
    9 MoreMarks "there are too few marks",
        needed: "marks needed";
    10 MoreOutput "the output is too short",
        needed: "bytes needed";
    11 BadRow "a row of the store can't be rendered, or the stop is past the \
        store or 2,097,152",
        row: "row, or 0 for the stop";
    12 BadState "the state, the marks in use or the stop doesn't fit, or the \
        mode (comments at the foot) is over 1, or it or the rule of widths \
        not that of the calls before";
    13 BadFrame "the program's frame is over 32,768 bytes or cut off";
    14 BadTallies "the tallies count 4,096 files, one of them is over \
        4,294,967,296, or more groups are wrapped than given";
    15 BadWidth "the width is under 40 or over 200 columns, or not that of \
        the calls before";
    16 BadStep "a step is unknown, cut off or wrong there, as a comment is \
        that starts before the end of the one before, or something is missing \
        at the list's end",
        at: "offset in the list";
    17 MoreRoom "the output is too short for the image or the steps, or the \
        image's body over 1,048,576 bytes",
        needed: "bytes needed";
    18 BadBatch "a frame of the batch runs past the buffer, or is the 257th",
        at: "frame's offset in the buffer";
    19 MoreForBatch "the table of the batch is too short, or the output",
        needed: "numbers of the table, or bytes, needed";
    20 BadRule "the rule of widths is none of 1 (supplied), 2 (Unicode 15.1) \
        and 3 (Unicode 16.0), or the image is of version 2, which has no \
        widths, and the rule not 3";
    21 WrongWidth "a width that the image stores isn't what Unicode 16.0 \
        gives its text (the shebang's without blanks at its end), or a text \
        of an image of version 2 is over 65,535 columns",
        at: "text record's offset in the image";
    22 NoAllotment "no row may be entered";
    23 BadListedRows "the listed rows aren't those that enclose the next row, \
        or are over 256, or closing them would take the indent under 0";
    24 NoFormula "the size of a formula is outside 1 to 7, or its place isn't \
        under the number of those";
}

impl Refusal {
    /// Its row of the table.
    fn row(&self) -> Option<&'static RefusalRow> {
        Self::TABLE.iter().find(|row| row.number == self.number())
    }

    /// The span of the source that 2, 5, 6, 7 or 21 is about; for all but 2 as
    /// the refused image has it, so that it need not lie in the source.
    /// `None` for other causes, and where the count of comments is wrong.
    /// [`Place`](crate::Place) gives its line and column.
    pub fn span(&self, file: File<'_>) -> Option<Span> {
        let File { source, image } = file;
        match *self {
            Self::SourceNotUtf8 { at } => Some(at..source.len()),
            Self::TooDeep { at } | Self::BadSpan { at } => span_at(image, at),
            Self::BadComment { at } => comment_at(image, at),
            // An empty one is no place of the source.
            Self::WrongWidth { at } => {
                span_at(image, at).filter(|span| !span.is_empty())
            }
            _ => None,
        }
    }

    /// What is wrong with this span of the source, if the table says it.
    pub(crate) fn in_source(&self, span: &Span) -> Option<String> {
        let words = self.row()?.in_source?;
        Some(words.replace('#', &format!("{span:?}")))
    }
}

impl fmt::Display for Refusal {
    fn fmt(&self, f: &mut fmt::Formatter<'_>) -> fmt::Result {
        let place = self.place();
        let Some(row) = self.row() else {
            return write!(
                f,
                "the static library refuses by {} at {place}, which this \
                 crate doesn't know: it isn't the one for this crate",
                self.number()
            );
        };
        f.write_str(row.cause)?;
        match row.place {
            Some(what) => write!(f, " ({what}: {place})"),
            None => Ok(()),
        }
    }
}

impl Error for Refusal {}
