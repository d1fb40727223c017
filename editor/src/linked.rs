//! The functions of the static library, as crates/exports_c has them: slices,
//! arrays and numbers in, numbers in `out`. All that is unsafe in this crate
//! is here, and all that turns the library's numbers into sizes and back.
//! include/rrufthim.h says the same to C.
//!
//! The file uses nothing else of the crate, so that others compile it by
//! itself: reference/port, and test-shape.

// The library's numbers are u64, and its lengths too.
#[cfg(not(target_pointer_width = "64"))]
compile_error!("the static library is for 64-bit machines");

/// The number that the library's symbols end in. tools/raise-shape raises it,
/// here and wherever else it stands.
macro_rules! shape {
    () => {
        3
    };
}

/// The number of the shape that these functions have: how many parameters,
/// of which kinds, arrays of how many places. It is part of the library's
/// symbols, so that a library of another shape isn't linked: the linker names
/// the symbol that it misses.
pub const SHAPE: usize = shape!();

/// The library's numbers as sizes, which have as many bits.
pub fn sizes<const N: usize>(numbers: [u64; N]) -> [usize; N] {
    numbers.map(|number| number as usize)
}

/// Sizes as the library's numbers.
pub fn numbers<const N: usize>(sizes: [usize; N]) -> [u64; N] {
    sizes.map(|size| size as u64)
}

/// Declares functions of the library as safe ones, by their names without
/// `rrufthim_` and the number, and by their parameters in crates/exports_c: a
/// slice is handed over as a pointer and a length, an array as a pointer.
macro_rules! linked {
    ($($(#[$about:meta])* fn $name:ident($($parameters:tt)*);)*) => {
        $(
            $(#[$about])*
            #[allow(clippy::too_many_arguments)]
            pub fn $name($($parameters)*) {
                linked! { @call $name [] [] $($parameters)* }
            }
        )*
    };
    (
        @call $name:ident [$($kind:ty,)*] [$($given:expr,)*]
        $slice:ident: &[$element:ty] $(, $($rest:tt)*)?
    ) => {
        linked! {
            @call $name
            [$($kind,)* *const $element, usize,]
            [$($given,)* $slice.as_ptr(), $slice.len(),]
            $($($rest)*)?
        }
    };
    (
        @call $name:ident [$($kind:ty,)*] [$($given:expr,)*]
        $slice:ident: &mut [$element:ty] $(, $($rest:tt)*)?
    ) => {
        linked! {
            @call $name
            [$($kind,)* *mut $element, usize,]
            [$($given,)* $slice.as_mut_ptr(), $slice.len(),]
            $($($rest)*)?
        }
    };
    (
        @call $name:ident [$($kind:ty,)*] [$($given:expr,)*]
        $other:ident: $its_kind:ty $(, $($rest:tt)*)?
    ) => {
        linked! {
            @call $name
            [$($kind,)* $its_kind,]
            [$($given,)* $other,]
            $($($rest)*)?
        }
    };
    (@call $name:ident [$($kind:ty,)*] [$($given:expr,)*]) => {
        unsafe extern "C" {
            #[link_name =
                concat!("rrufthim_", stringify!($name), "_s", shape!())]
            fn linked($(_: $kind),*);
        }
        // Safety: the parameters are those of crates/exports_c
        // (tests/header.rs). Each pointer to a slice goes with the slice's
        // length. The function is proved to stay within slices and arrays,
        // and keeps nothing.
        unsafe { linked($($given),*) }
    };
}

linked! {
    /// `out`: 0, comments, the tree's offset, declarations; or number, place.
    fn check(source: &[u8], image: &[u8], out: &mut [u64; 4]);

    /// `state`: begun, closed, next declaration, next row, next number,
    /// comments placed, position, mode, rule. `args`: the declaration to stop
    /// before, whether to close, the mode, the rule. `out`: 0, comments left,
    /// the new state; or number, place.
    fn layout(
        source: &[u8],
        image: &[u8],
        store: &mut [u32],
        state: &[u64; 9],
        args: &[u64; 4],
        out: &mut [u64; 11],
    );

    /// The same for archived images, whose comments may be in any order.
    fn layout_archived(
        source: &[u8],
        image: &[u8],
        store: &mut [u32],
        state: &[u64; 9],
        args: &[u64; 4],
        out: &mut [u64; 11],
    );

    /// `state`: indent, next_indent, column, marks in use, next row, width,
    /// rule, how many rows are listed, their numbers. `args`: the row to stop
    /// before, the width, the rule, the rows that it may enter. `out`: 0, bytes
    /// written, rows entered, the new state as far as rows are listed; or
    /// number, place.
    fn render(
        source: &[u8],
        image: &[u8],
        store: &mut [u32],
        marks: &mut [u8],
        output: &mut [u8],
        state: &[u64; 264],
        args: &[u64; 4],
        out: &mut [u64; 267],
    );

    /// `choice`: the width, the mode, the rule. `out`: 0, bytes written,
    /// comments left, rows, numbers; or number, place.
    fn format(
        source: &[u8],
        image: &[u8],
        choice: &[u64; 3],
        output: &mut [u8],
        out: &mut [u64; 5],
    );

    /// `out`: how many, and the place of the last or the range's end.
    fn newlines(source: &[u8], start: u64, end: u64, out: &mut [u64; 2]);

    /// `tallies`: files counted, then bytes, newlines, greatest column, group
    /// numbers given, groups wrapped, comments placed, comments left. `out`:
    /// 0, the seven of this file, the eight new tallies, wrapped over given
    /// as two numbers; or number, place.
    fn count(
        source: &[u8],
        image: &[u8],
        tallies: &[u64; 8],
        out: &mut [u64; 18],
    );

    /// An image from steps. `out`: 0, bytes written; or number, place.
    fn write(steps: &[u8], output: &mut [u8], out: &mut [u64; 2]);

    /// The steps of an image. `out`: 0, bytes written; or number, place.
    fn steps(
        source: &[u8],
        image: &[u8],
        output: &mut [u8],
        out: &mut [u64; 2],
    );

    /// `choice`: the width, the mode, the rule. `out`: 0, files, bytes of all
    /// texts; or number, place.
    fn batch(
        frames: &[u8],
        choice: &[u64; 3],
        table: &mut [u32],
        output: &mut [u8],
        out: &mut [u64; 3],
    );

    /// An image of version 1 as one of version 2. `out`: 0, bytes written; or
    /// number, place.
    fn forward(
        source: &[u8],
        image: &[u8],
        output: &mut [u8],
        out: &mut [u64; 2],
    );

    /// The same the other way.
    fn back(
        source: &[u8],
        image: &[u8],
        output: &mut [u8],
        out: &mut [u64; 2],
    );

    /// Whether the tree would be read back the same. `out`: 0, 1 and 0 for yes;
    /// 0, 0 and the offset of the first operand that breaks a rule; or number,
    /// place.
    fn reads_back(source: &[u8], image: &[u8], out: &mut [u64; 3]);

    /// The image of the formula at a place of those of a size. `out`: 0, bytes
    /// written; or number, place.
    fn formula(size: u64, place: u64, output: &mut [u8], out: &mut [u64; 2]);

    /// The columns of a text by a rule; by 1 they are `supplied`. `out`: 0,
    /// columns; or number, place.
    fn columns(text: &[u8], rule: u64, supplied: u64, out: &mut [u64; 2]);
}
