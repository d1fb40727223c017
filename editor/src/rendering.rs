//! A rendering that goes on a piece at a time.

use crate::{
    buffers::lengthen,
    calls::{RenderArgs, RenderState, Written, render},
    file::File,
    options::Options,
    refusal::Refusal,
};

/// A rendering that goes on a piece at a time, so that no piece takes long:
/// what [`render`] carries from call to call, the state and the marks. Store
/// and output are the caller's.
///
/// A piece enters as many rows as it is allotted and stops when they are
/// spent, wherever that is, inside a declaration too; the next piece goes on
/// from there. The joined texts are that of one rendering, however the pieces
/// fall.
///
/// ```
/// use rrufthim::{File, Options, Rendering, calls::*, encode};
///
/// # let image = encode(&Default::default(), &[])?;
/// let (file, options) = (File::new("", &image), Options::default());
/// let mut store = vec![0; 50 * ROW];
/// let all = LayoutArgs::up_to(file.declarations()).with_close(true);
/// let laid = layout(file, &mut store, &LayoutState::default(), &all, &options)?;
///
/// let mut rendering = Rendering::new();
/// let (mut output, mut text) = (vec![0; 1_000], Vec::<u8>::new());
/// let rows = RenderArgs::up_to(laid.state.next_row).with_allotment(100);
/// while !rendering.is_done(rows.stop) {
///     let piece = rendering.piece(file, &mut store, &mut output, &rows, &options)?;
///     text.extend(&output[..piece.bytes]);
/// }
/// # assert!(text.is_empty());
/// # Ok::<(), Box<dyn std::error::Error>>(())
/// ```
#[derive(Clone, Debug, Default, PartialEq, Eq)]
pub struct Rendering {
    state: RenderState,
    marks: Vec<u8>,
}

impl Rendering {
    /// One that has rendered nothing yet.
    pub fn new() -> Self {
        Rendering::default()
    }

    /// One that goes on from a state and marks that were kept elsewhere.
    pub fn resumed(state: RenderState, marks: Vec<u8>) -> Self {
        Rendering { state, marks }
    }

    /// How far it came.
    pub fn state(&self) -> &RenderState {
        &self.state
    }

    /// A byte for each group number, 1 if the group wrapped: as many as the
    /// state has in use, and maybe some behind them.
    pub fn marks(&self) -> &[u8] {
        &self.marks
    }

    /// Whether it came to this stop.
    pub fn is_done(&self, stop: usize) -> bool {
        self.state.next_row >= stop
    }

    /// Renders the next piece into the output, from its start on.
    ///
    /// # Errors
    ///
    /// As [`render`], but for 9 unless there is no memory for the marks that it
    /// asks for. A refused piece changes nothing but how many marks there are:
    /// where 10 refuses it, ask again with more room.
    pub fn piece(
        &mut self,
        file: File<'_>,
        store: &mut [u32],
        output: &mut [u8],
        args: &RenderArgs,
        options: &Options,
    ) -> Result<Written, Refusal> {
        loop {
            let (state, marks) = (&self.state, &mut self.marks);
            let answer =
                render(file, store, marks, output, state, args, options);
            match answer {
                Err(Refusal::MoreMarks { needed })
                    if lengthen(
                        marks,
                        state.marks_in_use,
                        needed,
                        usize::MAX,
                    ) => {}
                Err(refusal) => return Err(refusal),
                Ok(written) => {
                    self.state = written.state.clone();
                    return Ok(written);
                }
            }
        }
    }
}
