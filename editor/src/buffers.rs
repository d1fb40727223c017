//! What the calls are lent, growing as refusals 8, 9 and 10 ask.

use std::fmt;

use crate::{
    calls::{
        Laid, LayoutArgs, LayoutState, ROW, RenderArgs, RenderState, Written,
        render,
    },
    error::FormatError,
    file::File,
    options::Options,
    refusal::Refusal,
};

/// Five rows for each 13 bytes of its image are enough for every file: a byte
/// gives 5 points, and a row takes 13. That it is so is proved
/// (crates/layout_facts), and there are files that nearly need as many.
const BYTE_GIVES: usize = 5;
const ROW_TAKES: usize = 13;

/// The most rows that are lent before a refusal asks for more: 18 MiB.
const MAX_AT_FIRST: usize = 1 << 19;

/// A layout call: [`layout`](crate::calls::layout), or that for archived images.
pub type LayoutCall = fn(
    File<'_>,
    &mut [u32],
    &LayoutState,
    &LayoutArgs,
    &Options,
) -> Result<Laid, Refusal>;

/// Rows, marks and the place of the text.
pub struct Buffers {
    store: Vec<u32>,
    marks: Vec<u8>,
    output: Vec<u8>,
    /// The bytes that a text may have.
    pub max_output: usize,
}

/// By their lengths alone.
impl fmt::Debug for Buffers {
    fn fmt(&self, f: &mut fmt::Formatter<'_>) -> fmt::Result {
        f.debug_struct("Buffers")
            .field("rows", &(self.store.len() / ROW))
            .field("marks", &self.marks.len())
            .field("output", &self.output.len())
            .field("max_output", &self.max_output)
            .finish()
    }
}

impl Buffers {
    /// Empty ones, for texts of at most so many bytes.
    pub fn new(max_output: usize) -> Self {
        Buffers {
            store: Vec::new(),
            marks: Vec::new(),
            output: Vec::new(),
            max_output,
        }
    }

    /// Room to spare, as far as there is memory: five rows and marks for each
    /// 13 bytes of the image, so many `times`, and many times the source and
    /// the image for the text. Neither layout nor rendering then has to count
    /// before it writes. What was in the buffers is dropped.
    pub fn prepare(&mut self, file: File<'_>, times: usize) {
        let image = file.image.len();
        let rows = image.saturating_mul(BYTE_GIVES) / ROW_TAKES;
        let rows = (times * rows).min(MAX_AT_FIRST);
        let lengths = file.source.len() * 2 + image;
        let bytes = lengths.saturating_mul(8).saturating_add(1 << 16);
        let bytes = bytes.min(self.max_output);
        lengthen(&mut self.store, 0, rows * ROW, usize::MAX);
        lengthen(&mut self.marks, 0, rows, usize::MAX);
        lengthen(&mut self.output, 0, bytes, self.max_output);
    }

    /// A layout call, made again with more rows if it asks for them.
    pub fn lay_out(
        &mut self,
        layout: LayoutCall,
        file: File<'_>,
        state: &LayoutState,
        args: &LayoutArgs,
        options: &Options,
    ) -> Result<Laid, Refusal> {
        let kept = state.next_row.saturating_mul(ROW);
        loop {
            let store = &mut self.store;
            let answer = layout(file, store, state, args, options);
            let Err(Refusal::MoreRows { needed }) = answer else {
                return answer;
            };
            let numbers = needed.saturating_mul(ROW);
            if !lengthen(store, kept, numbers, usize::MAX) {
                return answer;
            }
        }
    }

    /// A rendering call, made again with more marks or bytes if it asks for
    /// them.
    pub fn render(
        &mut self,
        file: File<'_>,
        state: &RenderState,
        args: &RenderArgs,
        options: &Options,
    ) -> Result<Written, Refusal> {
        loop {
            let (store, marks) = (&mut self.store, &mut self.marks);
            let output = &mut self.output;
            let answer =
                render(file, store, marks, output, state, args, options);
            let grown = match answer {
                Err(Refusal::MoreMarks { needed }) => {
                    lengthen(marks, state.marks_in_use, needed, usize::MAX)
                }
                Err(Refusal::MoreOutput { needed }) => {
                    lengthen(output, 0, needed, self.max_output)
                }
                _ => false,
            };
            if !grown {
                return answer;
            }
        }
    }

    /// The text that a rendering call wrote.
    pub fn text(&self, bytes: usize) -> Result<&str, FormatError> {
        let text = std::str::from_utf8(&self.output[..bytes]);
        text.map_err(FormatError::not_utf8)
    }
}

/// Lengthens a buffer and keeps what it holds first: to twice its length if
/// there is memory, so that a file that grows with each save doesn't ask each
/// time. False if it is long enough, so that no loop goes on for ever; if too
/// much is asked; or if there is no memory.
pub fn lengthen<T>(
    buffer: &mut Vec<T>,
    kept: usize,
    length: usize,
    most: usize,
) -> bool
where
    T: Copy + Default,
{
    let now = buffer.len();
    if length <= now || length > most {
        return false;
    }
    let ample = length.max(2 * now).min(most);
    let Some(mut longer) = zeros(ample).or_else(|| zeros(length)) else {
        return false;
    };
    let kept = kept.min(now);
    longer[..kept].copy_from_slice(&buffer[..kept]);
    *buffer = longer;
    true
}

/// Zeros, if there is memory for them. The system hands large ones out
/// cleared, so that what is never written costs no time.
fn zeros<T: Copy + Default>(length: usize) -> Option<Vec<T>> {
    // `vec!` ends the program if there is none, so ask before.
    Vec::<T>::new().try_reserve_exact(length).ok()?;
    Some(vec![T::default(); length])
}

#[cfg(test)]
mod tests {
    use super::*;
    use crate::{ast::*, calls::layout, encode::encode};

    const SOURCE: &str = "import a.b.{c.d, e};\n";

    /// A group in an import takes a mark.
    fn image() -> Vec<u8> {
        let path = |starts: &[usize]| {
            let name = |at: &usize| {
                let span = *at..at + 1;
                Meta::new(SOURCE[span.clone()].into(), span)
            };
            let idents: Vec<_> = starts.iter().map(name).collect();
            let span = starts[0]..starts[starts.len() - 1] + 1;
            Meta::new(Path { idents }, span)
        };
        let import = |starts: &[usize], group| {
            let (path, span) = (path(starts), starts[0]..19);
            let path = Some(path);
            Meta::new(ImportPath { path, group }, span)
        };
        let group = vec![import(&[12, 14], None), import(&[17], None)];
        let group = Some(Meta::new(group, 11..19));
        let tree = SyntaxTree {
            shebang: None,
            declarations: vec![Declaration::Import(import(&[7, 9], group))],
        };
        encode(&tree, &[]).expect("within the limits")
    }

    fn whole(buffers: &mut Buffers) -> Result<String, Refusal> {
        let (image, options) = (image(), &Options::default());
        let file = File::new(SOURCE, &image);
        let all = LayoutArgs::up_to(1).with_close(true);
        let fresh = LayoutState::default();
        let laid = buffers.lay_out(layout, file, &fresh, &all, options)?;
        let rows = RenderArgs::up_to(laid.state.next_row);
        let fresh = RenderState::default();
        let written = buffers.render(file, &fresh, &rows, options)?;
        Ok(buffers.text(written.bytes).expect("UTF-8").to_owned())
    }

    /// From nothing, each buffer grows to just what is asked for.
    #[test]
    fn buffers_grow_by_the_place_of_a_refusal() {
        let mut buffers = Buffers::new(100);
        assert_eq!(whole(&mut buffers).as_deref(), Ok(SOURCE));
        let Buffers {
            store,
            marks,
            output,
            ..
        } = &buffers;
        assert!(store.len() % ROW == 0 && store.len() > 10 * ROW);
        assert!(!marks.is_empty() && marks.len() < 10);
        assert_eq!(output.len(), SOURCE.len());
    }

    /// A text that is longer than allowed is refused, one as long is not.
    #[test]
    fn the_output_has_a_bound() {
        let needed = SOURCE.len();
        let mut exact = Buffers::new(needed);
        assert!(whole(&mut exact).is_ok());
        let mut short = Buffers::new(needed - 1);
        assert_eq!(whole(&mut short), Err(Refusal::MoreOutput { needed }));
    }

    #[test]
    fn what_is_kept_comes_along() {
        let mut buffer = vec![1, 2, 3];
        assert!(!lengthen(&mut buffer, 3, 3, 9));
        assert!(!lengthen(&mut buffer, 3, 10, 9));
        assert!(lengthen(&mut buffer, 2, 4, 9));
        assert_eq!(buffer, [1, 2, 0, 0, 0, 0]);
        assert!(lengthen(&mut buffer, usize::MAX, 7, 9));
        assert_eq!(buffer, [1, 2, 0, 0, 0, 0, 0, 0, 0]);
    }

    /// What no memory holds is said, not tried.
    #[test]
    fn no_memory_is_no_end() {
        let mut buffer = vec![7];
        assert!(!lengthen(&mut buffer, 1, usize::MAX, usize::MAX));
        assert!(!lengthen(&mut buffer, 1, 1 << 62, usize::MAX));
        assert_eq!(buffer, [7]);
    }
}
