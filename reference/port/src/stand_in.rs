//! The judge in the port's place, with faults to plant: shows that the
//! comparison runs and finds them.

mod allotments;
mod batch;
mod formulas;
mod moves;
mod orders;
mod rules;
mod steps;
mod verdicts;
mod words;

use std::sync::atomic::{AtomicU8, Ordering};

pub use batch::batch;
pub use formulas::formula;
use judge::{
    allotment::ALL_ROWS,
    calls::{
        Answer, Given, LayoutArgs, LayoutState, RenderArgs, RenderState,
        World, layout_call,
    },
    driver::{Pen, Stop},
    figures::{self, Counted, Figures, Fraction, MOST_FILES, Tallies},
    frame::Frame,
    image::{self, node},
    listed::Listed,
    mode::{self, NEW, OLD},
    newlines,
    program::{MARKS, ROWS},
    reader,
    refusal::{Refusal, refusal},
    rows::Row,
    width,
};
pub use moves::{back, forward};
use orders::Entry;
pub use rules::columns;
pub use steps::{steps, write};
pub use verdicts::reads_back;
use words::respoken;

/// What goes wrong.
#[derive(Clone, Copy, Debug, PartialEq, Eq)]
#[repr(u8)]
pub enum Fault {
    None,
    /// The reader's place is one too high.
    CheckPlace,
    /// The reader counts a declaration too many.
    Declarations,
    /// Comments left one too many.
    CommentsLeft,
    /// The position is one too high at the fourth declaration.
    Position,
    /// A row's last number is changed.
    RowCell,
    /// A word has the right length and the wrong bytes.
    Word,
    /// A cell past the rows is written.
    PastRows,
    /// Rows are written before 8.
    RowsBeforeRefusal,
    /// The place of 8.
    RowsNeeded,
    /// A group's mark is cleared.
    Mark,
    /// A mark past those in use is cleared.
    PastMarks,
    /// The column of the new state.
    Column,
    /// A byte of text.
    TextByte,
    /// A byte past the text is written.
    PastText,
    /// Marks are written before 10.
    MarksBeforeRefusal,
    /// 11 names the row after.
    FaultyRow,
    /// 12 comes before 11.
    Order,
    /// A number past a refusal's two is written.
    PastAnswer,
    /// The whole run's bytes written.
    WholeBytes,
    /// The whole run writes its output before 10.
    OutputBeforeRefusal,
    /// The first newline in place of the last.
    FirstNewline,
    /// The range's start where no newline is counted.
    NoNewline,
    /// A file's greatest column is one too low.
    GreatestColumn,
    /// The greatest columns of files are added up.
    ColumnsAdded,
    /// The fraction isn't reduced.
    Unreduced,
    /// 14 comes before the file's own refusals.
    TalliesFirst,
    /// A file past the last is counted.
    OneMoreFile,
    /// As many wrapped as given are refused.
    AllWrapped,
    /// Every legal width is 80.
    Eighty,
    /// A carried width is forgotten.
    WidthNotKept,
    /// 15 comes before 12.
    WidthFirst,
    /// A whole file's 8 comes before 15.
    RowsFirst,
    /// A comment is left behind at the foot.
    OneLeftBehind,
    /// Leading newlines are kept where nothing is declared.
    LeadingKept,
    /// The old mode places the comments at the foot too.
    Flushed,
    /// The new mode leaves them in the list.
    FootForgotten,
    /// A carried mode is forgotten.
    ModeNotKept,
    /// The answered state has no mode.
    ModeNotCarried,
    /// A state that has not begun may carry a mode.
    ModeBeforeBegun,
    /// A whole file's 15 comes before 12.
    WidthBeforeMode,
    /// 16 names the byte after.
    StepPlace,
    /// 17 comes before 16.
    RoomFirst,
    /// The 65th level is found a step late.
    LateDepth,
    /// A text that isn't UTF-8 is found a step late.
    LateText,
    /// An empty comment is found a step late.
    LateEmptyComment,
    /// The list's end is one byte before.
    ListEnd,
    /// A byte of the image.
    ImageByte,
    /// A byte past the image is written.
    PastImage,
    /// The image is begun before 17.
    ImageBeforeRefusal,
    /// The place of 17.
    ImageNeeded,
    /// A body of any size is written.
    AnyBody,
    /// A byte of the steps of an image.
    StepByte,
    /// The place of 17 for steps.
    StepsNeeded,
    /// 17 comes before the reader's refusals.
    StepsRoomFirst,
    /// The steps are begun before 17.
    StepsBeforeRefusal,
    /// The line of the last comment that is in a text is taken out of it.
    CommentLost,
    /// Two words of a text change places.
    WordsSwapped,
    /// 18 names the byte after.
    FramePlace,
    /// A 257th file is taken.
    OneMoreSave,
    /// The lengths of a frame are added in four bytes.
    LengthsWrap,
    /// A bad choice refuses the batch, not its files.
    ChoiceFirst,
    /// 19 for the output comes before that for the table.
    OutputFirst,
    /// A table that is just large enough is refused.
    ExactTable,
    /// The place of 19 for the table: files, not numbers.
    TableNeeded,
    /// The place of 19 for the output.
    TextsNeeded,
    /// The table is written before 19.
    TableBeforeRefusal,
    /// The first text is written before 19.
    TextsBeforeRefusal,
    /// A refused file adds text.
    RefusedText,
    /// A text overwrites the last byte of the one before.
    NeighbourText,
    /// A row's place is one too high.
    RowPlace,
    /// A text over 65,536 bytes is refused by 10, in its row.
    TenInARow,
    /// A number behind the table is written.
    PastTable,
    /// A byte behind the texts is written.
    PastTexts,
    /// Refused files aren't counted.
    RefusedUncounted,
    /// Every legal rule is that of supplied widths.
    OneRule,
    /// The other edition of Unicode.
    OtherEdition,
    /// Layout keeps the supplied widths.
    SuppliedKept,
    /// Rendering measures `Ascii` texts by their bytes.
    AsciiByBytes,
    /// Rendering measures `Str` texts anew.
    StrMeasured,
    /// The shebang is measured with the blanks behind it.
    ShebangUntrimmed,
    /// Layout forgets a carried rule.
    LayoutRuleNotKept,
    /// Rendering does.
    RenderRuleNotKept,
    /// The answered layout state has no rule.
    LayoutRuleNotCarried,
    /// The answered rendering state has none.
    RenderRuleNotCarried,
    /// A state that has not begun may carry a rule.
    RuleBeforeBegun,
    /// A begun state that carries none is refused.
    NoRuleRefused,
    /// 20 lets 0 pass, as supplied widths.
    ZeroRule,
    /// A rule is looked at in its lower four bytes.
    RuleInFourBytes,
    /// 20 comes after the refusals of source and image.
    RuleLate,
    /// Texts that cut a character pass.
    TornTexts,
    /// So do empty ones alone.
    TornEmpty,
    /// Empty texts at a byte 80 to BF are refused, whatever stands there.
    StrayByte,
    /// Torn texts are found behind all other faults of rows.
    TornLate,
    /// Texts are tested where widths are supplied too.
    TornSupplied,
    /// Rendering doesn't test 2.
    NoTwo,
    /// It does so where widths are supplied too.
    TwoSupplied,
    /// 3 comes before 2.
    HeaderFirst,
    /// An `Ascii` row stays a `Str` row after 10.
    RowsTurned,
    /// A code point has another width.
    OneCodePoint,
    /// A surrogate's bytes are counted.
    BadBytesCounted,
    /// Where columns are supplied, the text's bytes are.
    BytesSupplied,
    /// A byte of a moved image.
    MovedByte,
    /// A byte past it is written.
    PastMoved,
    /// The moved image is begun before 17.
    MovedBeforeRoom,
    /// It is before 21.
    MovedBeforeWidth,
    /// The place of 17 for a moved image.
    MovedNeeded,
    /// Going back, a body of any size is written.
    AnyMovedBody,
    /// A move takes an image of the other version as it is.
    OtherVersionMoved,
    /// A move's 3 comes before 1 and 2.
    VersionBeforeSource,
    /// Its 17 comes before all else.
    MovedRoomFirst,
    /// Its 17 comes before 21.
    RoomBeforeWidth,
    /// 21 names the last width that is wrong.
    LastWidth,
    /// 21 names the width, not its record.
    WidthPlace,
    /// Going back, the lower two bytes of a width are written.
    WidthWraps,
    /// A move measures the shebang with the blanks behind it.
    ShebangWhole,
    /// A move measures every text without them.
    AllTrimmed,
    /// A move takes blanks of ASCII alone from the shebang.
    AsciiTrimmed,
    /// A move measures by Unicode 15.1.
    MovedByOther,
    /// The steps of an image of version 2 are given.
    StepsOfTwo,
    /// A first byte 2 passes by every rule.
    TwoByEveryRule,
    /// Version 2 is refused by 3.
    TwoRefused,
    /// 20 for a first byte 2 comes after 1 and 2.
    TwoLate,
    /// It comes after 3.
    TwoByHeader,
    /// A whole file's 20 for a first byte 2 comes after the reader's
    /// refusals and those of the choice.
    TwoInWhole,
    /// Rendering lets a first byte 2 pass.
    TwoRendered,
    /// A file with a first byte 2 isn't counted for 3.
    TwoCounted,
    /// A batch lets a first byte 2 pass.
    TwoInBatch,
    /// The reader looks for widths in version 2.
    TwoWithWidths,
    /// The order of comments is forgotten after 8,191 of them.
    OrderForgotten,
    /// A comment that starts where the one before ends is refused.
    EqualityRefused,
    /// A comment must start at or after the start of the one before.
    StartsCompared,
    /// Comments may overlap by a byte.
    OverlapByOne,
    /// A first comment at the source's start is refused.
    FirstOrdered,
    /// The order is looked at after all other causes of 7.
    OrderLast,
    /// It is looked at before all of them.
    OrderFirst,
    /// 7 names the pair before.
    OrderPlace,
    /// At layout 7 for the order comes before 20.
    OrderBeforeRule,
    /// There it comes after 12.
    OrderAfterState,
    /// The check reads by the earlier rule.
    CheckEarlier,
    /// Layout does.
    LayoutEarlier,
    /// A whole file does.
    WholeEarlier,
    /// A count does.
    CountEarlier,
    /// A batch does.
    BatchEarlier,
    /// The steps of an image do.
    StepsEarlier,
    /// What the archive entry has begun goes on by the earlier rule.
    EntryCarried,
    /// The archive entry is strict.
    ArchiveStrict,
    /// The archive entry passes over what else 7 refuses.
    ArchiveUntested,
    /// The archive entry puts the comments in order.
    ArchiveSorted,
    /// A move forward is strict.
    ForwardStrict,
    /// A move back is.
    BackStrict,
    /// The writer takes comments in any order.
    WriterUnordered,
    /// It forgets the order after 8,191 of them.
    WriterForgets,
    /// It refuses a comment where the one before ends.
    WriterEquality,
    /// It compares starts.
    WriterStarts,
    /// It lets comments overlap by a byte.
    WriterOverlap,
    /// It refuses a first comment at the source's start.
    WriterFirst,
    /// It finds a comment out of order a step late.
    LateUnordered,
    /// Left and right operands are asked as each other.
    SidesExchanged,
    /// Two comparisons are let pass at the left.
    NotForLeft,
    /// They are at the right.
    NotForRight,
    /// A right operand of its parent's own precedence is let pass.
    LeftForRight,
    /// `&&` with `||` is let pass.
    MixedAllowed,
    /// An operator under the same one is let pass on either side.
    SameAllowed,
    /// What stands over the operand is named.
    ParentNamed,
    /// The last operand that breaks a rule is named.
    LastOperand,
    /// The outermost is.
    OutermostOperand,
    /// Both operands of a record are looked at before what is in them.
    ByParents,
    /// A 70 is looked through.
    ParenthesesLookedThrough,
    /// A 60 or a 64 is, and is not asked itself.
    UnaryLookedThrough,
    /// A 60 over a 63 is let pass.
    NotLetPass,
    /// A 64 over a 63 is.
    NegateLetPass,
    /// A 63 under a 55 is refused.
    AccessAsked,
    /// A 63 under a 68 is.
    QuestionAsked,
    /// A 63 under a 70 is.
    ParenthesesAsked,
    /// A 63 under any other expression is.
    OperandOfAny,
    /// Of yes only one number is written.
    NoPlaceOfYes,
    /// A refusal in place of a verdict of no.
    RefusedVerdict,
    /// A first byte 2 is refused.
    VerdictOfOne,
    /// The verdict is by the earlier rule for comments.
    VerdictEarlier,
    /// Rows done by a stop stay listed.
    StopUnclosed,
    /// Rows of an unchosen part are counted.
    UnchosenCounted,
    /// The groups that `Call`s make up are.
    MadeUpCounted,
    /// A listed `IfWrap` chose its first part where the second's row is next.
    EarlyAtSecond,
    /// The last listed row isn't compared.
    LastListed,
    /// Closing takes the steps of an `IndentNext` from `indent`.
    ClosedFromIndent,
    /// 9 and 11 read from the next row.
    ReadsFromNext,
    /// Marks in use rise over the rows entered alone.
    MarksOfEntered,
    /// 23 comes before 22.
    ListedFirst,
    /// 22 comes before 15.
    AllotmentBeforeWidth,
    /// 9 comes before 23.
    MarksBeforeListed,
    /// An allotment of 0 enters nothing.
    NoAllotment,
    /// An allotment is looked at in its lower four bytes.
    AllotmentInFourBytes,
    /// A row more than is allotted is entered.
    OneMoreRow,
    /// A `Call` in one line is listed as one whose arguments trail.
    TwoWays,
    /// A listed row's own wrap is listed.
    WrapsOfRow,
    /// Another wrap than that of a stop isn't believed.
    WrapsTested,
    /// The number of a listed row is looked at in its lower four bytes.
    FarRowWraps,
    /// A count over 256 is looked at in its lowest byte.
    ManyListed,
    /// A next row inside another is refused where nothing is listed.
    NoListedRefused,
    /// The bounds of `indent` and `next_indent` are 64.
    OldBounds,
    /// A number behind the listed rows is written.
    PastListed,
    /// The rows entered are counted from the first.
    EnteredOfAll,
    /// Times comes before plus.
    TimesFirst,
    /// Parentheses come before negation.
    ParenthesesFirst,
    /// The larger left operand comes first.
    LargerFirst,
    /// The formula before the last comes twice, and the last never.
    LastFormulaTwice,
    /// The image of a formula is of version 2.
    FormulaOfTwo,
    /// Its first text has the width 0.
    NoWidth,
    /// A place at the count gives the last formula.
    PlaceAtCount,
    /// 24 names the place.
    PlaceRefused,
    /// Size 0 is taken for 1.
    SizeNone,
    /// A size is looked at in its lower four bytes.
    SizeInFourBytes,
    /// 17 comes before 24.
    FormulaRoomFirst,
    /// The bytes that a formula's image needs are one too many.
    FormulaNeeded,
    /// Its output is written before 17.
    FormulaBeforeRefusal,
    /// A byte past its image is written.
    PastFormula,
}

impl Fault {
    pub const ALL: [Fault; 216] = [
        Fault::CheckPlace,
        Fault::Declarations,
        Fault::CommentsLeft,
        Fault::Position,
        Fault::RowCell,
        Fault::Word,
        Fault::PastRows,
        Fault::RowsBeforeRefusal,
        Fault::RowsNeeded,
        Fault::Mark,
        Fault::PastMarks,
        Fault::Column,
        Fault::TextByte,
        Fault::PastText,
        Fault::MarksBeforeRefusal,
        Fault::FaultyRow,
        Fault::Order,
        Fault::PastAnswer,
        Fault::WholeBytes,
        Fault::OutputBeforeRefusal,
        Fault::FirstNewline,
        Fault::NoNewline,
        Fault::GreatestColumn,
        Fault::ColumnsAdded,
        Fault::Unreduced,
        Fault::TalliesFirst,
        Fault::OneMoreFile,
        Fault::AllWrapped,
        Fault::Eighty,
        Fault::WidthNotKept,
        Fault::WidthFirst,
        Fault::RowsFirst,
        Fault::OneLeftBehind,
        Fault::LeadingKept,
        Fault::Flushed,
        Fault::FootForgotten,
        Fault::ModeNotKept,
        Fault::ModeNotCarried,
        Fault::ModeBeforeBegun,
        Fault::WidthBeforeMode,
        Fault::StepPlace,
        Fault::RoomFirst,
        Fault::LateDepth,
        Fault::LateText,
        Fault::LateEmptyComment,
        Fault::ListEnd,
        Fault::ImageByte,
        Fault::PastImage,
        Fault::ImageBeforeRefusal,
        Fault::ImageNeeded,
        Fault::AnyBody,
        Fault::StepByte,
        Fault::StepsNeeded,
        Fault::StepsRoomFirst,
        Fault::StepsBeforeRefusal,
        Fault::CommentLost,
        Fault::WordsSwapped,
        Fault::FramePlace,
        Fault::OneMoreSave,
        Fault::LengthsWrap,
        Fault::ChoiceFirst,
        Fault::OutputFirst,
        Fault::ExactTable,
        Fault::TableNeeded,
        Fault::TextsNeeded,
        Fault::TableBeforeRefusal,
        Fault::TextsBeforeRefusal,
        Fault::RefusedText,
        Fault::NeighbourText,
        Fault::RowPlace,
        Fault::TenInARow,
        Fault::PastTable,
        Fault::PastTexts,
        Fault::RefusedUncounted,
        Fault::OneRule,
        Fault::OtherEdition,
        Fault::SuppliedKept,
        Fault::AsciiByBytes,
        Fault::StrMeasured,
        Fault::ShebangUntrimmed,
        Fault::LayoutRuleNotKept,
        Fault::RenderRuleNotKept,
        Fault::LayoutRuleNotCarried,
        Fault::RenderRuleNotCarried,
        Fault::RuleBeforeBegun,
        Fault::NoRuleRefused,
        Fault::ZeroRule,
        Fault::RuleInFourBytes,
        Fault::RuleLate,
        Fault::TornTexts,
        Fault::TornEmpty,
        Fault::StrayByte,
        Fault::TornLate,
        Fault::TornSupplied,
        Fault::NoTwo,
        Fault::TwoSupplied,
        Fault::HeaderFirst,
        Fault::RowsTurned,
        Fault::OneCodePoint,
        Fault::BadBytesCounted,
        Fault::BytesSupplied,
        Fault::MovedByte,
        Fault::PastMoved,
        Fault::MovedBeforeRoom,
        Fault::MovedBeforeWidth,
        Fault::MovedNeeded,
        Fault::AnyMovedBody,
        Fault::OtherVersionMoved,
        Fault::VersionBeforeSource,
        Fault::MovedRoomFirst,
        Fault::RoomBeforeWidth,
        Fault::LastWidth,
        Fault::WidthPlace,
        Fault::WidthWraps,
        Fault::ShebangWhole,
        Fault::AllTrimmed,
        Fault::AsciiTrimmed,
        Fault::MovedByOther,
        Fault::StepsOfTwo,
        Fault::TwoByEveryRule,
        Fault::TwoRefused,
        Fault::TwoLate,
        Fault::TwoByHeader,
        Fault::TwoInWhole,
        Fault::TwoRendered,
        Fault::TwoCounted,
        Fault::TwoInBatch,
        Fault::TwoWithWidths,
        Fault::OrderForgotten,
        Fault::EqualityRefused,
        Fault::StartsCompared,
        Fault::OverlapByOne,
        Fault::FirstOrdered,
        Fault::OrderLast,
        Fault::OrderFirst,
        Fault::OrderPlace,
        Fault::OrderBeforeRule,
        Fault::OrderAfterState,
        Fault::CheckEarlier,
        Fault::LayoutEarlier,
        Fault::WholeEarlier,
        Fault::CountEarlier,
        Fault::BatchEarlier,
        Fault::StepsEarlier,
        Fault::EntryCarried,
        Fault::ArchiveStrict,
        Fault::ArchiveUntested,
        Fault::ArchiveSorted,
        Fault::ForwardStrict,
        Fault::BackStrict,
        Fault::WriterUnordered,
        Fault::WriterForgets,
        Fault::WriterEquality,
        Fault::WriterStarts,
        Fault::WriterOverlap,
        Fault::WriterFirst,
        Fault::LateUnordered,
        Fault::SidesExchanged,
        Fault::NotForLeft,
        Fault::NotForRight,
        Fault::LeftForRight,
        Fault::MixedAllowed,
        Fault::SameAllowed,
        Fault::ParentNamed,
        Fault::LastOperand,
        Fault::OutermostOperand,
        Fault::ByParents,
        Fault::ParenthesesLookedThrough,
        Fault::UnaryLookedThrough,
        Fault::NotLetPass,
        Fault::NegateLetPass,
        Fault::AccessAsked,
        Fault::QuestionAsked,
        Fault::ParenthesesAsked,
        Fault::OperandOfAny,
        Fault::NoPlaceOfYes,
        Fault::RefusedVerdict,
        Fault::VerdictOfOne,
        Fault::VerdictEarlier,
        Fault::StopUnclosed,
        Fault::UnchosenCounted,
        Fault::MadeUpCounted,
        Fault::EarlyAtSecond,
        Fault::LastListed,
        Fault::ClosedFromIndent,
        Fault::ReadsFromNext,
        Fault::MarksOfEntered,
        Fault::ListedFirst,
        Fault::AllotmentBeforeWidth,
        Fault::MarksBeforeListed,
        Fault::NoAllotment,
        Fault::AllotmentInFourBytes,
        Fault::OneMoreRow,
        Fault::TwoWays,
        Fault::WrapsOfRow,
        Fault::WrapsTested,
        Fault::FarRowWraps,
        Fault::ManyListed,
        Fault::NoListedRefused,
        Fault::OldBounds,
        Fault::PastListed,
        Fault::EnteredOfAll,
        Fault::TimesFirst,
        Fault::ParenthesesFirst,
        Fault::LargerFirst,
        Fault::LastFormulaTwice,
        Fault::FormulaOfTwo,
        Fault::NoWidth,
        Fault::PlaceAtCount,
        Fault::PlaceRefused,
        Fault::SizeNone,
        Fault::SizeInFourBytes,
        Fault::FormulaRoomFirst,
        Fault::FormulaNeeded,
        Fault::FormulaBeforeRefusal,
        Fault::PastFormula,
    ];
}

/// 12's bound on `indent`.
const MOST_INDENT: usize = 384;

static PLANTED: AtomicU8 = AtomicU8::new(0);

/// Plants a fault in all calls from now on.
pub fn plant(fault: Fault) {
    PLANTED.store(fault as u8, Ordering::SeqCst);
}

fn planted(fault: Fault) -> bool {
    PLANTED.load(Ordering::Relaxed) == fault as u8
}

fn put(out: &mut [u64], numbers: &[u64]) {
    for (place, number) in out.iter_mut().zip(numbers) {
        *place = *number;
    }
}

fn put_refusal(out: &mut [u64], refusal: Refusal) {
    put(out, &[refusal.number.into(), refusal.place]);
    if planted(Fault::PastAnswer) {
        put(&mut out[2..], &[0]);
    }
}

fn layout_state(state: &[u64; 9]) -> LayoutState {
    let [begun, closed, next_declaration, at @ .., mode, rule] =
        state.map(|number| number as usize);
    let [next_row, next_number, comments_placed, position] = at;
    LayoutState {
        begun: begun != 0,
        closed: closed != 0,
        next_declaration,
        at: Stop {
            next_row,
            next_number,
            comments_placed,
            position,
        },
        mode,
        rule,
    }
}

/// Numbers of a rendering state before those of the rows that it lists.
const STATE_NUMBERS: usize = 8;

fn render_state(state: &[u64; 264]) -> RenderState {
    let (own, listed) = state.split_at(STATE_NUMBERS);
    let own: &[u64; STATE_NUMBERS] = own.try_into().expect("eight");
    let [
        indent,
        next_indent,
        column,
        marks_in_use,
        next_row,
        width,
        rule,
        count,
    ] = own.map(|number| number as usize);
    RenderState {
        pen: Pen {
            indent,
            next_indent,
            column,
        },
        marks_in_use,
        next_row,
        width,
        rule,
        listed: Listed::of_numbers(count, listed),
    }
}

pub fn check(source: &[u8], image: &[u8], out: &mut [u64; 4]) {
    let widened = moves::with_widths(image);
    let given = Given { source, image };
    let read = orders::strict(Entry::Check, given, |reading| {
        reader::read_by(source, &widened, reading)
    });
    match read {
        Ok(read) => {
            let mut declarations = read.tree.children.len() as u64 - 1;
            declarations += u64::from(planted(Fault::Declarations));
            let comments = read.comments.len() as u64;
            put(out, &[0, comments, read.tree.at as u64, declarations]);
        }
        Err(mut refusal) => {
            refusal.place += u64::from(planted(Fault::CheckPlace));
            put_refusal(out, refusal);
        }
    }
}

pub fn layout(
    source: &[u8],
    image: &[u8],
    store: &mut [u32],
    state: &[u64; 9],
    args: &[u64; 4],
    out: &mut [u64; 11],
) {
    let given = Given { source, image };
    let args = layout_args(args, false);
    put_layout(store, state, out, |world| {
        orders::layout(given, world, args, lay_out)
    });
}

/// The same for archived images.
pub fn layout_archived(
    source: &[u8],
    image: &[u8],
    store: &mut [u32],
    state: &[u64; 9],
    args: &[u64; 4],
    out: &mut [u64; 11],
) {
    let given = Given { source, image };
    let args = layout_args(args, true);
    put_layout(store, state, out, |world| {
        orders::layout(given, world, args, lay_out)
    });
}

fn layout_args(args: &[u64; 4], archive: bool) -> LayoutArgs {
    let [stop, close, mode, rule] = args.map(|number| number as usize);
    LayoutArgs {
        stop,
        close: close != 0,
        mode,
        rule,
        archive,
    }
}

/// What a layout call does to the store, and its answer.
fn put_layout(
    store: &mut [u32],
    state: &[u64; 9],
    out: &mut [u64; 11],
    call: impl FnOnce(&mut World) -> Result<Answer, Refusal>,
) {
    let mut world = World {
        store: store.to_vec(),
        laying: layout_state(state),
        ..World::default()
    };
    let before = world.laying.at.next_row;
    match call(&mut world) {
        Ok(Answer::LaidOut {
            state,
            comments_left,
        }) => {
            spoil_rows(&mut world, before, state.at.next_row);
            store.copy_from_slice(&world.store);
            let left =
                comments_left + usize::from(planted(Fault::CommentsLeft));
            put_laid(out, &state, left);
        }
        Err(mut refusal) => {
            if refusal.number == 8 {
                spoil_refused(store, &mut refusal);
            }
            put_refusal(out, refusal);
        }
        _ => unreachable!("a layout call"),
    }
}

/// A layout call, wrong where a fault on modes or rules is planted.
fn lay_out(
    given: Given,
    world: &mut World,
    args: LayoutArgs,
) -> Result<Answer, Refusal> {
    let LayoutArgs { close, mode, .. } = args;
    let carried = &mut world.laying;
    if planted(Fault::ModeNotKept) && carried.begun {
        carried.mode = mode;
    }
    if planted(Fault::ModeBeforeBegun) && !carried.begun {
        carried.mode = 0;
    }
    let mut right = world.clone();
    let answer = rules::lay_out(given, &mut right, args)?;
    let wrong = (close && closes_wrongly(mode))
        .then(|| close_wrongly(given, world, args));
    if let Some(Some(answer)) = wrong {
        return Ok(answer);
    }
    *world = right;
    Ok(answer)
}

fn closes_wrongly(mode: usize) -> bool {
    let faults: &[Fault] = match mode {
        OLD => &[Fault::Flushed],
        _ => &[
            Fault::OneLeftBehind,
            Fault::LeadingKept,
            Fault::FootForgotten,
        ],
    };
    faults.iter().any(|fault| planted(*fault))
}

/// Goes on to the stop, then closes with another image or in the other mode.
/// What stands at the foot lies in the source.
fn close_wrongly(
    given: Given,
    world: &mut World,
    args: LayoutArgs,
) -> Option<Answer> {
    let LayoutArgs { stop, mode, .. } = args;
    let before = world.clone();
    let Given { source, image } = given;
    let read = reader::read_by(source, image, args.reading()).ok()?;
    let comments = read.comments.len();
    let open = LayoutArgs {
        close: false,
        ..args
    };
    layout_call(given, world, open).expect("it closes too");
    let (image, end, way) = if planted(Fault::OneLeftBehind) {
        (without_last_comment(given.image), stop, mode)
    } else if planted(Fault::LeadingKept) && stop == 0 {
        let import = node(16, 0..0, [None, None]);
        let tree = node(1, 0..0, [None, Some(import)]);
        (image::write(&read.comments, &tree), 1, mode)
    } else {
        (given.image.to_vec(), stop, NEW + OLD - mode)
    };
    let image = &image[..];
    let given = Given { source, image };
    (world.laying.next_declaration, world.laying.mode) = (end, way);
    let otherwise = LayoutArgs {
        stop: end,
        mode: way,
        ..args
    };
    let closed = layout_call(given, world, otherwise);
    if closed.is_err() || (planted(Fault::LeadingKept) && stop > 0) {
        *world = before;
        return None;
    }
    (world.laying.next_declaration, world.laying.mode) = (stop, mode);
    Some(Answer::LaidOut {
        state: world.laying,
        comments_left: comments - world.laying.at.comments_placed,
    })
}

/// The image without the last comment of its list, if it has any.
fn without_last_comment(image: &[u8]) -> Vec<u8> {
    const COUNT: usize = 5;
    const LIST: usize = COUNT + 2;
    const PAIR: usize = 8;
    let mut image = image.to_vec();
    let number = |bytes: &[u8]| {
        bytes
            .iter()
            .fold(0, |sum, byte| sum << 8 | usize::from(*byte))
    };
    let body = number(&image[1..COUNT]);
    let count = number(&image[COUNT..LIST]);
    if count > 0 {
        let end = LIST + count * PAIR;
        image.drain(end - PAIR..end);
        let body = (body - PAIR) as u32;
        image[1..COUNT].copy_from_slice(&body.to_be_bytes());
        let count = (count - 1) as u16;
        image[COUNT..LIST].copy_from_slice(&count.to_be_bytes());
    }
    image
}

fn spoil_rows(world: &mut World, from: usize, to: usize) {
    if planted(Fault::PastRows)
        && let Some(cell) = world.store.get_mut(to * Row::CELLS)
    {
        *cell = 0;
    }
    for place in from..to {
        let row = &mut world.store[place * Row::CELLS..][..Row::CELLS];
        if planted(Fault::RowCell) && place % 50 == 49 {
            row[8] ^= 1;
        }
        if planted(Fault::Word) && row[5] == 2 && row[7] == 1 {
            row[6] += 1;
        }
    }
}

fn spoil_refused(store: &mut [u32], refusal: &mut Refusal) {
    refusal.place += u64::from(planted(Fault::RowsNeeded));
    if planted(Fault::RowsBeforeRefusal)
        && let Some(cell) = store.first_mut()
    {
        *cell ^= 1;
    }
}

fn put_laid(out: &mut [u64], state: &LayoutState, comments_left: usize) {
    let shift = planted(Fault::Position) && state.next_declaration == 4;
    let numbers = [
        0,
        comments_left,
        usize::from(state.begun),
        usize::from(state.closed),
        state.next_declaration,
        state.at.next_row,
        state.at.next_number,
        state.at.comments_placed,
        state.at.position + usize::from(shift),
        if planted(Fault::ModeNotCarried) {
            0
        } else {
            state.mode
        },
        if planted(Fault::LayoutRuleNotCarried) {
            0
        } else {
            state.rule
        },
    ];
    put(out, &numbers.map(|number| number as u64));
}

#[allow(clippy::too_many_arguments)]
pub fn render(
    source: &[u8],
    image: &[u8],
    store: &mut [u32],
    marks: &mut [u8],
    output: &mut [u8],
    state: &[u64; 264],
    args: &[u64; 4],
    out: &mut [u64; 267],
) {
    let mut world = World {
        store: store.to_vec(),
        marks: marks.to_vec(),
        rendering: render_state(state),
        ..World::default()
    };
    let before = world.rendering;
    let given = Given { source, image };
    let [stop, width, rule, allotment] = args.map(|number| number as usize);
    let args = RenderArgs {
        stop,
        room: output.len(),
        width: spoil_width(&mut world.rendering, width),
        rule,
        allotment,
    };
    let answer = allotments::render(given, &mut world, args);
    if planted(Fault::RowsTurned) {
        store.copy_from_slice(&world.store);
    }
    match answer {
        Ok(Answer::Written {
            mut state, entered, ..
        }) => {
            state.width = width;
            spoil_marks(&mut world, state.marks_in_use);
            marks.copy_from_slice(&world.marks);
            let text = respoken(given, world.text);
            let bytes = text.len();
            output[..bytes].copy_from_slice(&text);
            spoil_text(output, bytes);
            put_written(out, &state, bytes, entered);
        }
        Err(mut refusal) => {
            spoil_rendering(marks, &before, width, &mut refusal);
            put_refusal(out, refusal);
        }
        _ => unreachable!("a rendering call"),
    }
}

/// The width that a rendering call really gets.
fn spoil_width(state: &mut RenderState, width: usize) -> usize {
    let legal = width::check(width, state.width).is_ok();
    let eighty = planted(Fault::Eighty) && legal;
    if planted(Fault::WidthNotKept) || eighty {
        state.width = 0;
    }
    if eighty { width::REFERENCE } else { width }
}

fn spoil_rendering(
    marks: &mut [u8],
    before: &RenderState,
    width: usize,
    refusal: &mut Refusal,
) {
    if refusal.number == 10 && planted(Fault::MarksBeforeRefusal) {
        marks.iter_mut().for_each(|mark| *mark = 0);
    }
    if refusal.number == 11 && planted(Fault::FaultyRow) {
        refusal.place += 1;
    }
    if refusal.number == 11
        && planted(Fault::Order)
        && before.pen.indent > MOST_INDENT
    {
        *refusal = Refusal {
            number: 12,
            place: 0,
        };
    }
    let wrong = width::check(width, before.width).is_err();
    if refusal.number == 12 && planted(Fault::WidthFirst) && wrong {
        refusal.number = 15;
    }
}

fn spoil_marks(world: &mut World, in_use: usize) {
    let (used, rest) = world.marks.split_at_mut(in_use);
    if planted(Fault::Mark)
        && let Some(mark) = used.last_mut()
    {
        *mark = 0;
    }
    if planted(Fault::PastMarks)
        && let Some(mark) = rest.first_mut()
    {
        *mark = 0;
    }
}

fn spoil_text(output: &mut [u8], bytes: usize) {
    let (text, rest) = output.split_at_mut(bytes);
    if planted(Fault::TextByte)
        && let Some(byte) = text.last_mut()
    {
        *byte ^= 1;
    }
    if planted(Fault::PastText)
        && let Some(byte) = rest.first_mut()
    {
        *byte = 0;
    }
}

fn put_written(
    out: &mut [u64],
    state: &RenderState,
    bytes: usize,
    entered: usize,
) {
    let shift = planted(Fault::Column) && state.pen.column > 60;
    let numbers = [
        0,
        bytes,
        entered,
        state.pen.indent,
        state.pen.next_indent,
        state.pen.column + usize::from(shift),
        state.marks_in_use,
        state.next_row,
        state.width,
        if planted(Fault::RenderRuleNotCarried) {
            0
        } else {
            state.rule
        },
        state.listed.count,
    ];
    put(out, &numbers.map(|number| number as u64));
    let behind = &mut out[numbers.len()..];
    put(behind, state.listed.numbers());
    if planted(Fault::PastListed) {
        put(&mut behind[state.listed.count..], &[0]);
    }
}

/// The whole run on rows and marks of its own.
pub fn format(
    source: &[u8],
    image: &[u8],
    choice: &[u64; 3],
    output: &mut [u8],
    out: &mut [u64; 5],
) {
    let [width, mode, rule] = *choice;
    let given = Given { source, image };
    if let Err(refusal) = rules::check_whole(given, rule as usize) {
        return put_refusal(out, refusal);
    }
    let read = orders::strict(Entry::Whole, given, |reading| {
        reader::read_by(source, image, reading)
    });
    let declarations = match read {
        Ok(read) => read.tree.children.len() as u64 - 1,
        Err(refusal) => return put_refusal(out, refusal),
    };
    let mut tests =
        [mode::check(mode as usize), width::check(width as usize, 0)];
    if planted(Fault::WidthBeforeMode) {
        tests.reverse();
    }
    if planted(Fault::RowsFirst) {
        tests[1] = Ok(());
    }
    if let Some(refusal) = tests.into_iter().find_map(Result::err) {
        return put_refusal(out, refusal);
    }
    let mut store = vec![0; ROWS * Row::CELLS];
    let mut marks = vec![0; MARKS as usize];
    let mut laid = [0; 11];
    let (fresh, store) = ([0; 9], &mut store);
    // The order of the comments was looked at.
    let args = layout_args(&[declarations, 1, mode, rule], true);
    put_layout(store, &fresh, &mut laid, |world| {
        lay_out(given, world, args)
    });
    if laid[0] != 0 {
        return put(out, &laid[..2]);
    }
    let [rows, numbers] = [laid[5], laid[6]];
    let mut shown = [0; 267];
    let (fresh, marks) = ([0; 264], &mut marks);
    let args = [rows, width, rule, ALL_ROWS as u64];
    render(
        source, image, store, marks, output, &fresh, &args, &mut shown,
    );
    if shown[0] != 0 {
        if planted(Fault::OutputBeforeRefusal) {
            output.fill(0);
        }
        return put(out, &shown[..2]);
    }
    let bytes = shown[1] + u64::from(planted(Fault::WholeBytes));
    put(out, &[0, bytes, laid[1], rows, numbers]);
}

pub fn newlines(source: &[u8], start: u64, end: u64, out: &mut [u64; 2]) {
    let found = newlines::newlines(source, start as usize, end as usize);
    let [count, mut place] = [found.count, found.place].map(|n| n as u64);
    if planted(Fault::FirstNewline) && count > 0 {
        let from = start as usize;
        let first = source[from..].iter().position(|byte| *byte == b'\n');
        place = (from + first.expect("a newline")) as u64;
    }
    if planted(Fault::NoNewline) && count == 0 {
        place = start;
    }
    put(out, &[count, place]);
}

/// A file counted.
pub fn count(
    source: &[u8],
    image: &[u8],
    tallies: &[u64; 8],
    out: &mut [u64; 18],
) {
    let [files, all @ ..] = *tallies;
    let all = Figures::from_numbers(all);
    let mut before = Tallies { files, all };
    let early = planted(Fault::TalliesFirst) && !counts_nothing(&before);
    let all_wrapped = planted(Fault::AllWrapped)
        && all.wrapped == all.given
        && all.given > 0;
    if early || all_wrapped {
        return put_refusal(out, refusal(14, 0));
    }
    if planted(Fault::OneMoreFile) && files == MOST_FILES {
        before.files -= 1;
    }
    let given = Given { source, image };
    let counted = orders::strict(Entry::Count, given, |reading| {
        figures::count_by(Frame { source, image }, &before, reading)
    });
    match counted {
        Ok(counted) => put_counted(out, counted, all.column),
        Err(mut refusal) => {
            if planted(Fault::TwoCounted) && refusal.number == 20 {
                refusal.number = 3;
            }
            put_refusal(out, refusal);
        }
    }
}

/// Whether a file without a byte is counted on top of these.
fn counts_nothing(tallies: &Tallies) -> bool {
    let image = image::write(&[], &node(1, 0..0, [None]));
    let frame = Frame {
        source: b"",
        image: &image,
    };
    figures::count(frame, tallies).is_ok()
}

fn put_counted(out: &mut [u64], counted: Counted, column: u64) {
    let Counted {
        mut figures,
        mut tallies,
        mut fraction,
    } = counted;
    if planted(Fault::ColumnsAdded) {
        tallies.all.column = column + figures.column;
    }
    if planted(Fault::GreatestColumn) {
        figures.column = figures.column.saturating_sub(1);
    }
    if planted(Fault::Unreduced) {
        fraction = Fraction {
            over: tallies.all.wrapped,
            under: tallies.all.given,
        };
    }
    let all = tallies.all.numbers();
    let numbers = [
        &[0],
        &figures.numbers()[..],
        &[tallies.files],
        &all,
        &[fraction.over, fraction.under],
    ];
    put(out, &numbers.concat());
}
