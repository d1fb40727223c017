/*
 * The proved formatter for Roto scripts, as C calls it. The functions are those of librrufthim.a: target/staticlib/libexports.a, which
 * `tools/build exports` writes (x86-64 Linux), under a name that no other library has. docs/01-scope.md has the rules: the tree image,
 * rows, marks, states and refusals; docs/02-change-requests.md those of tallies, widths, modes, steps, batches, rules of widths, the
 * image's version 2, the order of comments, trees that would be read back differently and small formulas.
 *
 * Buffers. A pointer to bytes, rows or a table goes with the number of its elements; state, args, choice, tallies and out have a fixed
 * number of places, for which rrufthim_places.h has names. A pointer may be NULL where it goes with the number 0 (rrufthim_null.h), and
 * else not. store and table must be aligned for uint32_t, those of a fixed number of places for uint64_t. What a call may change (store,
 * marks, table, output, out) must overlap nothing else that it is given; all else is only read. Nothing is kept after a call, and no call
 * shares anything with another: threads need nothing but buffers of their own. A call takes less than 256 KB of stack and no heap.
 *
 * Answers. out[0] is 0 if the call is accepted; the other numbers are then those named at each function. Else out[0] is the refusal's
 * number and out[1] its place, and the rest of out is left as it was. A refused call changes no other buffer. An accepted one leaves what
 * lies behind the rows, marks, table and bytes that it writes as it was. (rrufthim_newlines refuses nothing, and its out has other numbers.)
 *
 * Rules of widths. Each call that lays out or renders is told by which of three rules texts are measured: RRUFTHIM_WIDTHS_SUPPLIED, as
 * Roto's own formatter does it (names as wide as the image says, literals by their bytes), or an edition of Unicode, which counts columns
 * for each character. Japanese has three bytes for most characters of two columns, so that by the first rule lists of literals wrap that fit.
 *
 * Versions. An image's first byte is RRUFTHIM_IMAGE_VERSION_1, and each of its texts stores a width; or RRUFTHIM_IMAGE_VERSION_2, and none
 * does. Version 2 is for archives: it is laid out and rendered by RRUFTHIM_WIDTHS_UNICODE_16_0 alone, and by any other rule refused by 20,
 * before all else. rrufthim_forward and rrufthim_back move an image from one to the other.
 *
 * Order. An image's comments must each start at or after the end of the one before. Images that were archived before this was asked for may
 * have them in any order: rrufthim_layout_archived lays these out as before, and rrufthim_forward and rrufthim_back move them; all other
 * functions that read comments refuse them by 7. rrufthim_render reads none.
 *
 * Flags. In state and args every number but 0 means yes; in out a flag is 0 or 1.
 *
 * For people. rrufthim_words says what a refusal's number means, and rrufthim_place_words what its place is (rrufthim_words.h). The span that a
 * refusal is about stands in the image, start and end as four bytes each, the highest first: for 5 and 6 behind the length and the kind of
 * the record, at image[out[1] + 5], and so for 21; for 7 at image[out[1]], unless out[1] is 5, the place of their count. That of an operand
 * which rrufthim_reads_back names is at image[out[2] + 5].
 */
#ifndef RRUFTHIM_H
#define RRUFTHIM_H

#include <stddef.h>
#include <stdint.h>

#ifdef __cplusplus
extern "C" {
#endif

/* The library is for 64-bit machines: elsewhere this has no size. */
typedef char rrufthim_lengths_have_64_bits[sizeof(size_t) == 8 ? 1 : -1];

/* Refusals: out[0], with what out[1] is then. */
#define RRUFTHIM_SOURCE_TOO_LONG 1  /* the source is over 65,536 bytes: 0 */
#define RRUFTHIM_SOURCE_NOT_UTF8 2  /* the source isn't well-formed UTF-8: first byte of the bad sequence */
#define RRUFTHIM_NO_IMAGE 3         /* the tree image's version or length is wrong, or its body over 1,048,576 bytes: 0 */
#define RRUFTHIM_BAD_RECORD 4       /* a record of the tree image is malformed: offset in the image */
#define RRUFTHIM_TOO_DEEP 5         /* a record of the tree image is over 64 deep: record's offset in the image */
#define RRUFTHIM_BAD_SPAN 6         /* a record's span is no range of characters of the source: record's offset in the image */
#define RRUFTHIM_BAD_COMMENT 7      /* the comment list is cut off or over 8,192, or a comment is empty or no range of characters of the source,
                                       or, but in an archived image, starts before the end of the one before: offset of the count or the
                                       comment in the image */
#define RRUFTHIM_MORE_ROWS 8        /* the store has too few rows: rows needed in all */
#define RRUFTHIM_MORE_MARKS 9       /* there are too few marks: marks needed */
#define RRUFTHIM_MORE_OUTPUT 10     /* the output is too short: bytes needed */
#define RRUFTHIM_BAD_ROW 11         /* a row of the store can't be rendered, or the stop is past the store or 2,097,152: row, or 0 for the stop */
#define RRUFTHIM_BAD_STATE 12       /* the state, the marks in use or the stop doesn't fit, or the mode (comments at the foot) is over 1, or it or
                                       the rule of widths not that of the calls before: 0 */
#define RRUFTHIM_BAD_TALLIES 14     /* the tallies count 4,096 files, one of them is over 4,294,967,296, or more groups are wrapped than given: 0 */
#define RRUFTHIM_BAD_WIDTH 15       /* the width is under 40 or over 200 columns, or not that of the calls before: 0 */
#define RRUFTHIM_BAD_STEP 16        /* a step is unknown, cut off or wrong there, as a comment is that starts before the end of the one before, or
                                       something is missing at the list's end: offset in the list */
#define RRUFTHIM_MORE_ROOM 17       /* the output is too short for the image or the steps, or the image's body over 1,048,576 bytes: bytes needed */
#define RRUFTHIM_BAD_BATCH 18       /* a frame of the batch runs past the buffer, or is the 257th: frame's offset in the buffer */
#define RRUFTHIM_MORE_FOR_BATCH 19  /* the table of the batch is too short, or the output: numbers of the table, or bytes, needed */
#define RRUFTHIM_BAD_RULE 20        /* the rule of widths is none of 1 (supplied), 2 (Unicode 15.1) and 3 (Unicode 16.0), or the image is of version
                                       2, which has no widths, and the rule not 3: 0 */
#define RRUFTHIM_WRONG_WIDTH 21     /* a width that the image stores isn't what Unicode 16.0 gives its text (the shebang's without blanks at its
                                       end), or a text of an image of version 2 is over 65,535 columns: text record's offset in the image */
#define RRUFTHIM_NO_ALLOTMENT 22    /* no row may be entered: 0 */
#define RRUFTHIM_BAD_LISTED_ROWS 23 /* the listed rows aren't those that enclose the next row, or are over 256, or closing them would take the
                                       indent under 0: 0 */
#define RRUFTHIM_NO_FORMULA 24      /* the size of a formula is outside 1 to 7, or its place isn't under the number of those: 0 */

/* Limits: past them a file is refused. A text may be longer than a source: such a text can't be formatted again. */
#define RRUFTHIM_MAX_SOURCE 65536    /* bytes of a source */
#define RRUFTHIM_MAX_BODY 1048576    /* bytes of an image behind its first five */
#define RRUFTHIM_MAX_COMMENTS 8192
#define RRUFTHIM_MAX_DEPTH 64        /* records in each other, the tree being 1 */
#define RRUFTHIM_MAX_WIDTH 65535     /* columns of a text */
#define RRUFTHIM_MIN_LINE_WIDTH 40   /* columns of a line that may be chosen */
#define RRUFTHIM_MAX_LINE_WIDTH 200
#define RRUFTHIM_REFERENCE_WIDTH 80  /* what Roto's own formatter has */
#define RRUFTHIM_AS_ROTO 0           /* modes: comments after the last declaration are left out, as by Roto's own formatter */
#define RRUFTHIM_ALL_COMMENTS 1      /* they are kept, at the foot of the text */
#define RRUFTHIM_WIDTHS_SUPPLIED 1   /* rules of widths: names are as wide as the image says, literals by their bytes, as by Roto's own */
#define RRUFTHIM_WIDTHS_UNICODE_15_1 2 /* a character has 2 columns if East_Asian_Width is W or F, else 0 if General_Category is Mn or Me, */
#define RRUFTHIM_WIDTHS_UNICODE_16_0 3 /* else 1: by Unicode 15.1, and by Unicode 16.0 */
#define RRUFTHIM_IMAGE_VERSION_1 1   /* an image's first byte: each text has its width in two bytes before it */
#define RRUFTHIM_IMAGE_VERSION_2 2   /* it has none */
#define RRUFTHIM_MAX_FILES 4096      /* files that tallies count */
#define RRUFTHIM_MAX_TALLY 4294967296 /* each of the tallies handed in */
#define RRUFTHIM_MAX_BATCH 256       /* files of a batch */
#define RRUFTHIM_MAX_LISTED_ROWS 256 /* rows that a rendering state lists */
#define RRUFTHIM_ALL_ROWS UINT64_MAX /* the largest allotment: as many rows as there are */
#define RRUFTHIM_MAX_FORMULA_SIZE 7  /* expression records of a formula */

/* Sizes. */
#define RRUFTHIM_ROW 9               /* numbers of the store that a row takes; store_len / 9 rows, rounded down */
#define RRUFTHIM_MAX_FILE_ROWS 1800  /* the rows, and the marks, of rrufthim_format, rrufthim_count and each file of a batch */
#define RRUFTHIM_COUNT_OUTPUT 65536  /* bytes of output that rrufthim_count has of its own */
#define RRUFTHIM_LAYOUT_STATE 9      /* places of a layout state */
#define RRUFTHIM_RENDER_STATE 264    /* places of a rendering state */
#define RRUFTHIM_LAYOUT_ARGS 4       /* places of a layout call's arguments */
#define RRUFTHIM_RENDER_ARGS 4       /* places of a rendering call's arguments */
#define RRUFTHIM_FORMAT_CHOICE 3     /* places of a whole file's choice */
#define RRUFTHIM_TABLE_ROW 3         /* numbers of a batch's table that a file takes */
#define RRUFTHIM_TALLIES 8           /* places of tallies */
#define RRUFTHIM_CHECK_OUT 4         /* places of each function's out */
#define RRUFTHIM_LAYOUT_OUT 11
#define RRUFTHIM_RENDER_OUT 267
#define RRUFTHIM_FORMAT_OUT 5
#define RRUFTHIM_NEWLINES_OUT 2
#define RRUFTHIM_COUNT_OUT 18
#define RRUFTHIM_WRITE_OUT 2
#define RRUFTHIM_STEPS_OUT 2
#define RRUFTHIM_BATCH_OUT 3
#define RRUFTHIM_COLUMNS_OUT 2
#define RRUFTHIM_FORWARD_OUT 2
#define RRUFTHIM_BACK_OUT 2
#define RRUFTHIM_READS_BACK_OUT 3
#define RRUFTHIM_FORMULA_OUT 2

/*
 * A row that a rendering state lists, as a number: RRUFTHIM_LISTED_ROW(row, way, wraps), with its place in the store, the way that a call of a
 * function went (of any other row RRUFTHIM_WAY_TRAILING), and 1 if its parts wrap (of a call of a function those of the part that the next
 * row is in), else 0. What a call answers can be handed on as it is.
 */
#define RRUFTHIM_WAY_TRAILING 0      /* its arguments trail on the line of its callee */
#define RRUFTHIM_WAY_MADE_FLAT 1     /* a group is made up around both, on one line */
#define RRUFTHIM_WAY_MADE_WRAPPED 2  /* it is made up, over lines */
#define RRUFTHIM_LISTED_FACTS 6      /* numbers that stand for one row */
#define RRUFTHIM_LISTED_ROW(row, way, wraps) ((uint64_t)(row) * RRUFTHIM_LISTED_FACTS + 2 * (uint64_t)(way) + (uint64_t)(wraps))

/*
 * Which library this header is for.
 *
 * RRUFTHIM_SHAPE is the number of the functions' shape: how many parameters, of which kinds, arrays of how many places. It is raised with each
 * change of these, or of what a place means, and the library's symbols end in it. So a library of another shape isn't linked: the linker names
 * the symbol that it misses, such as rrufthim_check_s followed by this number. Who calls writes the names without it.
 *
 * RRUFTHIM_VERSION is the version of this header and of the crate for Rust beside it, major.minor; RRUFTHIM_VERSION_NUMBER is 1,000 times the
 * major and the minor, for #if. The minor is raised where something is added, the major where something changes that was there; as long as
 * the major is 0, the minor is raised for both. Another shape is always another version too.
 */
#define RRUFTHIM_SHAPE 3
#define RRUFTHIM_VERSION "0.8"
#define RRUFTHIM_VERSION_NUMBER 8

#define RRUFTHIM_JOIN_AS_IT_IS(name, number) name##number
#define RRUFTHIM_JOIN(name, number) RRUFTHIM_JOIN_AS_IT_IS(name, number)
#define RRUFTHIM_SYMBOL(name) RRUFTHIM_JOIN(rrufthim_##name##_s, RRUFTHIM_SHAPE)
#define rrufthim_check RRUFTHIM_SYMBOL(check)
#define rrufthim_layout RRUFTHIM_SYMBOL(layout)
#define rrufthim_layout_archived RRUFTHIM_SYMBOL(layout_archived)
#define rrufthim_render RRUFTHIM_SYMBOL(render)
#define rrufthim_format RRUFTHIM_SYMBOL(format)
#define rrufthim_newlines RRUFTHIM_SYMBOL(newlines)
#define rrufthim_count RRUFTHIM_SYMBOL(count)
#define rrufthim_write RRUFTHIM_SYMBOL(write)
#define rrufthim_steps RRUFTHIM_SYMBOL(steps)
#define rrufthim_batch RRUFTHIM_SYMBOL(batch)
#define rrufthim_columns RRUFTHIM_SYMBOL(columns)
#define rrufthim_forward RRUFTHIM_SYMBOL(forward)
#define rrufthim_back RRUFTHIM_SYMBOL(back)
#define rrufthim_reads_back RRUFTHIM_SYMBOL(reads_back)
#define rrufthim_formula RRUFTHIM_SYMBOL(formula)

/*
 * Whether a source and its tree image, of either version, are accepted. Refusals 1 to 7.
 *
 * out: [0] 0, [1] number of comments, [2] offset of the tree's record in the image, [3] number of declarations: the stop at which
 *      rrufthim_layout may close.
 */
void rrufthim_check(
    const uint8_t *source, size_t source_len,
    const uint8_t *image, size_t image_len,
    uint64_t out[RRUFTHIM_CHECK_OUT]);

/*
 * Lays out the declarations from the state's next one up to a stop, that one not included. The first call lays the shebang too. Closing,
 * allowed where the stop is the number of declarations, adds the final line and ends the layout; in mode 1 it lays the comments that are
 * still waiting before that line. Refusals 20, 1 to 7, 12, 8.
 *
 * state: [0] begun (flag), [1] closed (flag), [2] next declaration, [3] next row, [4] next group number, [5] comments placed,
 *        [6] position in the source, [7] mode, [8] rule of widths, 0 for none yet. Fresh: all 0. Later: out[2] to out[10] of the last
 *        accepted call.
 * args:  [0] the declaration to stop before, [1] whether to close (flag), [2] the mode, RRUFTHIM_ALL_COMMENTS or RRUFTHIM_AS_ROTO, [3] the
 *        rule of widths, RRUFTHIM_WIDTHS_..: both the same in all calls of a run. Mode 1 is what a user should get; nothing is chosen unless
 *        you do.
 * store: is written from the state's next row on. Five rows for each 13 bytes of image are enough for what is still to be laid out. By an
 *        edition of Unicode the rows of names hold their sums, and the image's widths are not looked at.
 * out:   [0] 0, [1] comments that no row holds yet, [2] to [10] the new state. After closing, out[1] comments are in no row and so not in
 *        the text: the last out[1] of the image's list. In mode 1 there are none; in mode 0 look at it before you save.
 */
void rrufthim_layout(
    const uint8_t *source, size_t source_len,
    const uint8_t *image, size_t image_len,
    uint32_t *store, size_t store_len,
    const uint64_t state[RRUFTHIM_LAYOUT_STATE],
    const uint64_t args[RRUFTHIM_LAYOUT_ARGS],
    uint64_t out[RRUFTHIM_LAYOUT_OUT]);

/*
 * The same for an archived image, whose comments may be in any order; they are laid in the order of their list. Refusals as rrufthim_layout, but
 * for a comment that starts before the end of the one before (7). What rrufthim_layout accepts, this answers alike; a run may mix both,
 * since no state holds by which a call was made. There is no archive function for a whole file: make this call and rrufthim_render.
 */
void rrufthim_layout_archived(
    const uint8_t *source, size_t source_len,
    const uint8_t *image, size_t image_len,
    uint32_t *store, size_t store_len,
    const uint64_t state[RRUFTHIM_LAYOUT_STATE],
    const uint64_t args[RRUFTHIM_LAYOUT_ARGS],
    uint64_t out[RRUFTHIM_LAYOUT_OUT]);

/*
 * Renders the rows from the state's next one up to a stop, at a width, and of them at most as many as are allotted: it stops when they are
 * spent, wherever that is, and the next call goes on from there. Refusals 20, 1, 3, 11, 12, 15, 22, 23, 9, 10; by an edition of Unicode also
 * 2, before 3, and 11 for a row's text that isn't UTF-8 or cuts a character.
 *
 * state:  [0] indent, [1] next indent, [2] column, [3] marks in use, [4] next row, [5] width and [6] rule of widths, 0 for none yet, [7] how
 *         many rows are listed, those that enclose the next one, [8] on: these, outermost first, as numbers (RRUFTHIM_LISTED_ROW). Places
 *         behind them are not read. Fresh: [0] to [7] are 0. Later: out[3] on of the last accepted call.
 * args:   [0] the row to stop before, [1] the width, 40 to 200 columns, [2] the rule of widths, RRUFTHIM_WIDTHS_..: both the same in all
 *         calls of a run. Literals are measured by it; names are as wide as layout wrote them, so let layout have the same rule. [3] the rows
 *         that may be entered, 1 at least: RRUFTHIM_ALL_ROWS to go to the stop. A call tests all rows from the first listed one, or the next,
 *         to its stop: for short calls let it stop at the end of the next declaration.
 * store:  is used during the call, and holds the same after it.
 * marks:  a byte for each group number, 1 wrapped, 0 not; keep them from call to call. What they hold before the first doesn't matter.
 * output: is written from its start on, in every call: take the bytes before the next one.
 * out:    [0] 0, [1] bytes written, [2] rows entered, [3] to [9] the new state's first seven numbers, [10] how many rows it lists, [11] on:
 *         these. Places behind them are left as they were.
 */
void rrufthim_render(
    const uint8_t *source, size_t source_len,
    const uint8_t *image, size_t image_len,
    uint32_t *store, size_t store_len,
    uint8_t *marks, size_t marks_len,
    uint8_t *output, size_t output_len,
    const uint64_t state[RRUFTHIM_RENDER_STATE],
    const uint64_t args[RRUFTHIM_RENDER_ARGS],
    uint64_t out[RRUFTHIM_RENDER_OUT]);

/*
 * Lays out and renders a whole file of at most 1,800 rows. Larger files are refused by 8: make the two calls above. Refusals 20, 1 to 7, 12
 * for the mode, 15, 8, 9, 10.
 *
 * choice: [0] the width, 40 to 200 columns, [1] the mode, RRUFTHIM_ALL_COMMENTS or RRUFTHIM_AS_ROTO, [2] the rule of widths,
 *         RRUFTHIM_WIDTHS_..
 * output: is written from its start on.
 * out:    [0] 0, [1] bytes written, [2] comments that the text doesn't hold, the last so many of the image's list, [3] rows and
 *         [4] group numbers that the file took. In mode 1 out[2] is 0; in mode 0 look at it before you save.
 */
void rrufthim_format(
    const uint8_t *source, size_t source_len,
    const uint8_t *image, size_t image_len,
    const uint64_t choice[RRUFTHIM_FORMAT_CHOICE],
    uint8_t *output, size_t output_len,
    uint64_t out[RRUFTHIM_FORMAT_OUT]);

/*
 * The newlines (0x0A) of the source from start up to end, that one not included: to jump to the gap that made a blank line (README.md,
 * "Jump to the gap", says which ranges are such gaps). It refuses nothing. Where the range is reversed, ends past the source, or starts or
 * ends inside a character (at a byte from 0x80 to 0xBF), none is counted. The source need not be UTF-8.
 *
 * out: [0] how many, [1] the place of the last one, or end if there is none.
 */
void rrufthim_newlines(
    const uint8_t *source, size_t source_len,
    uint64_t start,
    uint64_t end,
    uint64_t out[RRUFTHIM_NEWLINES_OUT]);

/*
 * Counts a file: formats it at 80 columns in mode 0 with supplied widths, in 1,800 rows, 1,800 marks and 65,536 bytes of output of its own,
 * and adds its figures to the tallies. The tallies of the same files are the same in any order. Refusals 20 for an image of version 2, 1 to
 * 10, then 14; a refused file counts nowhere.
 *
 * tallies: [0] files counted, and of them all [1] bytes and [2] newlines of the texts, [3] the greatest column, [4] group numbers given,
 *          [5] groups wrapped, [6] comments in the texts, [7] comments that they don't hold. Fresh: all 0. Later: out[8] to out[15] of
 *          the last accepted call.
 * out:     [0] 0, [1] to [7] the figures of this file, in the order of tallies[1] to tallies[7], [8] to [15] the new tallies, [16] and
 *          [17] groups wrapped over group numbers given of all files, as a reduced fraction: 0 and 1 if none is given.
 */
void rrufthim_count(
    const uint8_t *source, size_t source_len,
    const uint8_t *image, size_t image_len,
    const uint64_t tallies[RRUFTHIM_TALLIES],
    uint64_t out[RRUFTHIM_COUNT_OUT]);

/*
 * Writes an image of version 1 from steps, for who has no source: a generator. A step is a byte, then its numbers, the highest byte first:
 *   1 comment: start, end, four bytes each; before all other steps, and at or after the end of the one before
 *   2 open a record: kind, one byte; start and end of its span, four bytes each
 *   3 text, of the text record just opened: width, two bytes; length, four bytes; the text, which is UTF-8
 *   4 payload byte, of the record just opened: one byte
 *   5 a child that is absent
 *   6 close the record opened last
 * Refusals 16, then 17; both leave the output as it was.
 *
 * output: is written from its start on.
 * out:    [0] 0, [1] bytes of the image.
 */
void rrufthim_write(
    const uint8_t *steps, size_t steps_len,
    uint8_t *output, size_t output_len,
    uint64_t out[RRUFTHIM_WRITE_OUT]);

/*
 * The steps of an image of version 1, read with its source: those that rrufthim_write turns into it, and no others do. Refusals 1 to 7 (3 for
 * version 2 too), then 17. Six bytes of output for each five of image are enough.
 *
 * output: is written from its start on.
 * out:    [0] 0, [1] bytes of the steps.
 */
void rrufthim_steps(
    const uint8_t *source, size_t source_len,
    const uint8_t *image, size_t image_len,
    uint8_t *output, size_t output_len,
    uint64_t out[RRUFTHIM_STEPS_OUT]);

/*
 * Formats a night's saves: up to 256 files, each as by rrufthim_format with output enough. A file that is refused adds no text and changes
 * nothing for the others. Refusals 18, then 19, for the table and then for the output; both before anything is written.
 *
 * frames: for each file its source's length and its image's, four bytes each, the highest first; the source; the image. Nothing stands
 *         between two files or behind the last. No byte at all is a batch of no file.
 * choice: as for rrufthim_format, for all files. A width, mode or rule that can't be chosen refuses each file, in its row of the table.
 * table:  three numbers a file, in their order: 0 or what refuses the file (1 to 9, 12, 15, 20), 0 or the place of that, and the bytes of
 *         its text. 19 is about the table if table_len is under three for each file; it is then out[1] places, else out[1] bytes of output.
 * output: gets the texts one after another, from its start on.
 * out:    [0] 0, [1] number of files, [2] bytes of all texts. In mode 0 the table doesn't say which texts lack comments: rrufthim_format
 *         does, file by file.
 */
void rrufthim_batch(
    const uint8_t *frames, size_t frames_len,
    const uint64_t choice[RRUFTHIM_FORMAT_CHOICE],
    uint32_t *table, size_t table_len,
    uint8_t *output, size_t output_len,
    uint64_t out[RRUFTHIM_BATCH_OUT]);

/*
 * How many columns a text takes by a rule of widths: what lines are measured by, for who shows it. Refusal 20.
 *
 * text:     any bytes. Of a text that isn't UTF-8, an edition of Unicode counts what stands before the first bad sequence.
 * rule:     RRUFTHIM_WIDTHS_..
 * supplied: the columns by RRUFTHIM_WIDTHS_SUPPLIED, by which a text has those that its caller says. By the others it isn't looked at.
 * out:      [0] 0, [1] the columns.
 */
void rrufthim_columns(
    const uint8_t *text, size_t text_len,
    uint64_t rule,
    uint64_t supplied,
    uint64_t out[RRUFTHIM_COLUMNS_OUT]);

/*
 * For archives: the image of version 1 as one of version 2, which is the same without the two bytes of each text's width. It is allowed where
 * each width is what RRUFTHIM_WIDTHS_UNICODE_16_0 gives, the shebang's without the blanks at its end; then rrufthim_back returns the same bytes.
 * Refusals 1 to 7 (3 for version 2 too, 7 but for the order of comments), 21, 17; each leaves the output as it was.
 *
 * output: is written from its start on; as many bytes as the image has are enough.
 * out:    [0] 0, [1] bytes of the moved image.
 */
void rrufthim_forward(
    const uint8_t *source, size_t source_len,
    const uint8_t *image, size_t image_len,
    uint8_t *output, size_t output_len,
    uint64_t out[RRUFTHIM_FORWARD_OUT]);

/*
 * The way back: the image of version 2 as one of version 1, with the widths that RRUFTHIM_WIDTHS_UNICODE_16_0 gives. Refusals 1 to 7 (3 for
 * version 1 too, 7 but for the order of comments), 21 for a text of more columns than two bytes hold, 17, also for a body that would be over
 * RRUFTHIM_MAX_BODY, whatever is lent; each leaves the output as it was.
 *
 * output: is written from its start on; two bytes more for each thirteen of the image are enough.
 * out:    [0] 0, [1] bytes of the moved image.
 */
void rrufthim_back(
    const uint8_t *source, size_t source_len,
    const uint8_t *image, size_t image_len,
    uint8_t *output, size_t output_len,
    uint64_t out[RRUFTHIM_BACK_OUT]);

/*
 * Whether the text of an image's tree, of either version, would be read back as this tree, by the precedences of Roto's parser: for who builds
 * trees, such as a generator, before it hands them on. No parentheses are added to an operator (kind 63) that needs them: it must not stand
 * where it would be read at another place, as a sum does under a product, nor directly under a 60 (not) or a 64 (negation). A record of
 * kind 70 is what parentheses are. No other function asks this. Refusals 1 to 7.
 *
 * out: [0] 0, [1] 1 for yes, 0 for no, [2] 0, or for no the offset in the image of the first operand, in reading order, that breaks a rule: a
 *      record of kind 63. Yes is said by the rules for operators alone; a text may come back as another tree for other reasons.
 */
void rrufthim_reads_back(
    const uint8_t *source, size_t source_len,
    const uint8_t *image, size_t image_len,
    uint64_t out[RRUFTHIM_READS_BACK_OUT]);

/*
 * For tests: writes the image, of version 1, of the formula at a place, from 0, of those of a size. The formulas of a size are all expressions
 * from the path a (56), negation (64), parentheses (70) and the operators + and * (63) with so many records of these kinds, each once, as the
 * value of const c: u32; every span is 0, 0, so that the image goes with every source. In order: by kind number, operator place, size of the left
 * operand, then the left, then the right or only operand in this same order. Of sizes 1 to 7 there are 1, 2, 6, 20, 72, 272 and 1,064.
 * Refusals 24, 17; each leaves the output as it was.
 *
 * output: is written from its start on; 350 bytes are enough for each.
 * out:    [0] 0, [1] bytes of the image.
 */
void rrufthim_formula(
    uint64_t size,
    uint64_t place,
    uint8_t *output, size_t output_len,
    uint64_t out[RRUFTHIM_FORMULA_OUT]);

#include "rrufthim_places.h"
#include "rrufthim_null.h"
#include "rrufthim_words.h"

#ifdef __cplusplus
}
#endif

#endif
