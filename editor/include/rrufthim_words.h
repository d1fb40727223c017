/*
 * Words for people: what is wrong, by the number that a call answered in RRUFTHIM_OUT_REFUSAL, and what the number in RRUFTHIM_OUT_PLACE is
 * then. They are those of the crate for Rust beside it (Refusal::TABLE). rrufthim.h includes this file.
 */
#ifndef RRUFTHIM_WORDS_H
#define RRUFTHIM_WORDS_H

/* What is wrong, or a word for a number that there is not; never NULL. */
static inline const char *rrufthim_words(uint64_t refusal)
{
    switch (refusal) {
        case 0: return "accepted";
        case RRUFTHIM_SOURCE_TOO_LONG:
            return "the source is over 65,536 bytes";
        case RRUFTHIM_SOURCE_NOT_UTF8:
            return "the source isn't well-formed UTF-8";
        case RRUFTHIM_NO_IMAGE:
            return "the tree image's version or length is wrong, or its body over 1,048,576 bytes";
        case RRUFTHIM_BAD_RECORD:
            return "a record of the tree image is malformed";
        case RRUFTHIM_TOO_DEEP:
            return "a record of the tree image is over 64 deep";
        case RRUFTHIM_BAD_SPAN:
            return "a record's span is no range of characters of the source";
        case RRUFTHIM_BAD_COMMENT:
            return "the comment list is cut off or over 8,192, or a comment is empty or no range of characters of the source, or, "
                   "but in an archived image, starts before the end of the one before";
        case RRUFTHIM_MORE_ROWS:
            return "the store has too few rows";
        case RRUFTHIM_MORE_MARKS:
            return "there are too few marks";
        case RRUFTHIM_MORE_OUTPUT:
            return "the output is too short";
        case RRUFTHIM_BAD_ROW:
            return "a row of the store can't be rendered, or the stop is past the store or 2,097,152";
        case RRUFTHIM_BAD_STATE:
            return "the state, the marks in use or the stop doesn't fit, or the mode (comments at the foot) is over 1, or it or "
                   "the rule of widths not that of the calls before";
        case RRUFTHIM_BAD_TALLIES:
            return "the tallies count 4,096 files, one of them is over 4,294,967,296, or more groups are wrapped than given";
        case RRUFTHIM_BAD_WIDTH:
            return "the width is under 40 or over 200 columns, or not that of the calls before";
        case RRUFTHIM_BAD_STEP:
            return "a step is unknown, cut off or wrong there, as a comment is that starts before the end of the one before, or "
                   "something is missing at the list's end";
        case RRUFTHIM_MORE_ROOM:
            return "the output is too short for the image or the steps, or the image's body over 1,048,576 bytes";
        case RRUFTHIM_BAD_BATCH:
            return "a frame of the batch runs past the buffer, or is the 257th";
        case RRUFTHIM_MORE_FOR_BATCH:
            return "the table of the batch is too short, or the output";
        case RRUFTHIM_BAD_RULE:
            return "the rule of widths is none of 1 (supplied), 2 (Unicode 15.1) and 3 (Unicode 16.0), or the image is of version "
                   "2, which has no widths, and the rule not 3";
        case RRUFTHIM_WRONG_WIDTH:
            return "a width that the image stores isn't what Unicode 16.0 gives its text (the shebang's without blanks at its "
                   "end), or a text of an image of version 2 is over 65,535 columns";
        case RRUFTHIM_NO_ALLOTMENT:
            return "no row may be entered";
        case RRUFTHIM_BAD_LISTED_ROWS:
            return "the listed rows aren't those that enclose the next row, or are over 256, or closing them would take the indent "
                   "under 0";
        case RRUFTHIM_NO_FORMULA:
            return "the size of a formula is outside 1 to 7, or its place isn't under the number of those";
        default: return "a number that this header doesn't know";
    }
}

/* What its place is, or NULL where it has none. */
static inline const char *rrufthim_place_words(uint64_t refusal)
{
    switch (refusal) {
        case RRUFTHIM_SOURCE_NOT_UTF8: return "first byte of the bad sequence";
        case RRUFTHIM_BAD_RECORD: return "offset in the image";
        case RRUFTHIM_TOO_DEEP: return "record's offset in the image";
        case RRUFTHIM_BAD_SPAN: return "record's offset in the image";
        case RRUFTHIM_BAD_COMMENT: return "offset of the count or the comment in the image";
        case RRUFTHIM_MORE_ROWS: return "rows needed in all";
        case RRUFTHIM_MORE_MARKS: return "marks needed";
        case RRUFTHIM_MORE_OUTPUT: return "bytes needed";
        case RRUFTHIM_BAD_ROW: return "row, or 0 for the stop";
        case RRUFTHIM_BAD_STEP: return "offset in the list";
        case RRUFTHIM_MORE_ROOM: return "bytes needed";
        case RRUFTHIM_BAD_BATCH: return "frame's offset in the buffer";
        case RRUFTHIM_MORE_FOR_BATCH: return "numbers of the table, or bytes, needed";
        case RRUFTHIM_WRONG_WIDTH: return "text record's offset in the image";
        default: return NULL;
    }
}

#endif
