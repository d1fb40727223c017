/*
 * NULL for no elements: where a pointer goes with the number of its elements and that is 0, it may be NULL. The library's own functions, whose
 * symbols end in the shape's number, are handed a place that is never read or written. rrufthim.h includes this file.
 */
#ifndef RRUFTHIM_NULL_H
#define RRUFTHIM_NULL_H

static inline const uint8_t *rrufthim_lent(const uint8_t *bytes, size_t len)
{
    static const uint8_t nothing = 0;

    return bytes == NULL && len == 0 ? &nothing : bytes;
}

static inline uint8_t *rrufthim_lent_out(uint8_t *bytes, size_t len)
{
    static uint8_t nothing;

    return bytes == NULL && len == 0 ? &nothing : bytes;
}

static inline uint32_t *rrufthim_lent_numbers(uint32_t *numbers, size_t len)
{
    static uint32_t nothing;

    return numbers == NULL && len == 0 ? &nothing : numbers;
}

#undef rrufthim_check
static inline void rrufthim_check(
    const uint8_t *source, size_t source_len,
    const uint8_t *image, size_t image_len,
    uint64_t out[RRUFTHIM_CHECK_OUT])
{
    RRUFTHIM_SYMBOL(check)(rrufthim_lent(source, source_len), source_len, rrufthim_lent(image, image_len), image_len, out);
}

#undef rrufthim_layout
static inline void rrufthim_layout(
    const uint8_t *source, size_t source_len,
    const uint8_t *image, size_t image_len,
    uint32_t *store, size_t store_len,
    const uint64_t state[RRUFTHIM_LAYOUT_STATE],
    const uint64_t args[RRUFTHIM_LAYOUT_ARGS],
    uint64_t out[RRUFTHIM_LAYOUT_OUT])
{
    RRUFTHIM_SYMBOL(layout)(rrufthim_lent(source, source_len), source_len, rrufthim_lent(image, image_len), image_len,
        rrufthim_lent_numbers(store, store_len), store_len, state, args, out);
}

#undef rrufthim_layout_archived
static inline void rrufthim_layout_archived(
    const uint8_t *source, size_t source_len,
    const uint8_t *image, size_t image_len,
    uint32_t *store, size_t store_len,
    const uint64_t state[RRUFTHIM_LAYOUT_STATE],
    const uint64_t args[RRUFTHIM_LAYOUT_ARGS],
    uint64_t out[RRUFTHIM_LAYOUT_OUT])
{
    RRUFTHIM_SYMBOL(layout_archived)(rrufthim_lent(source, source_len), source_len, rrufthim_lent(image, image_len), image_len,
        rrufthim_lent_numbers(store, store_len), store_len, state, args, out);
}

#undef rrufthim_render
static inline void rrufthim_render(
    const uint8_t *source, size_t source_len,
    const uint8_t *image, size_t image_len,
    uint32_t *store, size_t store_len,
    uint8_t *marks, size_t marks_len,
    uint8_t *output, size_t output_len,
    const uint64_t state[RRUFTHIM_RENDER_STATE],
    const uint64_t args[RRUFTHIM_RENDER_ARGS],
    uint64_t out[RRUFTHIM_RENDER_OUT])
{
    RRUFTHIM_SYMBOL(render)(rrufthim_lent(source, source_len), source_len, rrufthim_lent(image, image_len), image_len,
        rrufthim_lent_numbers(store, store_len), store_len, rrufthim_lent_out(marks, marks_len), marks_len,
        rrufthim_lent_out(output, output_len), output_len, state, args, out);
}

#undef rrufthim_format
static inline void rrufthim_format(
    const uint8_t *source, size_t source_len,
    const uint8_t *image, size_t image_len,
    const uint64_t choice[RRUFTHIM_FORMAT_CHOICE],
    uint8_t *output, size_t output_len,
    uint64_t out[RRUFTHIM_FORMAT_OUT])
{
    RRUFTHIM_SYMBOL(format)(rrufthim_lent(source, source_len), source_len, rrufthim_lent(image, image_len), image_len, choice,
        rrufthim_lent_out(output, output_len), output_len, out);
}

#undef rrufthim_newlines
static inline void rrufthim_newlines(
    const uint8_t *source, size_t source_len,
    uint64_t start,
    uint64_t end,
    uint64_t out[RRUFTHIM_NEWLINES_OUT])
{
    RRUFTHIM_SYMBOL(newlines)(rrufthim_lent(source, source_len), source_len, start, end, out);
}

#undef rrufthim_count
static inline void rrufthim_count(
    const uint8_t *source, size_t source_len,
    const uint8_t *image, size_t image_len,
    const uint64_t tallies[RRUFTHIM_TALLIES],
    uint64_t out[RRUFTHIM_COUNT_OUT])
{
    RRUFTHIM_SYMBOL(count)(rrufthim_lent(source, source_len), source_len, rrufthim_lent(image, image_len), image_len, tallies, out);
}

#undef rrufthim_write
static inline void rrufthim_write(
    const uint8_t *steps, size_t steps_len,
    uint8_t *output, size_t output_len,
    uint64_t out[RRUFTHIM_WRITE_OUT])
{
    RRUFTHIM_SYMBOL(write)(rrufthim_lent(steps, steps_len), steps_len, rrufthim_lent_out(output, output_len), output_len, out);
}

#undef rrufthim_steps
static inline void rrufthim_steps(
    const uint8_t *source, size_t source_len,
    const uint8_t *image, size_t image_len,
    uint8_t *output, size_t output_len,
    uint64_t out[RRUFTHIM_STEPS_OUT])
{
    RRUFTHIM_SYMBOL(steps)(rrufthim_lent(source, source_len), source_len, rrufthim_lent(image, image_len), image_len,
        rrufthim_lent_out(output, output_len), output_len, out);
}

#undef rrufthim_batch
static inline void rrufthim_batch(
    const uint8_t *frames, size_t frames_len,
    const uint64_t choice[RRUFTHIM_FORMAT_CHOICE],
    uint32_t *table, size_t table_len,
    uint8_t *output, size_t output_len,
    uint64_t out[RRUFTHIM_BATCH_OUT])
{
    RRUFTHIM_SYMBOL(batch)(rrufthim_lent(frames, frames_len), frames_len, choice, rrufthim_lent_numbers(table, table_len), table_len,
        rrufthim_lent_out(output, output_len), output_len, out);
}

#undef rrufthim_columns
static inline void rrufthim_columns(
    const uint8_t *text, size_t text_len,
    uint64_t rule,
    uint64_t supplied,
    uint64_t out[RRUFTHIM_COLUMNS_OUT])
{
    RRUFTHIM_SYMBOL(columns)(rrufthim_lent(text, text_len), text_len, rule, supplied, out);
}

#undef rrufthim_forward
static inline void rrufthim_forward(
    const uint8_t *source, size_t source_len,
    const uint8_t *image, size_t image_len,
    uint8_t *output, size_t output_len,
    uint64_t out[RRUFTHIM_FORWARD_OUT])
{
    RRUFTHIM_SYMBOL(forward)(rrufthim_lent(source, source_len), source_len, rrufthim_lent(image, image_len), image_len,
        rrufthim_lent_out(output, output_len), output_len, out);
}

#undef rrufthim_back
static inline void rrufthim_back(
    const uint8_t *source, size_t source_len,
    const uint8_t *image, size_t image_len,
    uint8_t *output, size_t output_len,
    uint64_t out[RRUFTHIM_BACK_OUT])
{
    RRUFTHIM_SYMBOL(back)(rrufthim_lent(source, source_len), source_len, rrufthim_lent(image, image_len), image_len,
        rrufthim_lent_out(output, output_len), output_len, out);
}

#undef rrufthim_reads_back
static inline void rrufthim_reads_back(
    const uint8_t *source, size_t source_len,
    const uint8_t *image, size_t image_len,
    uint64_t out[RRUFTHIM_READS_BACK_OUT])
{
    RRUFTHIM_SYMBOL(reads_back)(rrufthim_lent(source, source_len), source_len, rrufthim_lent(image, image_len), image_len, out);
}

#undef rrufthim_formula
static inline void rrufthim_formula(
    uint64_t size,
    uint64_t place,
    uint8_t *output, size_t output_len,
    uint64_t out[RRUFTHIM_FORMULA_OUT])
{
    RRUFTHIM_SYMBOL(formula)(size, place, rrufthim_lent_out(output, output_len), output_len, out);
}

#endif
