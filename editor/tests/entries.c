/* Every function of the header, called from C: on the first worked example of docs/01-scope.md, which is accepted, and with NULL for what has no
   elements. Each array is read by the names of its places. */
#include <stdio.h>
#include <stdlib.h>
#include <string.h>
#include "rrufthim.h"

/* A tree with the shebang `#!/x` and no declarations. */
static const uint8_t IMAGE[] = {
    1, 0, 0, 0, 0x22, 0, 0,
    0, 0, 0, 0x1C, 1, 0, 0, 0, 0, 0, 0, 0, 0,
    0, 0, 0, 0x0F, 2, 0, 0, 0, 0, 0, 0, 0, 0, 0, 4, '#', '!', '/', 'x',
};
static const char TEXT[] = "#!/x\n\n";
#define TEXT_LEN 6
#define ROWS 8

static const uint64_t CHOICE[RRUFTHIM_FORMAT_CHOICE] = {RRUFTHIM_REFERENCE_WIDTH, RRUFTHIM_ALL_COMMENTS, RRUFTHIM_WIDTHS_SUPPLIED};
static const uint64_t LAYOUT[RRUFTHIM_LAYOUT_ARGS] = {0, 1, RRUFTHIM_ALL_COMMENTS, RRUFTHIM_WIDTHS_SUPPLIED};
static const uint64_t UNLAID[RRUFTHIM_LAYOUT_STATE];
static const uint64_t UNRENDERED[RRUFTHIM_RENDER_STATE];
static const uint64_t NO_FILES[RRUFTHIM_TALLIES];

#define HOLDS(what) holds((what), #what, __LINE__)
static void holds(int what, const char *words, int line)
{
    if (!what) {
        fprintf(stderr, "entries.c:%d: not so: %s\n", line, words);
        exit(1);
    }
}

static int refused(const uint64_t *out, uint64_t number, uint64_t place)
{
    return out[RRUFTHIM_OUT_REFUSAL] == number && out[RRUFTHIM_OUT_PLACE] == place;
}

static void checked(void)
{
    uint64_t out[RRUFTHIM_CHECK_OUT];

    rrufthim_check(NULL, 0, IMAGE, sizeof IMAGE, out);
    HOLDS(out[RRUFTHIM_OUT_REFUSAL] == 0);
    HOLDS(out[RRUFTHIM_CHECK_OUT_COMMENTS] == 0 && out[RRUFTHIM_CHECK_OUT_DECLARATIONS] == 0);
    HOLDS(out[RRUFTHIM_CHECK_OUT_TREE] == 7);
    rrufthim_check(NULL, 0, NULL, 0, out);
    HOLDS(refused(out, RRUFTHIM_NO_IMAGE, 0));
}

/* Lays the example out by both functions, which answer the same, and renders it in two pieces. */
static void in_calls(void)
{
    uint32_t store[ROWS * RRUFTHIM_ROW], other[ROWS * RRUFTHIM_ROW];
    uint8_t marks[ROWS], output[16];
    uint64_t laid[RRUFTHIM_LAYOUT_OUT], archived[RRUFTHIM_LAYOUT_OUT], out[RRUFTHIM_RENDER_OUT];
    uint64_t state[RRUFTHIM_RENDER_STATE] = {0};
    uint64_t rows[RRUFTHIM_RENDER_ARGS] = {0, RRUFTHIM_REFERENCE_WIDTH, RRUFTHIM_WIDTHS_SUPPLIED, 1};
    const uint64_t *now = laid + RRUFTHIM_LAYOUT_OUT_STATE;
    const uint64_t *rendered = out + RRUFTHIM_RENDER_OUT_STATE;
    size_t bytes = 0;

    memset(store, 0, sizeof store);
    memset(other, 0, sizeof other);
    rrufthim_layout(NULL, 0, IMAGE, sizeof IMAGE, store, ROWS * RRUFTHIM_ROW, UNLAID, LAYOUT, laid);
    rrufthim_layout_archived(NULL, 0, IMAGE, sizeof IMAGE, other, ROWS * RRUFTHIM_ROW, UNLAID, LAYOUT, archived);
    HOLDS(memcmp(laid, archived, sizeof laid) == 0 && memcmp(store, other, sizeof store) == 0);
    HOLDS(laid[RRUFTHIM_OUT_REFUSAL] == 0 && laid[RRUFTHIM_LAYOUT_OUT_LEFT] == 0);
    HOLDS(now[RRUFTHIM_LAYOUT_STATE_BEGUN] == 1 && now[RRUFTHIM_LAYOUT_STATE_CLOSED] == 1);
    HOLDS(now[RRUFTHIM_LAYOUT_STATE_NEXT_DECLARATION] == 0 && now[RRUFTHIM_LAYOUT_STATE_COMMENTS_PLACED] == 0);
    HOLDS(now[RRUFTHIM_LAYOUT_STATE_MODE] == RRUFTHIM_ALL_COMMENTS && now[RRUFTHIM_LAYOUT_STATE_WIDTHS] == RRUFTHIM_WIDTHS_SUPPLIED);
    rows[RRUFTHIM_RENDER_ARGS_STOP] = now[RRUFTHIM_LAYOUT_STATE_NEXT_ROW];
    do {
        rrufthim_render(NULL, 0, IMAGE, sizeof IMAGE, store, ROWS * RRUFTHIM_ROW, marks, sizeof marks, output + bytes, sizeof output - bytes,
            state, rows, out);
        HOLDS(out[RRUFTHIM_OUT_REFUSAL] == 0 && out[RRUFTHIM_RENDER_OUT_ENTERED] == 1);
        bytes += (size_t)out[RRUFTHIM_RENDER_OUT_BYTES];
        memcpy(state, rendered, (RRUFTHIM_RENDER_STATE_ROWS + (size_t)rendered[RRUFTHIM_RENDER_STATE_LISTED]) * sizeof *state);
    } while (state[RRUFTHIM_RENDER_STATE_NEXT_ROW] < rows[RRUFTHIM_RENDER_ARGS_STOP]);
    HOLDS(bytes == TEXT_LEN && memcmp(output, TEXT, TEXT_LEN) == 0);
    HOLDS(state[RRUFTHIM_RENDER_STATE_INDENT] == 0 && state[RRUFTHIM_RENDER_STATE_NEXT_INDENT] == 0);
    HOLDS(state[RRUFTHIM_RENDER_STATE_WIDTH] == RRUFTHIM_REFERENCE_WIDTH);
}

static void calls_on_nothing(void)
{
    uint64_t laid[RRUFTHIM_LAYOUT_OUT], out[RRUFTHIM_RENDER_OUT];
    uint64_t none[RRUFTHIM_RENDER_ARGS] = {0, RRUFTHIM_REFERENCE_WIDTH, RRUFTHIM_WIDTHS_SUPPLIED, RRUFTHIM_ALL_ROWS};

    rrufthim_layout(NULL, 0, NULL, 0, NULL, 0, UNLAID, LAYOUT, laid);
    HOLDS(refused(laid, RRUFTHIM_NO_IMAGE, 0));
    rrufthim_layout_archived(NULL, 0, NULL, 0, NULL, 0, UNLAID, LAYOUT, laid);
    HOLDS(refused(laid, RRUFTHIM_NO_IMAGE, 0));
    rrufthim_layout(NULL, 0, IMAGE, sizeof IMAGE, NULL, 0, UNLAID, LAYOUT, laid);
    HOLDS(laid[RRUFTHIM_OUT_REFUSAL] == RRUFTHIM_MORE_ROWS && laid[RRUFTHIM_OUT_PLACE] <= ROWS);
    rrufthim_render(NULL, 0, NULL, 0, NULL, 0, NULL, 0, NULL, 0, UNRENDERED, none, out);
    HOLDS(refused(out, RRUFTHIM_NO_IMAGE, 0));
    rrufthim_render(NULL, 0, IMAGE, sizeof IMAGE, NULL, 0, NULL, 0, NULL, 0, UNRENDERED, none, out);
    HOLDS(out[RRUFTHIM_OUT_REFUSAL] == 0 && out[RRUFTHIM_RENDER_OUT_BYTES] == 0 && out[RRUFTHIM_RENDER_OUT_ENTERED] == 0);
}

static void whole(void)
{
    uint8_t output[16];
    uint64_t out[RRUFTHIM_FORMAT_OUT];

    rrufthim_format(NULL, 0, IMAGE, sizeof IMAGE, CHOICE, output, sizeof output, out);
    HOLDS(out[RRUFTHIM_OUT_REFUSAL] == 0 && out[RRUFTHIM_FORMAT_OUT_BYTES] == TEXT_LEN);
    HOLDS(memcmp(output, TEXT, TEXT_LEN) == 0 && out[RRUFTHIM_FORMAT_OUT_LEFT] == 0 && out[RRUFTHIM_FORMAT_OUT_NUMBERS] == 0);
    rrufthim_format(NULL, 0, IMAGE, sizeof IMAGE, CHOICE, NULL, 0, out);
    HOLDS(refused(out, RRUFTHIM_MORE_OUTPUT, TEXT_LEN));
    rrufthim_format(NULL, 0, NULL, 0, CHOICE, NULL, 0, out);
    HOLDS(refused(out, RRUFTHIM_NO_IMAGE, 0));
}

static void counted(void)
{
    uint64_t out[RRUFTHIM_COUNT_OUT];
    const uint64_t *tallies = out + RRUFTHIM_COUNT_OUT_TALLIES;

    rrufthim_count(NULL, 0, IMAGE, sizeof IMAGE, NO_FILES, out);
    HOLDS(out[RRUFTHIM_OUT_REFUSAL] == 0 && out[RRUFTHIM_COUNT_OUT_BYTES] == TEXT_LEN);
    HOLDS(out[RRUFTHIM_COUNT_OUT_NEWLINES] == 2 && out[RRUFTHIM_COUNT_OUT_COLUMN] == 4);
    HOLDS(tallies[RRUFTHIM_TALLIES_FILES] == 1 && tallies[RRUFTHIM_TALLIES_BYTES] == TEXT_LEN);
    HOLDS(tallies[RRUFTHIM_TALLIES_NEWLINES] == 2 && tallies[RRUFTHIM_TALLIES_COLUMN] == 4 && tallies[RRUFTHIM_TALLIES_LEFT] == 0);
    HOLDS(out[RRUFTHIM_COUNT_OUT_OVER] == 0 && out[RRUFTHIM_COUNT_OUT_UNDER] == 1);
    rrufthim_count(NULL, 0, NULL, 0, NO_FILES, out);
    HOLDS(refused(out, RRUFTHIM_NO_IMAGE, 0));
}

/* The example to steps and back. */
static void by_steps(void)
{
    uint8_t steps[2 * sizeof IMAGE], image[sizeof IMAGE];
    uint64_t out[RRUFTHIM_STEPS_OUT];
    size_t bytes;

    rrufthim_steps(NULL, 0, IMAGE, sizeof IMAGE, steps, sizeof steps, out);
    HOLDS(out[RRUFTHIM_OUT_REFUSAL] == 0);
    bytes = (size_t)out[RRUFTHIM_STEPS_OUT_BYTES];
    rrufthim_write(steps, bytes, image, sizeof image, out);
    HOLDS(out[RRUFTHIM_OUT_REFUSAL] == 0 && out[RRUFTHIM_WRITE_OUT_BYTES] == sizeof IMAGE && memcmp(image, IMAGE, sizeof IMAGE) == 0);
    rrufthim_write(steps, bytes, NULL, 0, out);
    HOLDS(refused(out, RRUFTHIM_MORE_ROOM, sizeof IMAGE));
    rrufthim_write(NULL, 0, NULL, 0, out);
    HOLDS(refused(out, RRUFTHIM_BAD_STEP, 0));
    rrufthim_steps(NULL, 0, IMAGE, sizeof IMAGE, NULL, 0, out);
    HOLDS(refused(out, RRUFTHIM_MORE_ROOM, bytes));
    rrufthim_steps(NULL, 0, NULL, 0, NULL, 0, out);
    HOLDS(refused(out, RRUFTHIM_NO_IMAGE, 0));
}

/* The example, and a file without an image. */
static void in_a_batch(void)
{
    uint8_t frames[8 + sizeof IMAGE + 8] = {0}, output[16];
    uint32_t table[2 * RRUFTHIM_TABLE_ROW];
    uint64_t out[RRUFTHIM_BATCH_OUT];

    frames[7] = sizeof IMAGE;
    memcpy(frames + 8, IMAGE, sizeof IMAGE);
    rrufthim_batch(frames, sizeof frames, CHOICE, table, 2 * RRUFTHIM_TABLE_ROW, output, sizeof output, out);
    HOLDS(out[RRUFTHIM_OUT_REFUSAL] == 0 && out[RRUFTHIM_BATCH_OUT_FILES] == 2 && out[RRUFTHIM_BATCH_OUT_BYTES] == TEXT_LEN);
    HOLDS(table[RRUFTHIM_TABLE_ROW_REFUSAL] == 0 && table[RRUFTHIM_TABLE_ROW_BYTES] == TEXT_LEN);
    HOLDS(table[RRUFTHIM_TABLE_ROW + RRUFTHIM_TABLE_ROW_REFUSAL] == RRUFTHIM_NO_IMAGE);
    HOLDS(table[RRUFTHIM_TABLE_ROW + RRUFTHIM_TABLE_ROW_PLACE] == 0 && memcmp(output, TEXT, TEXT_LEN) == 0);
    rrufthim_batch(frames, sizeof frames, CHOICE, NULL, 0, NULL, 0, out);
    HOLDS(refused(out, RRUFTHIM_MORE_FOR_BATCH, 2 * RRUFTHIM_TABLE_ROW));
    rrufthim_batch(NULL, 0, CHOICE, NULL, 0, NULL, 0, out);
    HOLDS(out[RRUFTHIM_OUT_REFUSAL] == 0 && out[RRUFTHIM_BATCH_OUT_FILES] == 0 && out[RRUFTHIM_BATCH_OUT_BYTES] == 0);
}

static void moved(void)
{
    uint8_t kept[sizeof IMAGE], image[sizeof IMAGE];
    uint64_t out[RRUFTHIM_FORWARD_OUT];
    size_t bytes;

    rrufthim_forward(NULL, 0, IMAGE, sizeof IMAGE, kept, sizeof kept, out);
    HOLDS(out[RRUFTHIM_OUT_REFUSAL] == 0 && out[RRUFTHIM_FORWARD_OUT_BYTES] == sizeof IMAGE - 2);
    bytes = (size_t)out[RRUFTHIM_FORWARD_OUT_BYTES];
    rrufthim_back(NULL, 0, kept, bytes, image, sizeof image, out);
    HOLDS(out[RRUFTHIM_OUT_REFUSAL] == 0 && out[RRUFTHIM_BACK_OUT_BYTES] == sizeof IMAGE && memcmp(image, IMAGE, sizeof IMAGE) == 0);
    rrufthim_back(NULL, 0, kept, bytes, NULL, 0, out);
    HOLDS(refused(out, RRUFTHIM_MORE_ROOM, sizeof IMAGE));
    rrufthim_forward(NULL, 0, IMAGE, sizeof IMAGE, NULL, 0, out);
    HOLDS(refused(out, RRUFTHIM_MORE_ROOM, bytes));
    rrufthim_forward(NULL, 0, NULL, 0, NULL, 0, out);
    HOLDS(refused(out, RRUFTHIM_NO_IMAGE, 0));
    rrufthim_back(NULL, 0, NULL, 0, NULL, 0, out);
    HOLDS(refused(out, RRUFTHIM_NO_IMAGE, 0));
}

static void asked(void)
{
    static const uint8_t lines[] = {'a', '\n', 'b', '\n'};
    static const uint8_t japan[] = {0xE6, 0x97, 0xA5, 0xE6, 0x9C, 0xAC};
    uint64_t lines_out[RRUFTHIM_NEWLINES_OUT], out[RRUFTHIM_COLUMNS_OUT], verdict[RRUFTHIM_READS_BACK_OUT];

    rrufthim_newlines(lines, sizeof lines, 0, sizeof lines, lines_out);
    HOLDS(lines_out[RRUFTHIM_NEWLINES_OUT_COUNT] == 2 && lines_out[RRUFTHIM_NEWLINES_OUT_LAST] == 3);
    rrufthim_newlines(NULL, 0, 0, 0, lines_out);
    HOLDS(lines_out[RRUFTHIM_NEWLINES_OUT_COUNT] == 0 && lines_out[RRUFTHIM_NEWLINES_OUT_LAST] == 0);
    rrufthim_columns(japan, sizeof japan, RRUFTHIM_WIDTHS_UNICODE_16_0, 0, out);
    HOLDS(out[RRUFTHIM_OUT_REFUSAL] == 0 && out[RRUFTHIM_COLUMNS_OUT_COLUMNS] == 4);
    rrufthim_columns(NULL, 0, RRUFTHIM_WIDTHS_UNICODE_15_1, 7, out);
    HOLDS(out[RRUFTHIM_OUT_REFUSAL] == 0 && out[RRUFTHIM_COLUMNS_OUT_COLUMNS] == 0);
    rrufthim_reads_back(NULL, 0, IMAGE, sizeof IMAGE, verdict);
    HOLDS(verdict[RRUFTHIM_OUT_REFUSAL] == 0 && verdict[RRUFTHIM_READS_BACK_OUT_SAME] == 1 && verdict[RRUFTHIM_READS_BACK_OUT_AT] == 0);
    rrufthim_reads_back(NULL, 0, NULL, 0, verdict);
    HOLDS(refused(verdict, RRUFTHIM_NO_IMAGE, 0));
}

/* The only formula of size 1, twice: without room, and formatted as it is due. */
static void small(void)
{
    static const char due[] = "const c: u32 = a;\n";
    uint8_t image[350], output[sizeof due];
    uint64_t out[RRUFTHIM_FORMULA_OUT], formatted[RRUFTHIM_FORMAT_OUT];
    size_t bytes;

    rrufthim_formula(1, 0, NULL, 0, out);
    HOLDS(out[RRUFTHIM_OUT_REFUSAL] == RRUFTHIM_MORE_ROOM);
    bytes = (size_t)out[RRUFTHIM_OUT_PLACE];
    HOLDS(bytes <= sizeof image);
    rrufthim_formula(1, 0, image, bytes, out);
    HOLDS(out[RRUFTHIM_OUT_REFUSAL] == 0 && out[RRUFTHIM_FORMULA_OUT_BYTES] == bytes);
    rrufthim_format(NULL, 0, image, bytes, CHOICE, output, sizeof output, formatted);
    HOLDS(formatted[RRUFTHIM_OUT_REFUSAL] == 0 && formatted[RRUFTHIM_FORMAT_OUT_BYTES] == sizeof due - 1);
    HOLDS(memcmp(output, due, sizeof due - 1) == 0);
    rrufthim_formula(1, 1, NULL, 0, out);
    HOLDS(refused(out, RRUFTHIM_NO_FORMULA, 0));
    rrufthim_formula(RRUFTHIM_MAX_FORMULA_SIZE + 1, 0, NULL, 0, out);
    HOLDS(refused(out, RRUFTHIM_NO_FORMULA, 0));
}

static void words(void)
{
    HOLDS(strcmp(rrufthim_words(RRUFTHIM_MORE_OUTPUT), "the output is too short") == 0);
    HOLDS(strcmp(rrufthim_place_words(RRUFTHIM_MORE_OUTPUT), "bytes needed") == 0);
    HOLDS(rrufthim_place_words(RRUFTHIM_NO_IMAGE) == NULL && strcmp(rrufthim_words(0), "accepted") == 0);
    HOLDS(rrufthim_words(UINT64_MAX) != NULL && rrufthim_place_words(UINT64_MAX) == NULL);
}

int main(void)
{
    checked();
    in_calls();
    calls_on_nothing();
    whole();
    counted();
    by_steps();
    in_a_batch();
    moved();
    asked();
    small();
    words();
    puts("every function was called");
    return 0;
}
