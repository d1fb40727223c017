/* The first worked example of docs/01-scope.md, formatted; then an image of a version that there is not, which is refused, and one of version 2,
   which is refused by supplied widths; then the example moved to version 2 and back; then an archived image with a later comment first; then a
   generator's trees, one of which would be read back differently; then all formulas of size 3; then the columns of a text by each rule of widths. */
#include <stdio.h>
#include <string.h>
#include "rrufthim.h"

/* A tree with the shebang `#!/x` and no declarations. */
static const uint8_t IMAGE[] = {
    1, 0, 0, 0, 0x22, 0, 0,
    0, 0, 0, 0x1C, 1, 0, 0, 0, 0, 0, 0, 0, 0,
    0, 0, 0, 0x0F, 2, 0, 0, 0, 0, 0, 0, 0, 0, 0, 4, '#', '!', '/', 'x',
};

/* Whether a call is refused, which is said with its place and in words. */
static int is_refused(const uint64_t *out)
{
    uint64_t number = out[RRUFTHIM_OUT_REFUSAL];
    const char *place = rrufthim_place_words(number);

    if (number == 0) {
        return 0;
    }
    printf("refused %lu at %lu: %s", (unsigned long)number, (unsigned long)out[RRUFTHIM_OUT_PLACE], rrufthim_words(number));
    if (place != NULL) {
        printf(" (the place is the %s)", place);
    }
    putchar('\n');
    return 1;
}

/* Writes the text of a file without source, or why there is none. */
static void format(const uint8_t *image, size_t image_len)
{
    static const uint64_t choice[RRUFTHIM_FORMAT_CHOICE] = {RRUFTHIM_REFERENCE_WIDTH, RRUFTHIM_ALL_COMMENTS, RRUFTHIM_WIDTHS_SUPPLIED};
    uint8_t output[64];
    uint64_t out[RRUFTHIM_FORMAT_OUT];

    rrufthim_format(NULL, 0, image, image_len, choice, output, sizeof output, out);
    if (is_refused(out)) {
        return;
    }
    fwrite(output, 1, (size_t)out[RRUFTHIM_FORMAT_OUT_BYTES], stdout);
    if (out[RRUFTHIM_FORMAT_OUT_LEFT] != 0) {
        printf("(%lu comments are not in the text)\n", (unsigned long)out[RRUFTHIM_FORMAT_OUT_LEFT]);
    }
}

/* For an archive: the example without widths, and again as it was. */
static void moves(void)
{
    uint8_t kept[sizeof IMAGE], back[sizeof IMAGE];
    uint64_t out[RRUFTHIM_FORWARD_OUT];
    size_t bytes;
    int same;

    rrufthim_forward(NULL, 0, IMAGE, sizeof IMAGE, kept, sizeof kept, out);
    if (is_refused(out)) {
        return;
    }
    bytes = (size_t)out[RRUFTHIM_FORWARD_OUT_BYTES];
    printf("version %u: %lu bytes for %lu\n", (unsigned)kept[0], (unsigned long)bytes, (unsigned long)sizeof IMAGE);
    rrufthim_back(NULL, 0, kept, bytes, back, sizeof back, out);
    same = out[RRUFTHIM_OUT_REFUSAL] == 0 && out[RRUFTHIM_BACK_OUT_BYTES] == sizeof IMAGE && memcmp(back, IMAGE, sizeof IMAGE) == 0;
    printf("back: %s\n", same ? "the same bytes" : "other bytes");
    rrufthim_back(NULL, 0, kept, bytes, back, sizeof back - 1, out);
    printf("a byte short: ");
    is_refused(out);
}

/* Lays out and renders the rest of a file that is archived, whose comments may be in any order. */
static void archived(const uint8_t *source, size_t source_len, const uint8_t *image, size_t image_len)
{
    static const uint64_t laid[RRUFTHIM_LAYOUT_STATE], shown[RRUFTHIM_RENDER_STATE]; /* fresh */
    static const uint64_t all[RRUFTHIM_LAYOUT_ARGS] = {0, 1, RRUFTHIM_ALL_COMMENTS, RRUFTHIM_WIDTHS_SUPPLIED};
    uint32_t store[8 * RRUFTHIM_ROW];
    uint8_t marks[8], output[64];
    uint64_t out[RRUFTHIM_RENDER_OUT]; /* the larger of the two */
    uint64_t rows[RRUFTHIM_RENDER_ARGS] = {0, RRUFTHIM_REFERENCE_WIDTH, RRUFTHIM_WIDTHS_SUPPLIED, RRUFTHIM_ALL_ROWS};

    rrufthim_layout_archived(source, source_len, image, image_len, store, 8 * RRUFTHIM_ROW, laid, all, out);
    if (is_refused(out)) {
        return;
    }
    rows[RRUFTHIM_RENDER_ARGS_STOP] = out[RRUFTHIM_LAYOUT_OUT_STATE + RRUFTHIM_LAYOUT_STATE_NEXT_ROW];
    rrufthim_render(source, source_len, image, image_len, store, 8 * RRUFTHIM_ROW, marks, sizeof marks, output, sizeof output, shown, rows, out);
    if (is_refused(out)) {
        return;
    }
    fwrite(output, 1, (size_t)out[RRUFTHIM_RENDER_OUT_BYTES], stdout);
}

/* A file without declarations, whose second comment comes first in the list: refused but by the archive entry. */
static void order(void)
{
    static const uint8_t source[] = {'#', 'a', '\n', '#', 'b', '\n'};
    static const uint8_t image[] = {
        1, 0, 0, 0, 0x23, 0, 2,
        0, 0, 0, 3, 0, 0, 0, 5, 0, 0, 0, 0, 0, 0, 0, 2,
        0, 0, 0, 0x0D, 1, 0, 0, 0, 0, 0, 0, 0, 0, 0, 0, 0, 0,
    };
    uint64_t out[RRUFTHIM_CHECK_OUT];

    rrufthim_check(source, sizeof source, image, sizeof image, out);
    is_refused(out);
    archived(source, sizeof source, image, sizeof image);
}

/* Steps from which an image is written: a record that opens or closes, the literal `true`, and an operator by its place. */
#define OPEN(kind) 2, kind, 0, 0, 0, 0, 0, 0, 0, 0
#define CLOSE 6
#define TRUTH OPEN(51), OPEN(87), 4, 1, CLOSE, CLOSE
#define SIGN(place) OPEN(86), 4, place, CLOSE
#define SUM OPEN(63), TRUTH, SIGN(8), TRUTH, CLOSE
/* `const c: () = true * VALUE;` */
#define CONSTANT(...) \
    OPEN(1), 5, OPEN(11), OPEN(2), 3, 0, 1, 0, 0, 0, 1, 'c', CLOSE, OPEN(43), CLOSE, \
    OPEN(63), TRUTH, SIGN(10), __VA_ARGS__, CLOSE, CLOSE, CLOSE

/* Writes a tree from steps, and asks whether its text would be read back as this tree. */
static void built(const uint8_t *steps, size_t steps_len)
{
    uint8_t image[400];
    uint64_t out[RRUFTHIM_READS_BACK_OUT];
    size_t bytes, at;

    rrufthim_write(steps, steps_len, image, sizeof image, out);
    if (is_refused(out)) {
        return;
    }
    bytes = (size_t)out[RRUFTHIM_WRITE_OUT_BYTES];
    format(image, bytes);
    rrufthim_reads_back(NULL, 0, image, bytes, out);
    if (is_refused(out)) {
        return;
    }
    at = (size_t)out[RRUFTHIM_READS_BACK_OUT_AT];
    if (out[RRUFTHIM_READS_BACK_OUT_SAME] != 0) {
        printf("is read back the same\n");
    } else {
        printf("is read back differently: the operand at %lu, of kind %u\n", (unsigned long)at, (unsigned)image[at + 4]);
    }
}

/* A sum as the right operand of a product, without parentheses and with them. */
static void read_back(void)
{
    static const uint8_t plain[] = {CONSTANT(SUM)};
    static const uint8_t grouped[] = {CONSTANT(OPEN(70), SUM, CLOSE)};

    built(plain, sizeof plain);
    built(grouped, sizeof grouped);
}

/* All formulas of three records, and a place too many. */
static void formulas(void)
{
    uint8_t image[350];
    uint64_t place, out[RRUFTHIM_FORMULA_OUT];

    for (place = 0; place <= 6; place++) {
        rrufthim_formula(3, place, image, sizeof image, out);
        if (!is_refused(out)) {
            format(image, (size_t)out[RRUFTHIM_FORMULA_OUT_BYTES]);
        }
    }
}

/* Two characters of three bytes and two columns each, and of rules one too many. */
static void columns(void)
{
    static const uint8_t text[] = {0xE6, 0x97, 0xA5, 0xE6, 0x9C, 0xAC};
    uint64_t rule, out[RRUFTHIM_COLUMNS_OUT];

    for (rule = RRUFTHIM_WIDTHS_SUPPLIED; rule <= RRUFTHIM_WIDTHS_UNICODE_16_0 + 1; rule++) {
        rrufthim_columns(text, sizeof text, rule, sizeof text, out);
        printf("rule %lu: ", (unsigned long)rule);
        if (!is_refused(out)) {
            printf("%lu columns\n", (unsigned long)out[RRUFTHIM_COLUMNS_OUT_COLUMNS]);
        }
    }
}

int main(void)
{
    uint8_t other[sizeof IMAGE];
    size_t i;

    for (i = 0; i < sizeof IMAGE; i++) {
        other[i] = IMAGE[i];
    }
    format(IMAGE, sizeof IMAGE);
    other[0] = 3;
    format(other, sizeof other);
    other[0] = RRUFTHIM_IMAGE_VERSION_2;
    format(other, sizeof other);
    moves();
    order();
    read_back();
    formulas();
    columns();
    return 0;
}
