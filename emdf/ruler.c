/* The whole container as one ruler: each mark stands for equally many bits. */
#include <inttypes.h>
#include <string.h>

#include "program.h"

enum { MARKS_MOST = 72, PARTS_BEFORE = 2, PARTS_A_PAYLOAD = 4, PARTS_AFTER = 4 };

struct part {
    char mark;
    uint64_t start, end;
};

static const char LEGEND[] =
    "h sync word and length, k version and key id, i id, s settings, z size, b body, e end mark, c protection codes, "
    "p protection, x padding";

static size_t part_count(const struct reading *reading)
{
    return PARTS_BEFORE + PARTS_A_PAYLOAD * reading->count + PARTS_AFTER;
}

static struct part payload_part(const uint8_t *row, size_t i)
{
    static const char marks[] = "iszb";
    struct part part;
    part.mark = marks[i];
    part.start = emdf_word(row, EMDF_ROW_ID_START_BIT + 2 * i); /* a start, and then the end */
    part.end = emdf_word(row, EMDF_ROW_ID_END_BIT + 2 * i);
    return part;
}

/* The i-th part; they adjoin, from the first bit to the last. */
static struct part part_at(const struct reading *reading, size_t i)
{
    const struct part before[PARTS_BEFORE] = {{'h', 0, 32}, {'k', 32, reading->key_end}};
    const struct part after[PARTS_AFTER] = {
        {'e', reading->end_mark, reading->codes},
        {'c', reading->codes, reading->protection},
        {'p', reading->protection, reading->padding},
        {'x', reading->padding, 8 * reading->bytes},
    };
    if (i < PARTS_BEFORE)
        return before[i];
    i -= PARTS_BEFORE;
    if (i / PARTS_A_PAYLOAD < reading->count)
        return payload_part(row_at(reading, i / PARTS_A_PAYLOAD), i % PARTS_A_PAYLOAD);
    return after[i - PARTS_A_PAYLOAD * reading->count];
}

static uint64_t overlap(const struct part *part, uint64_t start, uint64_t end)
{
    uint64_t from = part->start > start ? part->start : start, to = part->end < end ? part->end : end;
    return from < to ? to - from : 0;
}

/* The part that has most of the bits from start to end, the first where two have equally many. Parts before *first are over. */
static char mark_of(const struct reading *reading, uint64_t start, uint64_t end, size_t *first)
{
    uint64_t most = 0;
    char mark = ' ';
    size_t i;
    while (part_at(reading, *first).end <= start)
        ++*first;
    for (i = *first; i < part_count(reading); i++) {
        struct part part = part_at(reading, i);
        if (part.start >= end)
            break;
        if (overlap(&part, start, end) > most) {
            most = overlap(&part, start, end);
            mark = part.mark;
        }
    }
    return mark;
}

static void print_marks(const struct reading *reading, uint64_t bits_a_mark)
{
    uint64_t bit, end = 8 * reading->bytes;
    size_t first = 0;
    printf("    ");
    for (bit = 0; bit < end; bit += bits_a_mark)
        putchar(mark_of(reading, bit, bit + bits_a_mark < end ? bit + bits_a_mark : end, &first));
    putchar('\n');
}

/* Each payload's place under its first mark, where the one before it leaves room. */
static void print_places(const struct reading *reading, uint64_t bits_a_mark)
{
    size_t place, column = 0;
    for (place = 0; place < reading->count; place++) {
        size_t at = (size_t)(emdf_word(row_at(reading, place), EMDF_ROW_ID_START_BIT) / bits_a_mark);
        if (column && at <= column)
            continue;
        printf("%*s", (int)(at - column + (column ? 0 : 4)), "");
        column = at + (size_t)printf("%lu", (unsigned long)place);
    }
    if (reading->count)
        putchar('\n');
}

void print_ruler(const struct reading *reading)
{
    uint64_t bits_a_mark = (8 * reading->bytes + MARKS_MOST - 1) / MARKS_MOST;
    printf("  ruler, ");
    print_count(bits_a_mark, "bit");
    printf(" a mark: %s\n", LEGEND);
    print_marks(reading, bits_a_mark);
    print_places(reading, bits_a_mark);
}
