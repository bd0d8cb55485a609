#include "groups_model.h"

/* The smallest g with value < 2^w + 2^2w + .. + 2^gw; no value reaches 2^64. */
uint64_t groups_of(size_t width, uint64_t value)
{
    uint64_t groups = 1;

    for (; groups * width < 64 && value >> groups * width != 0; groups++)
        value -= UINT64_C(1) << groups * width;
    return groups;
}

/* The value is what an escape is added to. */
static void fields_of_row(const uint8_t *row, void (*take)(void *with, enum field field, uint64_t groups), void *with)
{
    uint64_t id = emdf_word(row, EMDF_ROW_ID);
    uint64_t body_bits = emdf_word(row, EMDF_ROW_BODY_END_BIT) - emdf_word(row, EMDF_ROW_BODY_START_BIT);

    if (id >= 31)
        take(with, FIELD_ID, groups_of(5, id - 31));
    if (emdf_word(row, EMDF_ROW_HAS_DURATION))
        take(with, FIELD_DURATION, groups_of(11, emdf_word(row, EMDF_ROW_DURATION)));
    if (emdf_word(row, EMDF_ROW_HAS_GROUP_ID))
        take(with, FIELD_GROUP_ID, groups_of(2, emdf_word(row, EMDF_ROW_GROUP_ID)));
    take(with, FIELD_SIZE, groups_of(8, body_bits / 8));
}

void each_field(const struct reading *own, void (*take)(void *with, enum field field, uint64_t groups), void *with)
{
    uint64_t key = emdf_word(own->answer, EMDF_KEY_ID);
    const uint8_t *row;
    size_t place;

    if (key >= 7)
        take(with, FIELD_KEY, groups_of(3, key - 7));
    for (place = 0; (row = row_of(own, place)) != NULL; place++)
        fields_of_row(row, take, with);
}

static void take_larger(void *with, enum field field, uint64_t groups)
{
    uint64_t *largest = with;

    (void)field;
    if (groups > *largest)
        *largest = groups;
}

uint64_t largest_groups(const struct reading *own)
{
    uint64_t largest = 0;

    each_field(own, take_larger, &largest);
    return largest;
}

int has_groups(enum call call)
{
    return call == VARIABLE_BITS || call == CLASSIFY || call == READ || call == VERDICT;
}

size_t groups_word(enum call call)
{
    switch (call) {
    case VARIABLE_BITS:
        return EMDF_GROUPS;
    case CLASSIFY:
        return EMDF_CLASS_READING + EMDF_LARGEST_GROUPS;
    case READ:
        return EMDF_LARGEST_GROUPS;
    default:
        return EMDF_VERDICT_GROUPS;
    }
}

int counts_groups(enum call call, uint32_t number, const uint8_t *answer)
{
    return has_groups(call) && number == 0 && (call != CLASSIFY || emdf_word(answer, EMDF_CLASS) == EMDF_PARSED);
}
