/* Says where the programme of the carrier on standard input goes, and what rekeying the carrier leaves. */
#include <inttypes.h>
#include <stdio.h>

#include "emdf.h"

/* One byte more than any carrier has tells an input that is longer. */
static uint8_t carrier[EMDF_CARRIER_MOST + 1], rekeyed[EMDF_CARRIER_MOST];

static int refused(const char *what, uint32_t number, const uint8_t *answer, size_t first)
{
    printf("%s: refusal %" PRIu32 " (%" PRIu64 ", %" PRIu64 ")\n", what, number, emdf_word(answer, first),
           emdf_word(answer, first + 1));
    return 1;
}

int main(void)
{
    uint8_t is[EMDF_CLASS_ANSWER_BYTES], verdict[EMDF_VERDICT_ANSWER_BYTES], edit[EMDF_EDIT_ANSWER_BYTES];
    size_t length = fread(carrier, 1, sizeof carrier, stdin);
    uint32_t number = emdf_classify(carrier, length, is);

    switch (emdf_word(is, EMDF_CLASS)) {
    case EMDF_NON_EMDF:
        puts("no carrier");
        return 1;
    case EMDF_MALFORMED:
        return refused("malformed", number, is, EMDF_CLASS_FIRST_FIGURE);
    case EMDF_TRAILING_DATA: /* an edit takes exactly one carrier, so what follows it is left out */
        length = (size_t)emdf_word(is, EMDF_CLASS_CONTAINER_BYTES);
        break;
    }

    number = emdf_verdict(carrier, length, EMDF_COMPAT, verdict);
    if (number == EMDF_ACCEPTED)
        printf("objects: OAMD at place %" PRIu64 ", JOC at place %" PRIu64 ", marks %06" PRIx64 "\n",
               emdf_word(verdict, EMDF_OAMD_PLACE), emdf_word(verdict, EMDF_JOC_PLACE), emdf_word(verdict, EMDF_MARKS));
    else
        refused("bed alone", number, verdict, 0);

    number = emdf_edit_key(carrier, length, 1, rekeyed, sizeof rekeyed, edit);
    if (number != EMDF_ACCEPTED) /* and every byte of the destination is as it was */
        return refused("not rekeyed", number, edit, 0);
    printf("rekeyed: %" PRIu64 " bytes\n", emdf_word(edit, EMDF_WRITTEN_LENGTH));
    return 0;
}
