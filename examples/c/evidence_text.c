/* Written evidence: the text of a region's index from a base sheet or from its supplement, printed straight from
 * the sheet's own bytes. What neither names is no evidence, and a damaged sheet gives nothing at all. */
#include "xapool.h"
#include <stdio.h>
#include <string.h>

typedef struct sheet {
    uint8_t bytes[200];
    size_t used;
} sheet;

static sheet base, supplement;

/* A record at the sheet's end: tag, length of index and text, index, text. */
static int put(sheet *to, uint64_t index, const char *text)
{
    size_t length = 8 + strlen(text);
    if (length > 65535 || sizeof to->bytes - to->used < 3 + length)
        return 0;
    uint8_t *at = to->bytes + to->used;
    at[0] = XAPOOL_EVIDENCE_TAG;
    at[1] = (uint8_t)(length >> 8);
    at[2] = (uint8_t)(length & 255);
    for (unsigned i = 0; i < 8; i++)
        at[XAPOOL_EVIDENCE_AT_INDEX + i] = (uint8_t)(index >> (56 - 8 * i) & 255);
    memcpy(at + XAPOOL_EVIDENCE_AT_TEXT, text, strlen(text));
    to->used += 3 + length;
    return 1;
}

/* Prints what there is of an index, and says whether it is the answer and the text that were expected. */
static int show(uint64_t index, size_t base_bytes, uint64_t answer, const sheet *from, const char *text)
{
    xapool_part part = xapool_evidence(base.bytes, base_bytes, supplement.bytes, supplement.used, index);
    if (part.answer != answer)
        return 0;
    if (part.answer != XAPOOL_DONE) {
        printf("%d: no text: %s\n", (int)index,
               part.answer == XAPOOL_ABSENT ? "neither sheet names it" : "a sheet is malformed");
        return part.sheet == 0 && part.place == 0 && part.length == 0;
    }
    const sheet *has = part.sheet == XAPOOL_SUPPLEMENT ? &supplement : &base;
    printf("%d, from the %s: '", (int)index, part.sheet == XAPOOL_SUPPLEMENT ? "supplement" : "base sheet");
    fwrite(has->bytes + part.place, 1, part.length, stdout); /* no copy is made of it */
    printf("'\n");
    return has == from && part.length == strlen(text) && memcmp(has->bytes + part.place, text, strlen(text)) == 0;
}

int main(void)
{
    int good = put(&base, 7, "disk 3, read twice") && put(&base, 8, "read once") && put(&base, 9, "not read") &&
               put(&base, 8, "read once, by hand") && put(&supplement, 9, "read on the second day") &&
               put(&supplement, 7, "");
    good = good && show(7, base.used, XAPOOL_DONE, &supplement, "") &&
           show(8, base.used, XAPOOL_DONE, &base, "read once, by hand") &&
           show(9, base.used, XAPOOL_DONE, &supplement, "read on the second day") &&
           show(10, base.used, XAPOOL_ABSENT, NULL, NULL) &&
           /* one byte is missing at the end of the base sheet: nothing is given, of no index */
           show(9, base.used - 1, XAPOOL_BAD_BATCH, NULL, NULL);
    if (!good)
        fprintf(stderr, "evidence_text: not what was expected\n");
    return !good;
}
