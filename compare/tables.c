/* lj_make_tables against the second table making of quantiser.h. */
#include "lent.h"
#include "quantiser.h"

_Static_assert(LJ_SUCCESS == 0 && LJ_Q_NOT_MADE == 34 && LJ_TABLES_OUTPUT == 35, "the header's numbers are document 01's");

static lent output;
static unsigned long compared;

static int same(uint32_t q, size_t out_len, uint8_t fill, int null) {
    uint8_t *out = lend(&output, out_len, fill);
    lj_written theirs = second_tables(q, wanted(&output), out_len);
    lj_written ours = lj_make_tables(q, null ? NULL : out, out_len);
    compared++;
    if (ours.reply == theirs.reply && ours.length == theirs.length && all_wanted(&output)) return 1;
    printf("tables differ: q %lu, output of %zu bytes%s, each %u at first: %lu %lu and not %lu %lu; ",
           (unsigned long)q, out_len, null ? " at NULL" : "", fill, (unsigned long)ours.reply, (unsigned long)ours.length,
           (unsigned long)theirs.reply, (unsigned long)theirs.length);
    if (all_wanted(&output)) printf("no byte differs\n");
    else printf("the first byte that differs is at %ld\n", first_difference(&output));
    return 0;
}

/* Two fills, so that a byte written as it was before shows in one of them. */
static int same_at(uint32_t q, size_t out_len) {
    static const uint8_t fills[] = {0x00, 0xa5};
    for (size_t f = 0; f < sizeof fills; f++) {
        if (!same(q, out_len, fills[f], 0)) return 0;
        if (out_len == 0 && !same(q, out_len, fills[f], 1)) return 0;
    }
    return 1;
}

int main(void) {
    static const size_t lengths[] = {0, 1, 127, 128, 129, 4096};
    for (size_t l = 0; l < sizeof lengths / sizeof *lengths; l++) {
        for (uint32_t q = 0; q <= 300; q++)
            if (!same_at(q, lengths[l])) return 1;
        if (!same_at(UINT32_MAX, lengths[l])) return 1;
    }
    printf("tables: %lu cases compared, all equal\n", compared);
    return 0;
}
