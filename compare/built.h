/* lj_build on memory of its own for area and output, each between guards, and what no call may do to it. */
#ifndef BUILT_H
#define BUILT_H

#include "../include/ljosvark.h"
#include "lent.h"

static lent built_area, built_output;

/* The file that the last call wrote. */
static inline const uint8_t *built_file(void) { return built_output.memory + GUARD; }

/* What the last call did that no call may, whatever it is given, or NULL. Whether the file is right is for the programs to
 * ask: here it may be any bytes, as many as the call says. */
static inline const char *build_wrong(lj_written w) {
    if (!all_wanted(&built_area)) return "the area was changed, or a byte beside it";
    if (w.reply != LJ_SUCCESS && w.length != 0) return "a refusal has a length";
    if (built_output.length < w.length) return "the file is longer than the output";
    memcpy(wanted(&built_output), built_file(), w.length);
    if (all_wanted(&built_output)) return NULL;
    return w.reply == LJ_SUCCESS ? "a byte was changed past the file, or beside the output"
                                 : "a refusal changed the output, or a byte beside it";
}

/* One call. Area and output have unlike fills around them; memory of no bytes is at NULL for every other fill. */
static inline lj_written built(const lj_receiver *receiver, const uint8_t *area, size_t area_len, size_t out_len,
                               uint8_t fill, const char **wrong) {
    uint8_t *area_given = lend_copy(&built_area, area, area_len, fill);
    uint8_t *out_given = lend(&built_output, out_len, (uint8_t)~fill);
    if (area_len == 0 && fill % 2) area_given = NULL;
    if (out_len == 0 && fill % 2) out_given = NULL;
    lj_written w = lj_build(*receiver, area_given, area_len, out_given, out_len);
    *wrong = build_wrong(w);
    return w;
}

#endif
