/* lj_receive on memory of its own for receiver, area and packet, each between guards, and what no call may do to it. */
#ifndef RECEIVED_H
#define RECEIVED_H

#include "../include/ljosvark.h"
#include "lent.h"

#include <inttypes.h>

typedef struct {
    uint8_t before[GUARD];
    lj_receiver receiver;
    uint8_t behind[GUARD];
} lent_receiver;

_Static_assert(sizeof(lent_receiver) == GUARD + sizeof(lj_receiver) + GUARD, "the guards stand next to the receiver");

static lent_receiver receiver_lent, receiver_before;
static lent area_lent, packet_lent;

/* ---- For whoever reports what is wrong ---- */

static inline void print_receiver(const char *whose, const lj_receiver *r) {
    printf("  %s: source %" PRIu32 ", room %" PRIu32 ", picture %" PRIu32 ", time %" PRIu32 ", type %" PRIu32
           ", q %" PRIu32 ", %" PRIu32 " by %" PRIu32 ", interval %" PRIu32 ", end %" PRIu32 ", whole %" PRIu32
           ", kept q %" PRIu32 "\n    %" PRIu32 " fragments (offset, length, marker):",
           whose, r->source, r->room, r->picture, r->time, r->kind, r->q, r->width, r->height, r->interval, r->end,
           r->whole, r->kept.q, r->fragment_count);
    for (uint32_t i = 0; i < 64 && i < r->fragment_count; i++) {
        lj_fragment f = r->fragments[i];
        printf(" (%" PRIu32 ", %" PRIu32 ", %" PRIu32 ")", f.offset, f.length, f.marker);
    }
    printf("\n");
}

/* The packet of the last call. */
static inline void print_packet(void) {
    printf("  packet of %zu bytes:", packet_lent.length);
    for (size_t i = 0; i < packet_lent.length && i < 192; i++)
        printf("%s%02x", i % 4 ? "" : " ", packet_lent.wanted[GUARD + i]);
    printf("\n");
}

/* ---- What a call did ---- */

/* Whether the second, which took a packet, holds another picture than the first. */
static inline int started(const lj_receiver *before, const lj_receiver *after) {
    return before->picture == 0 || before->time != after->time;
}

/* The place of the fragment that came in with an accepted packet; -1 where there is none. */
static inline int new_fragment(const lj_receiver *before, const lj_receiver *after) {
    if (64 < after->fragment_count) return -1;
    for (uint32_t i = 0; i < after->fragment_count; i++)
        if (started(before, after) || memcmp(&before->fragments[i], &after->fragments[i], sizeof(lj_fragment)) != 0)
            return (int)i;
    return -1;
}

/* What is wrong with the area after a packet was taken, or NULL: it may differ at the new fragment's place alone. Whether
 * the packet's bytes stand there is for the programs to ask. */
static inline const char *area_wrong(void) {
    const lj_receiver *after = &receiver_lent.receiver;
    int place = new_fragment(&receiver_before.receiver, after);
    if (place < 0) return "a packet was taken and no fragment came in";
    lj_fragment f = after->fragments[place];
    if (area_lent.length < f.offset || area_lent.length - f.offset < f.length)
        return "the new fragment is not inside the area";
    memcpy(wanted(&area_lent) + f.offset, area_lent.memory + GUARD + f.offset, f.length);
    return all_wanted(&area_lent) ? NULL : "the area was changed outside the packet's place, or beside the area";
}

static inline int receiver_guards_wanted(void) {
    return memcmp(receiver_lent.before, receiver_before.before, GUARD) == 0 &&
           memcmp(receiver_lent.behind, receiver_before.behind, GUARD) == 0;
}

/* What the last call did that no call may, whatever it is given, or NULL. */
static inline const char *call_wrong(uint32_t reply) {
    if (!receiver_guards_wanted()) return "a byte beside the receiver was changed";
    if (!all_wanted(&packet_lent)) return "the packet was changed, or a byte beside it";
    if (reply == LJ_HELD || reply == LJ_WHOLE) return area_wrong();
    if (memcmp(&receiver_lent, &receiver_before, sizeof receiver_lent) != 0) return "a refusal changed the receiver";
    return all_wanted(&area_lent) ? NULL : "a refusal changed the area, or a byte beside it";
}

/* One call. Receiver and area become what it left. Area and packet are lent at NULL where they are at NULL here. */
static inline lj_answer received(lj_receiver *receiver, uint8_t *area, size_t area_len, const uint8_t *packet,
                                 size_t packet_len, uint8_t fill, const char **wrong) {
    memset(&receiver_lent, fill, sizeof receiver_lent);
    receiver_lent.receiver = *receiver;
    receiver_before = receiver_lent;
    uint8_t *area_given = lend_copy(&area_lent, area, area_len, fill);
    uint8_t *packet_given = lend_copy(&packet_lent, packet, packet_len, fill);
    lj_answer answer = lj_receive(&receiver_lent.receiver, area ? area_given : NULL, area_len,
                                  packet ? packet_given : NULL, packet_len);
    *wrong = call_wrong(answer.reply);
    *receiver = receiver_lent.receiver;
    if (area_len != 0) memcpy(area, area_given, area_len);
    return answer;
}

#endif
