/* A second implementation of the packet reader, the receiver and the file builder, from document 01 and the RFCs alone.
 * A picture is kept as a map with one entry for each byte of the room. */
#ifndef SECOND_H
#define SECOND_H

#include "../include/ljosvark.h"

enum { SECOND_ROOM_MAX = 65536 };

/* What all packets of a picture have in common, besides the time stamp. */
typedef struct {
    uint32_t kind;
    uint32_t q;
    uint32_t width;
    uint32_t height;
    uint32_t interval;
} second_header;

/* The state between two calls: no pointers, so it may be copied with `=`. Without a picture, everything from `time` to
 * `tables` is 0 and the map is all gap. */
typedef struct {
    uint32_t well_formed;           /* 1, or 0 and then only `loaded` counts */
    lj_receiver loaded;             /* the fields that contradict the rules, to be given back as they came */
    uint32_t source;
    uint32_t room;
    lj_kept kept;
    uint32_t picture;
    uint32_t time;
    second_header header;
    uint32_t end;                   /* 0 while not known */
    uint32_t whole;
    uint32_t held;                  /* entries of the map that are not a gap */
    uint32_t count;                 /* fragments in the map */
    uint32_t top;                   /* one past the last entry that is not a gap */
    uint8_t tables[128];
    uint8_t map[SECOND_ROOM_MAX];   /* of each byte of the room: in a gap, first of a fragment, or further on in one */
} second_receiver;

/* Opens with a source and a room. A room that is refused leaves a receiver of room 0, which is not well formed. */
lj_answer second_open(second_receiver *s, uint32_t source, uint32_t room);

/* Takes over the state that these fields say, whatever they are: any pattern of bits. */
void second_load(second_receiver *s, const lj_receiver *fields);

/* The fields of the state: those that were loaded where they were not well formed. */
void second_store(const second_receiver *s, lj_receiver *fields);

/* Takes one packet; the answer has the number of scan bytes held afterwards. Only replies 0 and 1 change the state and
 * the area, and of the area only the bytes that the packet carries. `packet` may be NULL where its length is 0, and
 * `area` likewise; the two do not overlap. */
lj_answer second_receive(second_receiver *s, uint8_t *area, size_t area_len, const uint8_t *packet, size_t packet_len);

/* Writes the file of a whole picture to the front of `out`; the answer has its length, or 0 for a refusal, which writes
 * nothing. `out` and `area` may be NULL where their length is 0; the two do not overlap. */
lj_written second_build(const second_receiver *s, const uint8_t *area, size_t area_len, uint8_t *out, size_t out_len);

#endif
