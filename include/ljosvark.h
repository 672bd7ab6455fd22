/* Ljosvark: the C interface of libljosvark.a, for C99 and later and for C++, on Linux on x86-64. The calls stand at the end.
 *
 * Every call has a defined reply for every input: no number, byte or length is one that the host has to check first.
 *
 * Memory. The host owns all of it. A pointer comes with the length of the memory behind it, or points to a struct, and is
 * lent for the call alone: no call keeps a pointer. While a call runs, nothing else may write to what it is lent, or read
 * what it writes. What it writes may overlap nothing else that it is lent; two pieces that it only reads may overlap each
 * other. Memory of no bytes may be lent as NULL with length 0. A refusal changes no byte of what is lent.
 *
 * There is no other state: calls may run at the same time where what one writes is lent to no other.
 */
#ifndef LJOSVARK_H
#define LJOSVARK_H

#include <stddef.h>
#include <stdint.h>

#ifdef __cplusplus
extern "C" {
#endif

/* The replies, of all calls. Those of a packet and of a receiver come from lj_receive, and LJ_AREA_NOT_ROOM and
 * LJ_NOT_WELL_FORMED from lj_build too. The first packet of a picture is the one at offset 0 of its scan, whenever it
 * arrives. */
enum {
    LJ_SUCCESS = 0,              /* done; where there is a length, it says how many bytes were written */
    LJ_HELD = 0,                 /* receiver: the packet is taken; the picture is not whole yet */
    LJ_WHOLE = 1,                /* receiver: the packet is taken and filled the last gap: the picture is whole */
    LJ_AGAIN = 2,                /* receiver: an exact repeat of a packet that is held; nothing changes */
    LJ_ROOM_OUTSIDE = 7,         /* opening: the room is not 1 to 65,536 */
    LJ_AREA_NOT_ROOM = 8,        /* receiver: the area is not as long as the room */
    LJ_NOT_WELL_FORMED = 9,      /* receiver: its fields contradict each other: it was not opened, or was written over */
    LJ_TOO_SHORT = 10,           /* packet: shorter than its headers or tables say, or its padding is wrong */
    LJ_TOO_LONG = 11,            /* packet: over 2,048 bytes */
    LJ_OTHER_VERSION = 12,       /* packet: the RTP version is not 2 */
    LJ_OTHER_PAYLOAD = 13,       /* packet: the payload type is not 26, JPEG's */
    LJ_OTHER_SOURCE = 14,        /* packet: the source (SSRC) is not the receiver's */
    LJ_OTHER_TYPE = 15,          /* packet: the type is not 0, 1, 64 or 65 */
    LJ_OTHER_TYPE_SPECIFIC = 16, /* packet: the type-specific byte is not 0 */
    LJ_Q_RESERVED = 17,          /* packet: Q is 0 or 100 to 127 */
    LJ_SIDE_ZERO = 18,           /* packet: width or height is 0 */
    LJ_INTERVAL_ZERO = 19,       /* packet: the restart interval of type 64 or 65 is 0 */
    LJ_TABLE_RULE = 20,          /* packet: tables of 16 bits, not 0 or 128 bytes, with a 0 in them, or none with Q 255 */
    LJ_NO_SCAN = 21,             /* packet: no scan data */
    LJ_PAST = 22,                /* receiver: the picture held is newer, or exactly 2^31 away, or is this one and whole */
    LJ_UNLIKE = 23,              /* receiver: type, Q, width, height or interval unlike the picture's */
    LJ_BEYOND = 24,              /* receiver: the scan data would end beyond the room */
    LJ_CLASH = 25,               /* receiver: a byte that is held already, in no exact repeat, or at odds with the end */
    LJ_FULL = 26,                /* receiver: 64 fragments are held */
    LJ_BARE = 27,                /* receiver: Q 128 to 254, no tables in the first packet, and none kept for that Q */
    LJ_NOT_WHOLE = 30,           /* file builder: no picture is held, or it is not whole */
    LJ_FILE_OUTPUT = 31,         /* file builder: the output is shorter than the file */
    LJ_Q_NOT_MADE = 34,          /* table making: Q is not 1 to 99 */
    LJ_TABLES_OUTPUT = 35,       /* table making: the output is under 128 bytes */
    LJ_PARAMETERS = 40,          /* sender: type, Q, width, height or interval outside its limits */
    LJ_SCAN_LENGTH = 41,         /* sender: the scan is not 1 to 65,536 bytes */
    LJ_PACKET_SIZE = 42,         /* sender: the packet size is not 192 to 1,472 */
    LJ_SENT_TABLES = 43,         /* sender: tables missing or unwanted for this Q, not 128 bytes, or with a 0 */
    LJ_OVER_64_PACKETS = 44,     /* sender: the picture needs more than 64 packets of this size */
    LJ_INDEX_TOO_LARGE = 45,     /* sender: the picture has no packet k */
    LJ_PACKET_OUTPUT = 46        /* sender: the output is shorter than the packet */
};

/* How much memory a host may need. */
enum {
    LJ_LARGEST_ROOM = 65536,     /* the longest scan that is sent or received */
    LJ_LONGEST_PACKET = 2048,    /* the longest packet that lj_receive takes */
    LJ_LONGEST_SENT = 1472,      /* the longest packet that lj_packet writes */
    LJ_TABLES_LENGTH = 128,      /* what lj_make_tables writes */
    LJ_FILE_BESIDE_SCAN = 613    /* the most that a file has beside its scan: a head of 611, and the closing marker's 2 */
};

/* What a call that writes answers: a reply, and the length written, which is 0 with a refusal. */
typedef struct {
    uint32_t reply;
    uint32_t length;
} lj_written;

/* What a receiver answers: a reply, and how many scan bytes of its picture it holds afterwards, which is 0 with
 * LJ_NOT_WELL_FORMED. */
typedef struct {
    uint32_t reply;
    uint32_t held;
} lj_answer;

/* A part of a scan that is held: `length` bytes from `offset` on; marker is 1 on the last of its picture, and else 0. */
typedef struct {
    uint32_t offset;
    uint32_t length;
    uint32_t marker;
} lj_fragment;

/* The last tables received for one Q of 128 to 254, for pictures that bring none; Q 0 and zeros while there are none. */
typedef struct {
    uint32_t q;
    uint8_t tables[128];
} lj_kept;

/* A receiver: a value like any other, with no pointer in it. It may be copied, kept and gone back to, on the stack or
 * anywhere else, together with the scan area as it was then; nothing has to be closed. The fields are for reading. A host
 * that writes to them does no harm but to its picture: every pattern of bits is answered, as LJ_NOT_WELL_FORMED or as what
 * it says. What is not known yet, or not used, is 0: without a picture, all from time to tables. */
typedef struct {
    uint32_t source;            /* the source (SSRC) that it takes packets of */
    uint32_t room;              /* the length of the scan area */
    uint32_t picture;           /* 1 while a picture is held, and else 0 */
    uint32_t time;              /* its time stamp */
    uint32_t kind;              /* its type: 0, 1, 64 or 65 */
    uint32_t q;
    uint32_t width;             /* in units of 8 pixels, as is height */
    uint32_t height;
    uint32_t interval;          /* the restart interval, in MCUs */
    uint32_t end;               /* the length of its scan, once the packet with the marker is in */
    uint32_t whole;             /* 1 once no byte of it is missing, and else 0 */
    uint32_t fragment_count;
    lj_fragment fragments[64];  /* those held, in offset order; the places behind them are 0 */
    uint8_t tables[128];        /* its tables, 64 luma entries and 64 chroma entries in zigzag order, once the first packet
                                 * is in */
    lj_kept kept;
} lj_receiver;

/* What opening answers: a reply, with 0 held, and the receiver. */
typedef struct {
    lj_answer answer;
    lj_receiver receiver;
} lj_opened;

#ifndef __cplusplus
/* The layout that the archive has; a C++ compiler lays these structs out as the C compiler does. */
_Static_assert(sizeof(lj_written) == 8 && offsetof(lj_written, reply) == 0, "lj_written");
_Static_assert(offsetof(lj_written, length) == 4, "lj_written");
_Static_assert(sizeof(lj_answer) == 8 && offsetof(lj_answer, reply) == 0, "lj_answer");
_Static_assert(offsetof(lj_answer, held) == 4, "lj_answer");
_Static_assert(sizeof(lj_fragment) == 12 && offsetof(lj_fragment, offset) == 0, "lj_fragment");
_Static_assert(offsetof(lj_fragment, length) == 4 && offsetof(lj_fragment, marker) == 8, "lj_fragment");
_Static_assert(sizeof(lj_kept) == 132 && offsetof(lj_kept, q) == 0 && offsetof(lj_kept, tables) == 4, "lj_kept");
_Static_assert(sizeof(lj_receiver) == 1076 && offsetof(lj_receiver, source) == 0, "lj_receiver");
_Static_assert(offsetof(lj_receiver, room) == 4 && offsetof(lj_receiver, picture) == 8, "lj_receiver");
_Static_assert(offsetof(lj_receiver, time) == 12 && offsetof(lj_receiver, kind) == 16, "lj_receiver");
_Static_assert(offsetof(lj_receiver, q) == 20 && offsetof(lj_receiver, width) == 24, "lj_receiver");
_Static_assert(offsetof(lj_receiver, height) == 28 && offsetof(lj_receiver, interval) == 32, "lj_receiver");
_Static_assert(offsetof(lj_receiver, end) == 36 && offsetof(lj_receiver, whole) == 40, "lj_receiver");
_Static_assert(offsetof(lj_receiver, fragment_count) == 44 && offsetof(lj_receiver, fragments) == 48, "lj_receiver");
_Static_assert(offsetof(lj_receiver, tables) == 816 && offsetof(lj_receiver, kept) == 944, "lj_receiver");
_Static_assert(sizeof(lj_opened) == 1084 && offsetof(lj_opened, answer) == 0, "lj_opened");
_Static_assert(offsetof(lj_opened, receiver) == 8, "lj_opened");
#endif

/* The quantiser tables of a Q from 1 to 99, as RFC 2435 section 4.2 makes them: 64 luma entries, then 64 chroma
 * entries, each in the zigzag order of a DQT segment, none of them 0. They are the first 128 bytes of out, and out
 * past them stays as it was. Refusals, in this order: LJ_Q_NOT_MADE, LJ_TABLES_OUTPUT. */
lj_written lj_make_tables(uint32_t q, uint8_t *out, size_t out_len);

/* Packet k, from 0, of a picture, as RTP carries it (RFC 2435, RFC 3550): the first bytes of out, and out past them stays
 * as it was. A picture is sent by asking for k = 0, 1, 2 and so on, with all else the same, until LJ_INDEX_TOO_LARGE.
 *
 *   type         0: luma at twice the chroma's resolution across (sampling 2 by 1); 1: across and down (2 by 2). With
 *                restart intervals: 64 and 65 in their place
 *   q            1 to 99: the scan was quantised with the tables that lj_make_tables gives for this Q, and the receiver
 *                makes them again. 128 to 255: with tables of the sender's own
 *   width        and height: 1 to 255, in units of 8 pixels
 *   interval     the restart interval, in MCUs: 1 to 65,535 for types 64 and 65, and 0 for 0 and 1
 *   tables       64 luma entries, then 64 chroma entries, in zigzag order, none of them 0; or no bytes. Q 1 to 99 has none,
 *                Q 255 always has them, and Q 128 to 254 may leave them out where the receiver has kept those of an earlier
 *                picture of that Q
 *   scan         the entropy-coded data that stands behind the SOS segment of a baseline JPEG with three components in one
 *                scan, coded with the Huffman tables of T.81 K.3 to K.6: 1 to 65,536 bytes, with or without the EOI marker
 *                at their end. They are carried as they are, and not looked at
 *   packet_size  the length to which each packet is filled, all headers counted: 192 to 1,472. The last packet takes what
 *                remains, and alone has the marker
 *   start        the sequence number of packet 0; packet k has start + k, modulo 65,536. The next picture starts where
 *                this one ended, at start + the number of its packets
 *   time         the picture's time stamp, which every packet of it bears and the next picture's do not: a receiver tells
 *                pictures apart by it
 *   source       the source (SSRC), by which a receiver knows its sender
 *
 * An output of packet_size bytes is always long enough; out must not overlap tables or scan. Refusals, in this order:
 * LJ_PARAMETERS, LJ_SCAN_LENGTH, LJ_PACKET_SIZE, LJ_SENT_TABLES, LJ_OVER_64_PACKETS, LJ_INDEX_TOO_LARGE, LJ_PACKET_OUTPUT. */
lj_written lj_packet(uint32_t type, uint32_t q, uint32_t width, uint32_t height, uint32_t interval,
                     const uint8_t *tables, size_t tables_len, const uint8_t *scan, size_t scan_len,
                     uint32_t packet_size, uint16_t start, uint32_t time, uint32_t source, uint32_t k,
                     uint8_t *out, size_t out_len);

/* A receiver of a source (SSRC), with a room of 1 to 65,536 bytes, which is the longest scan that it can take and the
 * length of the area that it is lent: LJ_SUCCESS, and it holds nothing. With any other room LJ_ROOM_OUTSIDE, and a receiver
 * of that source with room 0, to which lj_receive and lj_build answer LJ_NOT_WELL_FORMED. */
lj_opened lj_open(uint32_t source, uint32_t room);

/* Takes a packet, as it came from the network, into the picture that it is for. With LJ_HELD and LJ_WHOLE the receiver
 * becomes the next one, and the packet's scan bytes are written at their place in the area and nothing elsewhere. With any
 * other reply nothing is changed.
 *
 *   receiver     as lj_open gave it or the last call left it; not NULL, and aligned as C aligns an lj_receiver
 *   area         as long as the receiver's room, and as the last call left it. What is in it before the first call does not
 *                matter, and it needs no clearing between pictures
 *   packet       with its RTP header
 *
 * At LJ_WHOLE the picture's scan is the first `end` bytes of the area, its tables and all else are in the receiver, and
 * both stay so until a newer picture starts. At LJ_HELD bytes are missing, and the picture is not to be shown. A newer
 * picture starts with the first of its packets that is taken, and the picture held is then given up, whole or not: there is
 * no reply of its own for one that was not, but `time` has changed with no LJ_WHOLE before. A refused packet ends nothing.
 *
 * Receiver, area and packet may not overlap each other. Refusals, in this order, each with the count of what is held:
 * LJ_NOT_WELL_FORMED (count 0), LJ_AREA_NOT_ROOM, LJ_TOO_LONG, LJ_TOO_SHORT (under 12 bytes), LJ_OTHER_VERSION,
 * LJ_OTHER_PAYLOAD, LJ_OTHER_SOURCE, LJ_TOO_SHORT (CSRC entries, extension, padding, main header), LJ_OTHER_TYPE,
 * LJ_OTHER_TYPE_SPECIFIC, LJ_Q_RESERVED, LJ_SIDE_ZERO, LJ_TOO_SHORT (restart header), LJ_INTERVAL_ZERO, LJ_TOO_SHORT (table
 * header, tables), LJ_TABLE_RULE, LJ_NO_SCAN, LJ_PAST, LJ_UNLIKE, LJ_BEYOND, LJ_AGAIN (which is no fault) or LJ_CLASH,
 * LJ_FULL, LJ_BARE. */
lj_answer lj_receive(lj_receiver *receiver, uint8_t *area, size_t area_len, const uint8_t *packet, size_t packet_len);

/* The file of a whole picture, for a JPEG decoder: the headers of RFC 2435 Appendix B and T.81, 605 bytes, or 611 with a
 * restart interval; the scan, byte for byte; and the marker FF D9, unless the scan's last two bytes are that already. It is
 * the first bytes of out, and out past them stays as it was.
 *
 *   receiver     after LJ_WHOLE, until a newer picture starts; handed over by value, so that it stays as it is
 *   area         the receiver's, as the last call left it; it is only read
 *   out          receiver.end + LJ_FILE_BESIDE_SCAN bytes are always enough, and so are receiver.room + LJ_FILE_BESIDE_SCAN;
 *                it must not overlap the area
 *
 * Refusals, in this order: LJ_NOT_WELL_FORMED, LJ_AREA_NOT_ROOM, LJ_NOT_WHOLE, LJ_FILE_OUTPUT. */
lj_written lj_build(lj_receiver receiver, const uint8_t *area, size_t area_len, uint8_t *out, size_t out_len);

#ifdef __cplusplus
}
#endif

#endif
