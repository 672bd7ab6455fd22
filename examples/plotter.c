/* A host to start from: `plotter SOURCE RECORDS PREFIX` takes the RTP packets of the file RECORDS, which has a length of two
 * bytes before each (RFC 4571), and writes every picture that becomes whole to PREFIX000001.jpg and so on. A plotter on a boat
 * has its packets from the network, and a decoder where this one has save(). */
#include <errno.h>
#include <stdio.h>
#include <stdlib.h>
#include <string.h>

#include "ljosvark.h"

/* What the library is lent: the receiver's scan area, a packet, and room for the longest file. The library allocates nothing. */
static uint8_t area[LJ_LARGEST_ROOM];
static uint8_t packet[65535]; /* the longest record; what is over LJ_LONGEST_PACKET is for lj_receive to refuse */
static uint8_t file[sizeof area + LJ_FILE_BESIDE_SCAN];

/* Why lj_receive did not take a packet. */
static const char *word_for(uint32_t reply) {
    switch (reply) {
    case LJ_AREA_NOT_ROOM: return "area not as long as the room";
    case LJ_NOT_WELL_FORMED: return "receiver not well formed";
    case LJ_TOO_SHORT: return "too short, or wrongly padded";
    case LJ_TOO_LONG: return "over 2,048 bytes";
    case LJ_OTHER_VERSION: return "RTP version not 2";
    case LJ_OTHER_PAYLOAD: return "payload type not JPEG's";
    case LJ_OTHER_SOURCE: return "another source";
    case LJ_OTHER_TYPE: return "type not carried";
    case LJ_OTHER_TYPE_SPECIFIC: return "type-specific byte not 0";
    case LJ_Q_RESERVED: return "reserved Q";
    case LJ_SIDE_ZERO: return "width or height 0";
    case LJ_INTERVAL_ZERO: return "restart interval 0";
    case LJ_TABLE_RULE: return "table rule broken";
    case LJ_NO_SCAN: return "no scan data";
    case LJ_PAST: return "picture past, or whole already";
    case LJ_UNLIKE: return "unlike its picture";
    case LJ_BEYOND: return "beyond the room";
    case LJ_CLASH: return "clash with what is held";
    case LJ_FULL: return "64 fragments held";
    case LJ_BARE: return "no tables for its Q";
    default: return "no reply of lj_receive";
    }
}

/* What a host does with a whole picture's JPEG file. `host` is its own. */
typedef void shown(const uint8_t *jpeg, size_t length, void *host);

/* Hands `packet` to the receiver, and shows the picture where that was all that it lacked. */
static uint32_t take(lj_receiver *receiver, size_t length, shown *show, void *host) {
    lj_answer taken = lj_receive(receiver, area, sizeof area, packet, length);
    if (taken.reply != LJ_WHOLE) return taken.reply;
    lj_written built = lj_build(*receiver, area, sizeof area, file, sizeof file);
    if (built.reply == LJ_SUCCESS) show(file, built.length, host); /* which it is: the picture is whole, and `file` has room */
    return taken.reply;
}

/* Reads the next record into `packet`: 1, or 0 at the end of the file, or -1 where the file ends inside the record. */
static int read_record(FILE *records, size_t *length) {
    uint8_t field[2];
    size_t got = fread(field, 1, sizeof field, records);
    if (got == 0) return 0;
    *length = (size_t)field[0] << 8 | field[1];
    return got == sizeof field && fread(packet, 1, *length, records) == *length ? 1 : -1;
}

typedef struct {
    const char *prefix;
    unsigned count, not_written;
} album;

/* A file that could be written in part only is removed: a viewer would show it, with its lower part missing. */
static void save(const uint8_t *jpeg, size_t length, void *host) {
    album *pictures = host;
    char name[4096];
    int fits = snprintf(name, sizeof name, "%s%06u.jpg", pictures->prefix, ++pictures->count) < (int)sizeof name;
    errno = ENAMETOOLONG;
    FILE *out = fits ? fopen(name, "wb") : NULL;
    int right = out != NULL && fwrite(jpeg, 1, length, out) == length;
    if (out != NULL && fclose(out) != 0) right = 0;
    if (right) return;
    fprintf(stderr, "not written: %s: %s\n", name, strerror(errno));
    if (out != NULL) remove(name);
    pictures->not_written++;
}

int main(int argc, char **argv) {
    char *end = NULL;
    unsigned long long source = argc == 4 ? strtoull(argv[1], &end, 0) : 0;
    if (end == NULL || end == argv[1] || *end != '\0' || source > UINT32_MAX)
        return fprintf(stderr, "usage: plotter SOURCE RECORDS PREFIX, where SOURCE is a number of 32 bits\n"), 2;
    FILE *records = fopen(argv[2], "rb");
    if (records == NULL) return fprintf(stderr, "plotter: %s: %s\n", argv[2], strerror(errno)), 2;
    lj_receiver receiver = lj_open((uint32_t)source, sizeof area).receiver;
    album pictures = {argv[3], 0, 0};
    size_t length;
    int came;
    for (unsigned long number = 1; (came = read_record(records, &length)) == 1; number++) {
        uint32_t reply = take(&receiver, length, save, &pictures);
        if (reply != LJ_HELD && reply != LJ_WHOLE && reply != LJ_AGAIN)
            printf("packet %lu refused %u (%s)\n", number, (unsigned)reply, word_for(reply));
    }
    if (came < 0) printf("cut short at the end\n");
    printf("pictures whole: %u\n", pictures.count);
    return fclose(records) != 0 || pictures.not_written != 0;
}
