/* What a JPEG file says that a sender needs, for files such as cjpeg writes: baseline, three components, 8-bit tables. A file
 * of any other kind ends the program, with a line that says why. */
#ifndef JPEG_FILE_H
#define JPEG_FILE_H

#include <stdint.h>
#include <stdio.h>
#include <stdlib.h>
#include <string.h>

/* What the program is at, for that line. */
static const char *doing = "nothing yet";

static inline _Noreturn void stop(const char *why) {
    fprintf(stderr, "%s: %s\n", doing, why);
    exit(1);
}

static inline void must(int right, const char *why) {
    if (!right) stop(why);
}

/* Huffman tables by class and number: luma DC and chroma DC, luma AC and chroma AC. */
typedef struct {
    uint32_t width, height, interval; /* the sides in pixels */
    uint8_t sampling[3], quantiser_of[3], huffman_of[3], names[3];
    uint8_t quantisers[128], huffman[4][16 + 256];
    size_t huffman_len[4], scan_len;
    const uint8_t *scan;
    unsigned seen; /* a bit for each quantiser table, each Huffman table and the frame */
} jpeg;

enum { ALL_SEEN = 0x7f };

static inline uint32_t two(const uint8_t *at) { return (uint32_t)at[0] << 8 | at[1]; }

static inline void read_quantisers(jpeg *j, const uint8_t *at, size_t length) {
    must(length % 65 == 0, "a DQT that is not of 8-bit tables");
    for (; length != 0; at += 65, length -= 65) {
        must(at[0] <= 1, "a DQT other than of 8-bit tables 0 and 1");
        memcpy(j->quantisers + 64 * at[0], at + 1, 64);
        j->seen |= 1u << at[0];
    }
}

static inline void read_huffman(jpeg *j, const uint8_t *at, size_t length) {
    while (length != 0) {
        size_t size = 17;
        must(17 <= length && (at[0] & 0xee) == 0, "a DHT other than of tables 0 and 1");
        for (int bits = 1; bits <= 16; bits++) size += at[bits];
        must(size <= length && size <= 17 + 256, "a DHT whose counts are more than its symbols");
        int which = at[0] >> 4 << 1 | (at[0] & 1);
        memcpy(j->huffman[which], at + 1, size - 1);
        j->huffman_len[which] = size - 1;
        j->seen |= 4u << which;
        at += size;
        length -= size;
    }
}

static inline void read_frame(jpeg *j, const uint8_t *at, size_t length) {
    must(length == 15 && at[0] == 8 && at[5] == 3, "a frame other than of three components of 8 bits");
    j->height = two(at + 1);
    j->width = two(at + 3);
    for (int i = 0; i < 3; i++) {
        j->names[i] = at[6 + 3 * i];
        j->sampling[i] = at[7 + 3 * i];
        j->quantiser_of[i] = at[8 + 3 * i];
    }
    j->seen |= 0x40;
}

static inline void read_interval(jpeg *j, const uint8_t *at, size_t length) {
    must(length == 2, "a DRI of another length");
    j->interval = two(at);
}

static inline void read_scan_header(jpeg *j, const uint8_t *at, size_t length) {
    must(length == 10 && at[0] == 3, "a scan other than of three components");
    must(at[7] == 0 && at[8] == 63 && at[9] == 0, "a scan other than of all coefficients");
    must(j->seen == ALL_SEEN, "a scan before the tables and the frame");
    for (int i = 0; i < 3; i++) {
        must(at[1 + 2 * i] == j->names[i], "a scan of other components than the frame's");
        j->huffman_of[i] = at[2 + 2 * i];
    }
}

static inline void read_segment(jpeg *j, uint8_t marker, const uint8_t *at, size_t length) {
    int passed_over = marker == 0xfe || marker >> 4 == 0xe; /* comments, and what programs add */
    if (marker == 0xdb) read_quantisers(j, at, length);
    else if (marker == 0xc4) read_huffman(j, at, length);
    else if (marker == 0xc0) read_frame(j, at, length);
    else if (marker == 0xdd) read_interval(j, at, length);
    else if (marker == 0xda) read_scan_header(j, at, length);
    else must(passed_over, "a segment that is none of a baseline file");
}

/* The segments up to SOS; what follows, up to the EOI at the file's end, is the scan. */
static inline void read_jpeg(jpeg *j, const uint8_t *file, size_t length) {
    size_t at = 2;
    uint8_t marker = 0;
    memset(j, 0, sizeof *j);
    must(4 <= length && two(file) == 0xffd8 && two(file + length - 2) == 0xffd9, "it does not go from SOI to EOI");
    while (marker != 0xda) {
        must(at + 4 <= length && file[at] == 0xff, "no segment where one must begin");
        marker = file[at + 1];
        size_t size = two(file + at + 2);
        must(2 <= size && size <= length - at - 2, "a segment of an impossible length");
        read_segment(j, marker, file + at + 4, size - 2);
        at += 2 + size;
    }
    must(at < length - 2, "no scan");
    j->scan = file + at;
    j->scan_len = length - 2 - at;
}

/* The type that RFC 2435 has for it. */
static inline uint32_t type_of(const jpeg *j) {
    must(j->width % 8 == 0 && j->height % 8 == 0, "sides that are no multiples of 8");
    must(j->sampling[0] == 0x21 || j->sampling[0] == 0x22, "luma that is sampled otherwise than 2x1 or 2x2");
    return (j->sampling[0] == 0x21 ? 0u : 1u) + (j->interval != 0 ? 64u : 0u);
}

static inline size_t read_file(const char *name, uint8_t *bytes, size_t most) {
    FILE *stream = fopen(name, "rb");
    must(stream != NULL, "it cannot be opened");
    size_t length = fread(bytes, 1, most, stream);
    must(!ferror(stream) && fgetc(stream) == EOF && fclose(stream) == 0, "it cannot be read, or is too long");
    return length;
}

#endif
