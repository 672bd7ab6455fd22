/* lj_make_tables against the quantiser tables that a JPEG encoder wrote: file n of the arguments is a picture that was
 * encoded at quality n, by the Independent JPEG Group's rule, which RFC 2435 section 4.2 takes over. */
#include "../include/ljosvark.h"
#include <stdio.h>
#include <string.h>

/* Takes tables 0 and 1 out of the file's DQT segments, up to SOS; 0 where they are not both there with 8-bit entries. */
static int read_tables(const uint8_t *file, size_t length, uint8_t tables[128]) {
    int found = 0;
    size_t at = 2;
    while (at + 4 <= length && file[at] == 0xff && file[at + 1] != 0xda) {
        size_t end = at + 2 + (size_t)(file[at + 2] << 8 | file[at + 3]);
        if (length < end) return 0;
        if (file[at + 1] == 0xdb)
            for (size_t table = at + 4; table + 65 <= end; table += 65) {
                if (file[table] > 1) return 0;
                memcpy(tables + 64 * file[table], file + table + 1, 64);
                found |= 1 << file[table];
            }
        at = end;
    }
    return found == 3;
}

int main(int count, char **files) {
    static uint8_t file[65536];
    for (int q = 1; q < count; q++) {
        uint8_t theirs[128], ours[128];
        FILE *stream = fopen(files[q], "rb");
        size_t length = stream ? fread(file, 1, sizeof file, stream) : 0;
        if (stream) fclose(stream);
        if (!read_tables(file, length, theirs)) {
            printf("encoder: no two tables in %s\n", files[q]);
            return 1;
        }
        lj_written answer = lj_make_tables((uint32_t)q, ours, sizeof ours);
        for (int i = 0; i < 128; i++)
            if (answer.reply != LJ_SUCCESS || ours[i] != theirs[i]) {
                printf("encoder differs: q %d, reply %u, entry %d: %u and not %u\n", q, (unsigned)answer.reply, i, ours[i], theirs[i]);
                return 1;
            }
    }
    printf("encoder: the tables of %d qualities compared, all equal\n", count - 1);
    return count == 100 ? 0 : 1;
}
