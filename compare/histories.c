/* The receiver's and the builder's cases of crates/vectors again, through C: `histories IN OUT` runs the lines of IN that
 * open a receiver, make one up, hand it packets, show it or build its file, and compares each, with its answer, with the
 * same line of OUT. The comments of IN say what each form gives. Lines about tables, packets or the receiver's parts by
 * themselves are passed over. */
#include "built.h"
#include "received.h"

#include <stdlib.h>

/* A line of the files, with its end, is shorter than LINE. */
enum { LINE = 8192, ANSWER = 2 * LINE, PLACES = 461 };

static lj_receiver receiver;
static uint8_t area[LENT_MOST];
static size_t area_len;
static unsigned long line_number;
static char answer[ANSWER];
static size_t answer_len;

static _Noreturn void stop(const char *why) {
    printf("histories: line %lu: %s\n", line_number, why);
    exit(1);
}

/* ---- What a line says ---- */

static void say(uint32_t n) {
    int length = snprintf(answer + answer_len, ANSWER - answer_len, " %lu", (unsigned long)n);
    if (ANSWER - answer_len <= (size_t)length) stop("the answer is too long");
    answer_len += (size_t)length;
}

/* The decimal number of 32 bits at *at, which moves behind it; 0 where there is none. */
static int number_at(const char **at, uint32_t *n) {
    uint64_t value = 0;
    const char *first = *at;
    for (; '0' <= **at && **at <= '9'; ++*at) {
        value = 10 * value + (uint64_t)(**at - '0');
        if (UINT32_MAX < value) return 0;
    }
    *n = (uint32_t)value;
    return *at != first;
}

/* So many numbers, each behind one space. */
static int numbers_at(const char **at, uint32_t *n, int count) {
    for (int i = 0; i < count; i++) {
        if (**at != ' ') return 0;
        ++*at;
        if (!number_at(at, &n[i])) return 0;
    }
    return 1;
}

static int only_numbers(const char *at, uint32_t *n, int count) { return numbers_at(&at, n, count) && *at == '\0'; }

/* The number behind a star, and 1 where there is no star. */
static int times_at(const char **at, uint32_t *n) {
    *n = 1;
    if (**at != '*') return 1;
    ++*at;
    return number_at(at, n);
}

static int digit_at(const char **at) {
    static const char digits[] = "0123456789ABCDEF";
    const char *found = **at ? strchr(digits, **at) : NULL;
    if (found != NULL) ++*at;
    return found ? (int)(found - digits) : -1;
}

/* Bytes in hex up to the line's end, single spaces between them or none; 10*128 is 128 bytes of 10. -1 where they are
 * wrong or too many, and else their number. */
static long bytes_at(const char *at, uint8_t *out, size_t most) {
    size_t length = 0;
    while (*at != '\0') {
        uint32_t times;
        if (*at == ' ') at++;
        int high = digit_at(&at), low = high < 0 ? -1 : digit_at(&at);
        if (low < 0 || !times_at(&at, &times) || most - length < times) return -1;
        memset(out + length, 16 * high + low, times);
        length += times;
    }
    return (long)length;
}

/* ---- A receiver by places ---- */

/* The first 204 places are numbers of 32 bits in the struct's order; the kept Q is the only one behind them. */
static uint8_t *byte_place(lj_receiver *r, uint32_t place) {
    return place < 332 ? &r->tables[place - 204] : &r->kept.tables[place - 333];
}

static uint32_t at_place(lj_receiver *r, uint32_t place) {
    uint32_t n = r->kept.q;
    if (place < 204) memcpy(&n, (uint8_t *)r + 4 * place, 4);
    return place < 204 || place == 332 ? n : *byte_place(r, place);
}

static void put_place(lj_receiver *r, uint32_t place, uint32_t n) {
    if (place < 204) memcpy((uint8_t *)r + 4 * place, &n, 4);
    else if (place == 332) r->kept.q = n;
    else *byte_place(r, place) = (uint8_t)n;
}

static void say_places(lj_receiver *r, uint32_t from, uint32_t count) {
    for (uint32_t i = 0; i < count; i++) say(at_place(r, from + i));
}

/* The first 12, and how many of the others are not 0. */
static void say_receiver(lj_receiver *r) {
    uint32_t used = 0;
    for (uint32_t place = 12; place < PLACES; place++) used += at_place(r, place) != 0;
    say_places(r, 0, 12);
    say(used);
}

static lj_receiver good_receiver(void) {
    lj_receiver r = lj_open(1, 1000).receiver;
    r.picture = 1;
    r.time = 1000;
    r.kind = 1;
    r.q = 50;
    r.width = r.height = 2;
    r.fragment_count = 3;
    r.fragments[0] = (lj_fragment){0, 100, 0};
    r.fragments[1] = (lj_fragment){100, 50, 0};
    r.fragments[2] = (lj_fragment){200, 100, 0};
    lj_make_tables(50, r.tables, sizeof r.tables);
    r.kept.q = 128;
    memset(r.kept.tables, 16, sizeof r.kept.tables);
    return r;
}

/* The good receiver with the changes that stand from `at` to the line's end; 0 where they are wrong. */
static int made_up(const char *at, lj_receiver *r) {
    *r = good_receiver();
    while (*at != '\0') {
        uint32_t from, count, n;
        if (!numbers_at(&at, &from, 1) || !times_at(&at, &count) || !numbers_at(&at, &n, 1)) return 0;
        if (PLACES < from || PLACES - from < count) return 0;
        for (uint32_t i = 0; i < count; i++) put_place(r, from + i, n);
    }
    return 1;
}

/* ---- The kinds of line: each answers whether the line is such a case ---- */

static lj_answer receive(lj_receiver *r, size_t length, const uint8_t *packet, size_t packet_len) {
    const char *wrong;
    lj_answer a = received(r, area, length, packet, packet_len, (uint8_t)(line_number % 251), &wrong);
    if (wrong != NULL) stop(wrong);
    return a;
}

static int run_open(const char *at) {
    uint32_t n[2];
    if (!only_numbers(at, n, 2)) return 0;
    lj_opened opened = lj_open(n[0], n[1]);
    say(opened.answer.reply);
    say(opened.answer.held);
    say_receiver(&opened.receiver);
    return 1;
}

static uint32_t sum_of_lengths(const lj_receiver *r) {
    uint32_t sum = 0;
    for (uint32_t i = 0; i < 64 && i < r->fragment_count; i++) sum += r->fragments[i].length;
    return sum;
}

/* An empty packet is too short for every receiver that is well formed, and is not looked at for any other. */
static int run_formed(const char *at) {
    lj_receiver r;
    if (!made_up(at, &r)) return 0;
    lj_answer a = receive(&r, 1 <= r.room && r.room <= LENT_MOST ? r.room : 1000, NULL, 0);
    int formed = a.reply == LJ_TOO_SHORT && a.held == sum_of_lengths(&r);
    if (!formed && !(a.reply == LJ_NOT_WELL_FORMED && a.held == 0)) stop("neither 9 with 0 nor 10 with the bytes held");
    say((uint32_t)formed);
    return 1;
}

static int begin_with(const lj_receiver *r, uint32_t length) {
    if (LENT_MOST < length) return 0;
    receiver = *r;
    area_len = length;
    memset(area, 7, sizeof area);
    return 1;
}

static int run_begin(const char *at) {
    uint32_t n[3];
    if (!only_numbers(at, n, 3)) return 0;
    lj_opened opened = lj_open(n[0], n[1]);
    if (!begin_with(&opened.receiver, n[2])) return 0;
    say(opened.answer.reply);
    say(opened.answer.held);
    return 1;
}

static int run_made(const char *at) {
    uint32_t length;
    lj_receiver r;
    return numbers_at(&at, &length, 1) && made_up(at, &r) && begin_with(&r, length);
}

static int run_take(const char *at) {
    static uint8_t packet[LENT_MOST];
    long length = bytes_at(at, packet, sizeof packet);
    if (length < 0) return 0;
    lj_answer a = receive(&receiver, area_len, packet, (size_t)length);
    say(a.reply);
    say(a.held);
    return 1;
}

static int run_shown(const char *at) {
    if (*at == '\0') say_receiver(&receiver);
    return *at == '\0';
}

/* FROM and COUNT, where there are so many things from there on. */
static int part_at(const char *at, uint32_t n[2], uint64_t most) {
    return only_numbers(at, n, 2) && (uint64_t)n[0] + n[1] <= most;
}

static int run_pieces(const char *at) {
    uint32_t n[2];
    int there = part_at(at, n, 64);
    if (there) say_places(&receiver, 12 + 3 * n[0], 3 * n[1]);
    return there;
}

static int run_entries(const char *at) {
    uint32_t n[2];
    int there = part_at(at, n, 128);
    if (there) say_places(&receiver, 204 + n[0], n[1]);
    return there;
}

static int run_store(const char *at) {
    uint32_t n[2];
    if (!part_at(at, n, 128)) return 0;
    say(receiver.kept.q);
    say_places(&receiver, 333 + n[0], n[1]);
    return 1;
}

static int run_area(const char *at) {
    uint32_t n[2];
    int there = part_at(at, n, area_len);
    for (uint32_t i = 0; there && i < n[1]; i++) say(area[n[0] + i]);
    return there;
}

static int run_build(const char *at) {
    uint32_t n[3];
    const char *wrong;
    if (!only_numbers(at, n, 3) || LENT_MOST + LENT_BEYOND < n[0] || n[0] < (uint64_t)n[1] + n[2]) return 0;
    lj_written w = built(&receiver, area, area_len, n[0], (uint8_t)~7, &wrong);
    if (wrong != NULL) stop(wrong);
    say(w.reply);
    say(w.length);
    for (uint32_t i = 0; i < n[2]; i++) say(built_file()[n[1] + i]);
    return 1;
}

static struct {
    const char *name;
    int (*run)(const char *);
    unsigned long lines;
} kinds[] = {{"open", run_open, 0},   {"formed", run_formed, 0}, {"begin", run_begin, 0},     {"made", run_made, 0},
             {"take", run_take, 0},   {"shown", run_shown, 0},   {"pieces", run_pieces, 0},   {"entries", run_entries, 0},
             {"store", run_store, 0}, {"area", run_area, 0},     {"build", run_build, 0}};

enum { KINDS = sizeof kinds / sizeof *kinds };

/* ---- The files ---- */

/* The next line without its end; 0 where the file has ended. */
static int next_line(FILE *file, char *line) {
    if (fgets(line, LINE, file) == NULL) return 0;
    size_t length = strcspn(line, "\n");
    if (line[length] != '\n') stop("too long, or the file's last and without an end");
    line[length] = '\0';
    return 1;
}

/* The line, an arrow and what it gives; a question mark where it is no case of its kind. 0 for lines of no kind here. */
static int answered(const char *line) {
    size_t word = strcspn(line, " ");
    for (size_t i = 0; i < KINDS; i++) {
        if (strlen(kinds[i].name) != word || strncmp(kinds[i].name, line, word) != 0) continue;
        kinds[i].lines++;
        answer_len = (size_t)snprintf(answer, ANSWER, "%s ->", line);
        if (!kinds[i].run(line + word)) strcat(answer, " ?");
        return 1;
    }
    return 0;
}

/* Every line of OUT repeats that of IN, so that a line passed over must still begin as it does. */
static void run_files(FILE *in, FILE *out) {
    static char line[LINE], right[LINE];
    while (next_line(in, line)) {
        line_number++;
        if (!next_line(out, right)) stop("there is no such line in the answers");
        int ran = answered(line);
        if (ran ? strcmp(answer, right) == 0 : strncmp(line, right, strlen(line)) == 0) continue;
        printf("histories differ: line %lu\n  ours   %s\n  theirs %s\n", line_number, ran ? answer : line, right);
        exit(1);
    }
    if (next_line(out, right)) stop("the answers go on behind this line");
}

int main(int argc, char **argv) {
    FILE *in = argc == 3 ? fopen(argv[1], "rb") : NULL, *out = argc == 3 ? fopen(argv[2], "rb") : NULL;
    if (in == NULL || out == NULL) {
        printf("histories: it takes two files, the cases and their answers\n");
        return 1;
    }
    lj_receiver first = lj_open(1, 1).receiver;
    begin_with(&first, 1);
    run_files(in, out);
    unsigned long lines = 0;
    for (size_t i = 0; i < KINDS; i++) lines += kinds[i].lines;
    printf("histories: %lu lines again through C, all equal", lines);
    for (size_t i = 0; i < KINDS; i++) printf("%s %lu %s", i ? "," : ":", kinds[i].lines, kinds[i].name);
    printf("\n");
    return lines == 0;
}
