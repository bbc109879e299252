/* Calls every function of include/xrs.h from C: the words of document 01, a day sheet and a refusal of each kind. One line for each check. */
#include <stdio.h>
#include <string.h>

#include "xrs.h"

static unsigned passed, failed;

static void check(const char *name, int right) {
    printf("%s: %s\n", right ? "ok" : "FAILED", name);
    if (right) {
        passed++;
    } else {
        failed++;
    }
}

static void answers(const char *name, uint32_t answer, uint32_t refusal, uint32_t value) {
    int right = XRS_REFUSAL(answer) == refusal && XRS_VALUE(answer) == value;
    check(name, right);
    if (!right) {
        printf("    refusal %u, value %u\n", (unsigned)XRS_REFUSAL(answer), (unsigned)XRS_VALUE(answer));
    }
}

/* As many bytes, all RIM_BYTE, stand before and after each lent slice. */
enum { RIM = 16, RIM_BYTE = 0xA7, ROOM = 4096 };

typedef struct {
    uint8_t bytes[RIM + ROOM + RIM];
    size_t length;
} lent;

/* A slice that holds a copy of the content. */
static uint8_t *lend(lent *slice, const uint8_t *content, size_t length) {
    memset(slice->bytes, RIM_BYTE, sizeof slice->bytes);
    memcpy(slice->bytes + RIM, content, length);
    slice->length = length;
    return slice->bytes + RIM;
}

/* The slice holds the content, and the bytes around it are as they were. */
static int holds(const lent *slice, const uint8_t *content) {
    size_t i;
    for (i = 0; i < sizeof slice->bytes; i++) {
        int inside = i >= RIM && i < RIM + slice->length;
        if (slice->bytes[i] != (inside ? content[i - RIM] : RIM_BYTE)) {
            return 0;
        }
    }
    return 1;
}

/* The words A to E of document 01. */
static const uint8_t words[5][12] = {
    {0, 0, 0, 0, 0, 0, 0, 0, 0, 0, 0, 0}, /* A */
    {1, 1, 1, 1, 1, 1, 0, 0, 0, 0, 0, 0}, /* B */
    {1, 2, 4, 3, 6, 0, 1, 0, 0, 0, 0, 0}, /* C */
    {1, 0, 0, 0, 0, 1, 1, 1, 1, 1, 1, 1}, /* D */
    {2, 7, 5, 6, 1, 3, 0, 1, 0, 0, 0, 0}, /* E */
};

static void field(void) {
    static const uint8_t powers[7] = {1, 2, 4, 3, 6, 7, 5};
    uint16_t e;
    int same = 1;
    answers("sum 5 + 6", xrs_sum(3, 5, 6), XRS_ACCEPTED, 3);
    answers("sum at width 6", xrs_sum(6, 5, 6), XRS_REFUSED_WIDTH, 0);
    answers("product 8 * 2 at width 4", xrs_product(4, 8, 2), XRS_ACCEPTED, 3);
    answers("sum with the symbol 8", xrs_sum(3, 8, 0), XRS_REFUSED_SYMBOL, 0);
    answers("product 7 * 7", xrs_product(3, 7, 7), XRS_ACCEPTED, 3);
    answers("product at width 6", xrs_product(6, 7, 7), XRS_REFUSED_WIDTH, 0);
    answers("product with the symbol 32", xrs_product(5, 31, 32), XRS_REFUSED_SYMBOL, 0);
    for (e = 0; e < 7; e++) {
        same = same && xrs_power(3, 2, e) == 256u * powers[e];
    }
    check("the powers of 2 at width 3", same);
    answers("power 0 of 0", xrs_power(7, 0, 0), XRS_ACCEPTED, 1);
    answers("power 65535 of 2 at width 7", xrs_power(7, 2, 65535), XRS_ACCEPTED, 8);
    answers("power at width 255", xrs_power(255, 2, 1), XRS_REFUSED_WIDTH, 0);
    answers("power of the symbol 128", xrs_power(7, 128, 0), XRS_REFUSED_SYMBOL, 0);
    answers("inverse of 2", xrs_inverse(3, 2), XRS_ACCEPTED, 5);
    answers("inverse of 0", xrs_inverse(3, 0), XRS_REFUSED_NONZERO, 0);
    answers("inverse at width 0", xrs_inverse(0, 0), XRS_REFUSED_WIDTH, 0);
    answers("inverse of the symbol 8", xrs_inverse(3, 8), XRS_REFUSED_SYMBOL, 0);
}

/* The name of a check on one of the words A to E. */
static const char *of(const char *what, size_t which) {
    static char name[64];
    snprintf(name, sizeof name, "%s of word %c", what, (char)('A' + which));
    return name;
}

/* The name of a check at a width or a length. */
static const char *at(const char *what, size_t number) {
    static char name[64];
    snprintf(name, sizeof name, "%s %u", what, (unsigned)number);
    return name;
}

static void words_of_01(void) {
    size_t which;
    uint8_t old[12];
    lent word, data;
    memset(old, 255, sizeof old);
    for (which = 0; which < 5; which++) {
        const uint8_t *want = words[which];
        lend(&data, want + 5, 7);
        lend(&word, old, 12);
        answers(of("encode the data", which), xrs_encode(3, data.bytes + RIM, 7, word.bytes + RIM, 12), XRS_ACCEPTED, 0);
        check(of("the symbols", which), holds(&word, want) && holds(&data, want + 5));
        answers(of("test the symbols", which), xrs_is_codeword(3, word.bytes + RIM, 12), XRS_ACCEPTED, 1);
        lend(&data, old, 7);
        answers(of("read the data", which), xrs_read_data(3, word.bytes + RIM, 12, data.bytes + RIM, 7), XRS_ACCEPTED, 0);
        check(of("the data", which), holds(&data, want + 5) && holds(&word, want));
    }
}

/* A message of q - 1 symbols. */
static void fill(uint8_t *message, size_t q) {
    size_t i;
    for (i = 0; i < q - 1; i++) {
        message[i] = (uint8_t)((i * i + 3) % q);
    }
}

/* A message of a width is encoded, tested and read; then one symbol of the word is changed. */
static void round_trip(uint8_t width) {
    size_t q = (size_t)1 << width, n = q + 4;
    uint8_t message[127], zeros[132] = {0}, wrong[132];
    lent word, data;
    fill(message, q);
    answers(at("encode at width", width), xrs_encode(width, message, q - 1, lend(&word, zeros, n), n), XRS_ACCEPTED, 0);
    answers(at("test at width", width), xrs_is_codeword(width, word.bytes + RIM, n), XRS_ACCEPTED, 1);
    answers(at("read at width", width), xrs_read_data(width, word.bytes + RIM, n, lend(&data, zeros, q - 1), q - 1), XRS_ACCEPTED, 0);
    check(at("the data is read as it was at width", width), holds(&data, message));

    memcpy(wrong, word.bytes + RIM, n);
    wrong[n - 1] ^= 1;
    answers(at("test with a wrong symbol at width", width), xrs_is_codeword(width, wrong, n), XRS_ACCEPTED, 0);
    answers(
        at("read with a wrong symbol at width", width), xrs_read_data(width, wrong, n, lend(&data, zeros, q - 1), q - 1), XRS_REFUSED_SYNDROME, 0);
    check(at("a refused read writes nothing at width", width), holds(&data, zeros));
    wrong[0] = (uint8_t)q;
    answers(at("test with the symbol q at width", width), xrs_is_codeword(width, wrong, n), XRS_REFUSED_SYMBOL, 0);
    answers(at("read with the symbol q at width", width), xrs_read_data(width, wrong, n, lend(&data, zeros, q - 1), q - 1), XRS_REFUSED_SYMBOL, 0);
    message[q - 2] = (uint8_t)q;
    answers(at("encode with the symbol q at width", width), xrs_encode(width, message, q - 1, lend(&word, zeros, n), n), XRS_REFUSED_SYMBOL, 0);
    check(at("refused calls write nothing at width", width), holds(&data, zeros) && holds(&word, zeros));
}

/* Width before length, length before symbol, symbol before syndrome. The refused calls write nothing. */
static void refusals(void) {
    static const size_t lengths[4] = {0, 11, 13, 256 + 12};
    uint8_t input[256 + 12], old[256] = {0};
    lent word, data;
    size_t i;
    memset(input, 200, sizeof input);
    lend(&word, old, 12);
    lend(&data, old, 7);
    answers("encode at width 6", xrs_encode(6, input, 7, word.bytes + RIM, 11), XRS_REFUSED_WIDTH, 0);
    answers("test at width 6", xrs_is_codeword(6, input, 11), XRS_REFUSED_WIDTH, 0);
    answers("read at width 6", xrs_read_data(6, input, 11, data.bytes + RIM, 7), XRS_REFUSED_WIDTH, 0);
    answers("encode with short data", xrs_encode(3, input, 6, word.bytes + RIM, 12), XRS_REFUSED_LENGTH, 0);
    answers("encode with long data", xrs_encode(3, input, 8, word.bytes + RIM, 12), XRS_REFUSED_LENGTH, 0);
    answers("read with short data", xrs_read_data(3, input, 12, data.bytes + RIM, 6), XRS_REFUSED_LENGTH, 0);
    for (i = 0; i < 4; i++) {
        answers(at("test a word of length", lengths[i]), xrs_is_codeword(3, input, lengths[i]), XRS_REFUSED_LENGTH, 0);
        answers(at("read a word of length", lengths[i]), xrs_read_data(3, input, lengths[i], data.bytes + RIM, 7), XRS_REFUSED_LENGTH, 0);
    }
    answers("encode into a short word", xrs_encode(3, input, 7, word.bytes + RIM, 11), XRS_REFUSED_LENGTH, 0);
    answers("encode with too large symbols", xrs_encode(3, input, 7, word.bytes + RIM, 12), XRS_REFUSED_SYMBOL, 0);
    answers("test too large symbols", xrs_is_codeword(3, input, 12), XRS_REFUSED_SYMBOL, 0);
    answers("read too large symbols", xrs_read_data(3, input, 12, data.bytes + RIM, 7), XRS_REFUSED_SYMBOL, 0);
    check("refused calls write nothing", holds(&word, old) && holds(&data, old));
}

/* A word of width 3 with c_4 = 1. */
static const uint8_t c_4[12] = {1, 6, 2, 7, 4, 0, 0, 0, 0, 1, 0, 0};

/*
 * The cases F to N of document 01, what it says of marks and symbols, and the five marks of document 02, all at width 3. A word without
 * `after` stays as it was.
 */
typedef struct {
    const char *name;
    uint8_t word[12], marks[6];
    size_t count;
    uint32_t refusal, changed;
    const uint8_t *after;
} restore_case;

static const restore_case cases[] = {
    {"case F", {0, 0, 0, 0, 0, 1}, {0}, 0, XRS_ACCEPTED, 1, words[0]},
    {"case G", {7, 0, 0, 0, 0, 7}, {0}, 0, XRS_ACCEPTED, 2, words[0]},
    {"case H", {1, 1, 1}, {0}, 0, XRS_REFUSED_CORRECTABLE, 0, NULL},
    {"case I", {0, 1, 1}, {0}, 1, XRS_REFUSED_CORRECTABLE, 0, NULL},
    {"case J", {0, 0, 0, 0, 0, 0, 0, 5}, {0, 1}, 2, XRS_ACCEPTED, 1, words[0]},
    {"case K", {0, 0, 0, 0, 0, 0, 0, 5}, {0, 1, 2}, 3, XRS_REFUSED_CORRECTABLE, 0, NULL},
    {"case L", {1, 0, 0, 0, 0, 1, 1, 1, 1, 1, 1, 1}, {5}, 1, XRS_ACCEPTED, 0, words[3]},
    {"case M", {1, 2, 0, 3, 6}, {2, 5, 6, 8}, 4, XRS_ACCEPTED, 0, words[2]},
    {"case N", {0, 0, 0, 0, 1}, {0, 1, 2, 3}, 4, XRS_REFUSED_CORRECTABLE, 0, NULL},
    {"case M with the marks in another order", {1, 2, 0, 3, 6}, {8, 6, 2, 5}, 4, XRS_ACCEPTED, 0, words[2]},
    {"restore with the mark 11", {0}, {11}, 1, XRS_ACCEPTED, 0, words[0]},
    {"restore with the mark 12", {0}, {12}, 1, XRS_REFUSED_ERASURE_PLACE, 0, NULL},
    {"restore with four marks", {0}, {0, 1, 2, 3}, 4, XRS_ACCEPTED, 0, words[0]},
    {"restore with five marks", {9, 9, 9, 9, 9, 0, 0, 0, 0, 1}, {0, 1, 2, 3, 4}, 5, XRS_ACCEPTED, 0, c_4},
    {"restore with five marks and several codewords", {0}, {2, 4, 5, 6, 8}, 5, XRS_REFUSED_UNIQUE, 0, NULL},
    {"restore with five marks and no codeword", {1}, {2, 4, 5, 6, 8}, 5, XRS_REFUSED_CORRECTABLE, 0, NULL},
    {"restore with five marks, one of them twice", {8}, {2, 4, 5, 6, 2}, 5, XRS_REFUSED_ERASURE_DISTINCT, 0, NULL},
    {"restore with six marks", {0}, {0, 1, 2, 3, 4, 5}, 6, XRS_REFUSED_ERASURE_COUNT, 0, NULL},
    {"restore with six marks, none of them good", {8}, {12, 12, 12, 12, 12, 12}, 6, XRS_REFUSED_ERASURE_COUNT, 0, NULL},
    {"restore with the mark 12 twice", {0}, {12, 12}, 2, XRS_REFUSED_ERASURE_PLACE, 0, NULL},
    {"restore with the mark 3 twice", {0}, {3, 3}, 2, XRS_REFUSED_ERASURE_DISTINCT, 0, NULL},
    {"restore with the mark 3 twice and the symbol 8", {8}, {3, 3}, 2, XRS_REFUSED_ERASURE_DISTINCT, 0, NULL},
    {"restore with the symbol 7", {7}, {0}, 0, XRS_ACCEPTED, 1, words[0]},
    {"restore with the symbol 8", {8}, {0}, 0, XRS_REFUSED_SYMBOL, 0, NULL},
    {"restore with the marked symbol 200", {200}, {0}, 1, XRS_ACCEPTED, 0, words[0]},
};

static const char *after_call(const char *what) {
    static char name[128];
    snprintf(name, sizeof name, "the bytes after: %s", what);
    return name;
}

/* A codeword. In the cases "too far" zeros were written, three symbols are wrong, and this one is two symbols away. */
static const uint8_t another[12] = {0, 0, 6, 0, 4, 1, 2, 0, 3, 0, 0, 0};

/* The same with a reach. */
static const struct {
    uint8_t reach;
    restore_case what;
} reach_cases[] = {
    {0, {"case F at the reach 0", {0, 0, 0, 0, 0, 1}, {0}, 0, XRS_REFUSED_CORRECTABLE, 0, NULL}},
    {1, {"case F at the reach 1", {0, 0, 0, 0, 0, 1}, {0}, 0, XRS_ACCEPTED, 1, words[0]}},
    {1, {"case G at the reach 1", {7, 0, 0, 0, 0, 7}, {0}, 0, XRS_REFUSED_CORRECTABLE, 0, NULL}},
    {2, {"case G at the reach 2", {7, 0, 0, 0, 0, 7}, {0}, 0, XRS_ACCEPTED, 2, words[0]}},
    {1, {"too far at the reach 1", {0, 0, 6, 0, 4, 1}, {0}, 0, XRS_REFUSED_CORRECTABLE, 0, NULL}},
    {2, {"too far at the reach 2", {0, 0, 6, 0, 4, 1}, {0}, 0, XRS_ACCEPTED, 2, another}},
    {3, {"case H at the reach 3", {1, 1, 1}, {0}, 0, XRS_REFUSED_REACH, 0, NULL}},
    {255, {"case H at the reach 255", {1, 1, 1}, {0}, 0, XRS_REFUSED_REACH, 0, NULL}},
    {2, {"the reach 2 with one mark", {0}, {5}, 1, XRS_REFUSED_REACH, 0, NULL}},
    {1, {"the reach 1 with two marks", {0, 0, 0, 0, 0, 0, 0, 5}, {0, 1}, 2, XRS_ACCEPTED, 1, words[0]}},
    {1, {"the reach 1 with three marks", {0}, {0, 1, 2}, 3, XRS_REFUSED_REACH, 0, NULL}},
    {0, {"the reach 0 with five marks", {0}, {2, 4, 5, 6, 8}, 5, XRS_REFUSED_UNIQUE, 0, NULL}},
    {1, {"the reach 1 with five marks", {0}, {2, 4, 5, 6, 8}, 5, XRS_REFUSED_REACH, 0, NULL}},
    {255, {"the symbol 8 at the reach 255", {8}, {0}, 0, XRS_REFUSED_SYMBOL, 0, NULL}},
    {255, {"six marks at the reach 255", {8}, {12, 12, 12, 12, 12, 12}, 6, XRS_REFUSED_ERASURE_COUNT, 0, NULL}},
};

/* Both methods without a reach and with one. */
typedef uint32_t restorer(uint8_t, uint8_t *, size_t, const uint8_t *, size_t);
typedef uint32_t restorer_within(uint8_t, uint8_t *, size_t, const uint8_t *, size_t, uint8_t);

static const struct {
    const char *name;
    restorer *plain;
    restorer_within *within;
} methods[2] = {
    {"", xrs_restore_word, xrs_restore_word_within},
    {"by trials, ", xrs_restore_word_by_trials, xrs_restore_word_by_trials_within},
};

/* One case by both methods, without a reach where it is negative. */
static void restores(const restore_case *what, int reach) {
    size_t i, count = what->count;
    for (i = 0; i < 2; i++) {
        lent word, marks;
        uint8_t *symbols = lend(&word, what->word, 12), *places = lend(&marks, what->marks, count);
        uint32_t answer =
            reach < 0 ? methods[i].plain(3, symbols, 12, places, count) : methods[i].within(3, symbols, 12, places, count, (uint8_t)reach);
        char name[96];
        snprintf(name, sizeof name, "%s%s", methods[i].name, what->name);
        answers(name, answer, what->refusal, what->changed);
        check(after_call(name), holds(&word, what->after ? what->after : what->word) && holds(&marks, what->marks));
    }
}

static void restore_cases(void) {
    size_t i;
    for (i = 0; i < sizeof cases / sizeof *cases; i++) {
        restores(&cases[i], -1);
    }
    for (i = 0; i < sizeof reach_cases / sizeof *reach_cases; i++) {
        restores(&reach_cases[i].what, reach_cases[i].reach);
    }
}

/* Two wrong symbols of a codeword, then four marks; at width 4, where the distance is less, one of each fewer. */
static void restore_at(uint8_t width) {
    size_t q = (size_t)1 << width, n = q + 4, i, wrong = width == 4 ? 1 : 2, most = width == 4 ? 3 : 4;
    uint8_t message[127], clean[132], marks[4] = {6, 0, 0, 2};
    lent word;
    fill(message, q);
    marks[1] = (uint8_t)(n - 1);
    answers(at("encode for the restorer at width", width), xrs_encode(width, message, q - 1, clean, n), XRS_ACCEPTED, 0);
    lend(&word, clean, n);
    for (i = 0; i < wrong; i++) {
        word.bytes[RIM + marks[i]] ^= (uint8_t)(q - 1);
    }
    answers(at("restore wrong symbols at width", width), xrs_restore_word(width, word.bytes + RIM, n, marks, 0), XRS_ACCEPTED, (uint32_t)wrong);
    check(at("the codeword is written at width", width), holds(&word, clean));
    for (i = 0; i < most; i++) {
        word.bytes[RIM + marks[i]] = 255;
    }
    answers(at("restore marked symbols at width", width), xrs_restore_word(width, word.bytes + RIM, n, marks, most), XRS_ACCEPTED, 0);
    check(at("the marked symbols are written at width", width), holds(&word, clean));
}

/* Bad inputs of the restorer, in the order of the questions: each has all the faults that come later. */
static void restore_refused_at(uint8_t width) {
    size_t q = (size_t)1 << width, n = q + 4;
    uint8_t old[133] = {1, 1, 1}, marks[6] = {5, 5, 0, 6, 7, 8};
    uint8_t *word;
    lent slice;
    marks[2] = (uint8_t)n;
    old[8] = (uint8_t)q;
    word = lend(&slice, old, n);
    answers(at("restore at width 6 what has width", width), xrs_restore_word(6, word, n - 1, marks, 6), XRS_REFUSED_WIDTH, 0);
    answers(at("restore a short word at width", width), xrs_restore_word(width, word, n - 1, marks, 6), XRS_REFUSED_LENGTH, 0);
    answers(at("restore six marks at width", width), xrs_restore_word(width, word, n, marks, 6), XRS_REFUSED_ERASURE_COUNT, 0);
    answers(at("restore with the mark n at width", width), xrs_restore_word(width, word, n, marks, 3), XRS_REFUSED_ERASURE_PLACE, 0);
    answers(at("restore a double mark at width", width), xrs_restore_word(width, word, n, marks, 2), XRS_REFUSED_ERASURE_DISTINCT, 0);
    answers(at("restore with the symbol q at width", width), xrs_restore_word(width, word, n, marks, 1), XRS_REFUSED_SYMBOL, 0);
    check(at("refused restores write nothing at width", width), holds(&slice, old));
    old[8] = 0;
    word = lend(&slice, old, n);
    answers(at("restore three wrong symbols at width", width), xrs_restore_word(width, word, n, marks, 0), XRS_REFUSED_CORRECTABLE, 0);
    check(at("a word that is not near stays at width", width), holds(&slice, old));
    word = lend(&slice, old, n + 1);
    answers(at("restore a long word at width", width), xrs_restore_word(width, word, n + 1, marks, 6), XRS_REFUSED_LENGTH, 0);
    check(at("a long word stays at width", width), holds(&slice, old));
}

/* At width 4 the distance is 4: zeros and this codeword, and the words between them. */
static void restore_at_width_4(void) {
    static const uint8_t zeros[20] = {0}, marks[4] = {5, 15, 10, 2};
    uint8_t codeword[20] = {0}, between[20] = {0};
    lent word;
    codeword[5] = between[5] = 1;
    codeword[10] = between[10] = 6;
    codeword[15] = 7;
    codeword[2] = 1;
    answers("test a codeword with four symbols", xrs_is_codeword(4, codeword, 20), XRS_ACCEPTED, 1);
    answers("restore two of them at width 4", xrs_restore_word(4, lend(&word, between, 20), 20, marks, 0), XRS_REFUSED_CORRECTABLE, 0);
    answers("restore at the reach 2 at width 4", xrs_restore_word_within(4, word.bytes + RIM, 20, marks, 0, 2), XRS_REFUSED_REACH, 0);
    answers("restore with two marks at the reach 1", xrs_restore_word_within(4, word.bytes + RIM, 20, marks, 2, 1), XRS_REFUSED_REACH, 0);
    answers("restore four marks at width 4", xrs_restore_word(4, word.bytes + RIM, 20, marks, 4), XRS_REFUSED_ERASURE_COUNT, 0);
    check("refused restores of width 4 write nothing", holds(&word, between));
    answers("restore with one mark at width 4", xrs_restore_word(4, word.bytes + RIM, 20, marks, 1), XRS_ACCEPTED, 1);
    check("zeros are written at width 4", holds(&word, zeros));
    answers("restore with another mark", xrs_restore_word(4, lend(&word, between, 20), 20, marks + 1, 1), XRS_ACCEPTED, 1);
    check("the codeword with four symbols is written", holds(&word, codeword));
}

/* The syndromes are these, or all 0 beside a refusal. */
static void syndromes_are(const char *name, uint64_t answer, uint32_t refusal, const uint8_t *sums) {
    int k, right = XRS_REFUSAL(answer) == refusal && answer >> 48 == 0;
    for (k = 0; k < 5; k++) {
        right = right && XRS_BYTE(answer, 1 + k) == sums[k];
    }
    check(name, right);
}

static void syndromes(void) {
    static const uint8_t word[13] = {0, 0, 0, 0, 0, 0, 1, 0, 0, 0, 0, 8}, marks[6] = {11, 6, 6, 12, 1, 2}, none[5] = {0};
    static const uint8_t powers[5] = {1, 2, 4, 3, 6}, all[4] = {0, 1, 2, 3}, fifth[12] = {9, 9, 9, 9, 1}, last[5] = {0, 0, 0, 0, 1};
    lent w, m;
    uint8_t *bytes = lend(&w, word, 12), *places = lend(&m, marks, 6);
    syndromes_are("syndromes beside the mark 11", xrs_syndromes(3, bytes, 12, places, 1), XRS_ACCEPTED, powers);
    syndromes_are("syndromes beside the marks 11 and 6", xrs_syndromes(3, bytes, 12, places, 2), XRS_ACCEPTED, none);
    syndromes_are("syndromes of case N", xrs_syndromes(3, fifth, 12, all, 4), XRS_ACCEPTED, last);
    syndromes_are("syndromes of word C", xrs_syndromes(3, words[2], 12, all, 0), XRS_ACCEPTED, none);
    syndromes_are("syndromes with the symbol 8", xrs_syndromes(3, bytes, 12, places, 0), XRS_REFUSED_SYMBOL, none);
    syndromes_are("syndromes with a double mark", xrs_syndromes(3, bytes, 12, places + 1, 2), XRS_REFUSED_ERASURE_DISTINCT, none);
    syndromes_are("syndromes with the mark 12", xrs_syndromes(3, bytes, 12, places, 4), XRS_REFUSED_ERASURE_PLACE, none);
    syndromes_are("syndromes with six marks", xrs_syndromes(3, bytes, 12, places, 6), XRS_REFUSED_ERASURE_COUNT, none);
    syndromes_are("syndromes of a short word", xrs_syndromes(3, bytes, 11, places, 6), XRS_REFUSED_LENGTH, none);
    syndromes_are("syndromes at width 6", xrs_syndromes(6, bytes, 11, places, 6), XRS_REFUSED_WIDTH, none);
    check("the syndromes write nothing", holds(&w, word) && holds(&m, marks));
}

/* A record of width 3 with the word and the marks, and zeros behind. */
static void make_record(uint8_t *record, const uint8_t *word, const uint8_t *marks, uint8_t count) {
    memset(record, 0, XRS_RECORD_SIZE);
    record[0] = 3;
    record[1] = count;
    memset(record + 2, 255, 5);
    memcpy(record + 2, marks, count);
    memcpy(record + 7, word, 12);
}

static void records(void) {
    static const uint8_t worn[12] = {1, 2, 4, 3, 6, 0, 200, 0, 0, 5, 0, 0}, one[1] = {6}, five[5] = {2, 4, 5, 6, 8};
    uint8_t old[XRS_RECORD_SIZE + 1] = {0}, clean[XRS_RECORD_SIZE];
    lent slice;
    make_record(clean, words[2], one, 0);
    make_record(old, worn, one, 1);
    answers("restore a record", xrs_restore_record(lend(&slice, old, 139), 139), XRS_ACCEPTED, 1);
    check("a restored record has no marks", holds(&slice, clean));
    answers("restore a record at the reach 2", xrs_restore_record_within(lend(&slice, old, 139), 139, 2), XRS_REFUSED_REACH, 0);
    answers("restore a record at the reach 0", xrs_restore_record_within(slice.bytes + RIM, 139, 0), XRS_REFUSED_CORRECTABLE, 0);
    check("a record with more than the reach allows stays", holds(&slice, old));
    answers("restore a record at the reach 1", xrs_restore_record_within(slice.bytes + RIM, 139, 1), XRS_ACCEPTED, 1);
    check("a record restored at a reach has no marks", holds(&slice, clean));
    old[0] = 6;
    answers("restore a short record of width 6 at the reach 255", xrs_restore_record_within(old, 138, 255), XRS_REFUSED_LENGTH, 0);
    answers("restore a short record of width 6", xrs_restore_record(lend(&slice, old, 138), 138), XRS_REFUSED_LENGTH, 0);
    answers("restore a long record", xrs_restore_record(lend(&slice, old, 140), 140), XRS_REFUSED_LENGTH, 0);
    old[1] = 6;
    answers("restore a record of width 6", xrs_restore_record(lend(&slice, old, 139), 139), XRS_REFUSED_WIDTH, 0);
    old[0] = 3;
    answers("restore a record with six marks", xrs_restore_record(lend(&slice, old, 139), 139), XRS_REFUSED_ERASURE_COUNT, 0);
    old[1] = 1;
    old[2] = 12;
    old[19] = 1;
    answers("restore a record with a bad tail", xrs_restore_record(lend(&slice, old, 139), 139), XRS_REFUSED_PADDING, 0);
    check("a record with a bad tail stays", holds(&slice, old));
    old[19] = 0;
    answers("restore a record with the mark 12", xrs_restore_record(lend(&slice, old, 139), 139), XRS_REFUSED_ERASURE_PLACE, 0);
    old[1] = 0;
    answers("restore a record with an unused mark", xrs_restore_record(lend(&slice, old, 139), 139), XRS_REFUSED_PADDING, 0);
    make_record(old, words[0], five, 5);
    answers("restore a record with five marks", xrs_restore_record(lend(&slice, old, 139), 139), XRS_REFUSED_UNIQUE, 0);
    check("a record with several codewords stays", holds(&slice, old));
}

static void cards(void) {
    static const uint8_t none[1] = {0};
    uint8_t card[3 * XRS_RECORD_SIZE];
    size_t i;
    for (i = 0; i < 3; i++) {
        make_record(card + i * XRS_RECORD_SIZE, words[i], none, 0);
    }
    check("an empty card passes", xrs_check_card(card, 0) == 0);
    check("a card of three codewords passes", xrs_check_card(card, sizeof card) == 0);
    check("a short last piece does not", xrs_check_card(card, sizeof card - 1) == 3);
    card[XRS_RECORD_SIZE] = 6;
    check("record 2 of width 6 does not", xrs_check_card(card, sizeof card) == 2);
    check("the record before it does", xrs_check_card(card, XRS_RECORD_SIZE) == 0);
    memset(card, 255, XRS_RECORD_SIZE);
    check("a blank slot does", xrs_check_card(card, XRS_RECORD_SIZE) == 0);
    check("a blank slot is counted", xrs_check_card(card, sizeof card) == 2);
    check("the first of two bad records is named", xrs_check_card(card, sizeof card - 1) == 2);
    check("a shorter piece of 255 is not blank", xrs_check_card(card, XRS_RECORD_SIZE - 1) == 1);
    answers("restore a blank slot", xrs_restore_record(card, XRS_RECORD_SIZE), XRS_REFUSED_WIDTH, 0);
}

/* The record without its fifth mark byte. */
static void make_old(uint8_t *old, const uint8_t *record) {
    memcpy(old, record, 6);
    memcpy(old + 6, record + 7, 132);
}

/* A record with four marks, none of them good, and a blank slot, there and back; then faults, the last question first. */
static void conversions(void) {
    static const uint8_t marks[5] = {12, 12, 0, 255, 1};
    uint8_t old[2 * XRS_OLD_RECORD_SIZE], new[2 * XRS_RECORD_SIZE], zeros[2 * XRS_RECORD_SIZE] = {0};
    lent card, out;
    memset(old, 255, sizeof old);
    memset(new, 255, sizeof new);
    make_record(new, words[4], marks, 4);
    make_old(old, new);
    answers("convert an old card", xrs_card_to_new(lend(&card, old, 276), 276, lend(&out, zeros, 278), 278), XRS_ACCEPTED, 0);
    check("it is the new card", holds(&out, new) && holds(&card, old));
    answers("convert a new card", xrs_card_to_old(lend(&card, new, 278), 278, lend(&out, zeros, 276), 276), XRS_ACCEPTED, 0);
    check("it is the old card", holds(&out, old) && holds(&card, new));
    answers("convert an empty old card", xrs_card_to_new(old, 0, zeros, 0), XRS_ACCEPTED, 0);
    answers("convert an empty new card", xrs_card_to_old(new, 0, zeros, 0), XRS_ACCEPTED, 0);

    lend(&out, zeros, 278);
    make_record(new + XRS_RECORD_SIZE, words[4], marks, 5);
    answers("convert five marks", xrs_card_to_old(new, 278, out.bytes + RIM, 276), XRS_REFUSED_FOUR_ERASURES, 0);
    new[138] = 1;
    answers("convert a bad tail before five marks", xrs_card_to_old(new, 278, out.bytes + RIM, 276), XRS_REFUSED_PADDING, 0);
    make_old(old, new);
    answers("convert a bad tail", xrs_card_to_new(old, 276, out.bytes + RIM, 278), XRS_REFUSED_PADDING, 0);
    new[XRS_RECORD_SIZE + 1] = 6;
    make_old(old + XRS_OLD_RECORD_SIZE, new + XRS_RECORD_SIZE);
    answers("convert six marks to old", xrs_card_to_old(new, 278, out.bytes + RIM, 276), XRS_REFUSED_ERASURE_COUNT, 0);
    answers("convert six marks to new", xrs_card_to_new(old, 276, out.bytes + RIM, 278), XRS_REFUSED_ERASURE_COUNT, 0);
    new[0] = old[0] = 6;
    answers("convert width 6 to old", xrs_card_to_old(new, 278, out.bytes + RIM, 276), XRS_REFUSED_WIDTH, 0);
    answers("convert width 6 to new", xrs_card_to_new(old, 276, out.bytes + RIM, 278), XRS_REFUSED_WIDTH, 0);
    answers("convert a piece of an old card", xrs_card_to_new(old, 275, out.bytes + RIM, 278), XRS_REFUSED_LENGTH, 0);
    answers("convert a piece of a new card", xrs_card_to_old(new, 277, out.bytes + RIM, 276), XRS_REFUSED_LENGTH, 0);
    answers("convert into a short new card", xrs_card_to_new(old, 276, out.bytes + RIM, 277), XRS_REFUSED_LENGTH, 0);
    answers("convert into a long old card", xrs_card_to_old(new, 278, out.bytes + RIM, 278), XRS_REFUSED_LENGTH, 0);
    check("refused conversions write nothing", holds(&out, zeros));
}

/* The number of a record is asked first, then the row, then the record. */
static void look_at(const uint8_t *card, size_t length) {
    uint8_t zeros[XRS_ROW_SIZE + 1] = {0}, old[XRS_ROW_SIZE + 1];
    lent row;
    uint8_t *symbols;
    memset(old, 255, sizeof old);
    symbols = lend(&row, old, XRS_ROW_SIZE);
    answers("look at record 0", xrs_look(card, length, 0, symbols, 0), XRS_REFUSED_RECORD_NUMBER, 0);
    answers("look at a record behind the card", xrs_look(card, length, 21, symbols, 132), XRS_REFUSED_RECORD_NUMBER, 0);
    answers("look at record 2^64 - 1", xrs_look(card, length, UINT64_MAX, symbols, 132), XRS_REFUSED_RECORD_NUMBER, 0);
    answers("look with a short row", xrs_look(card, length, 1, symbols, 131), XRS_REFUSED_LENGTH, 0);
    answers("look with a long row", xrs_look(card, length, 3, symbols, 133), XRS_REFUSED_LENGTH, 0);
    answers("look at a short last piece", xrs_look(card, length, 20, symbols, 132), XRS_REFUSED_LENGTH, 0);
    answers("look at a blank slot", xrs_look(card, length, 2, symbols, 132), XRS_REFUSED_WIDTH, 0);
    answers("look at a record with three wrong symbols", xrs_look(card, length, 3, symbols, 132), XRS_REFUSED_CORRECTABLE, 0);
    check("refused looks write nothing", holds(&row, old));
    answers("look at a record", xrs_look(card, length, 1, symbols, 132), XRS_ACCEPTED, 0);
    check("its symbols as restored", holds(&row, zeros));
}

/* A walk over 19 slots, the second blank and the third too worn, and a short last piece; looks before, between and behind the steps. */
static void walks(void) {
    enum { LENGTH = 19 * XRS_RECORD_SIZE + 50 };
    static const uint8_t mark[1] = {0}, wrong[12] = {200, 0, 0, 0, 0, 5}, far[12] = {1, 1, 1};
    static uint8_t card[LENGTH], half[LENGTH], whole[LENGTH];
    lent slice;
    uint8_t *bytes;
    uint64_t next = 0;
    size_t i;
    for (i = 0; i < 19; i++) {
        make_record(card + i * XRS_RECORD_SIZE, wrong, mark, 1);
        make_record(whole + i * XRS_RECORD_SIZE, words[0], mark, 0);
    }
    memset(card + XRS_RECORD_SIZE, 255, XRS_RECORD_SIZE);
    make_record(card + 2 * XRS_RECORD_SIZE, far, mark, 0);
    memcpy(whole + XRS_RECORD_SIZE, card + XRS_RECORD_SIZE, 2 * XRS_RECORD_SIZE);
    memcpy(half, card, LENGTH);
    memcpy(half, whole, 16 * XRS_RECORD_SIZE);
    bytes = lend(&slice, card, LENGTH);
    answers("a step from record 0", xrs_walk_step(LENGTH, &next, bytes, LENGTH), XRS_REFUSED_RECORD_NUMBER, 0);
    check("it leaves the next record", next == 0);
    answers("a step over another card", xrs_walk_step(LENGTH + 1, &next, bytes, LENGTH), XRS_REFUSED_LENGTH, 0);
    next = 22;
    answers("a step from behind the end", xrs_walk_step(LENGTH, &next, bytes, LENGTH), XRS_REFUSED_RECORD_NUMBER, 0);
    check("refused steps change nothing", next == 22 && holds(&slice, card));
    look_at(bytes, LENGTH);
    next = 1;
    answers("the first step", xrs_walk_step(LENGTH, &next, bytes, LENGTH), XRS_ACCEPTED, 0);
    check("it treats 16 records", next == 17 && holds(&slice, half));
    look_at(bytes, LENGTH);
    answers("the last step", xrs_walk_step(LENGTH, &next, bytes, LENGTH), XRS_ACCEPTED, 0);
    check("it treats the other records", next == 21 && holds(&slice, whole));
    look_at(bytes, LENGTH);
    answers("a step after the end", xrs_walk_step(LENGTH, &next, bytes, LENGTH), XRS_ACCEPTED, 0);
    answers("a step over a shorter card after the end", xrs_walk_step(LENGTH, &next, bytes, LENGTH - 1), XRS_REFUSED_LENGTH, 0);
    check("steps after the end change nothing", next == 21 && holds(&slice, whole));
    next = 1;
    answers("a step over an empty card", xrs_walk_step(0, &next, bytes, 0), XRS_ACCEPTED, 0);
    check("its next record stays", next == 1);
}

/* Five counts with two others before and behind them. */
typedef struct {
    uint16_t all[2 + XRS_COUNTS + 2];
} lent_counts;

static uint16_t *lend_counts(lent_counts *slice, const uint16_t *counts) {
    memset(slice->all, RIM_BYTE, sizeof slice->all);
    memcpy(slice->all + 2, counts, XRS_COUNTS * sizeof *counts);
    return slice->all + 2;
}

static int holds_counts(const lent_counts *slice, const uint16_t *counts) {
    lent_counts want;
    lend_counts(&want, counts);
    return memcmp(slice->all, want.all, sizeof want.all) == 0;
}

/* A charge; a bay with its own rewrites, with common ones and with none; and the refusals in their order. */
static void bays(void) {
    static const uint16_t charge[XRS_COUNTS] = {100, 100, 100, 100, 600}, paid[XRS_COUNTS] = {100, 100, 99, 100, 600};
    static const uint16_t few[XRS_COUNTS] = {9, 9, 0, 9, 1}, none[XRS_COUNTS] = {9, 9, 0, 9, 0};
    static const uint8_t wrong[12] = {0, 0, 0, 0, 0, 5}, far[12] = {1, 1, 1}, mark[1] = {3};
    uint8_t old[XRS_RECORD_SIZE], marked[XRS_RECORD_SIZE], clean[XRS_RECORD_SIZE], bad[XRS_RECORD_SIZE], *record;
    lent_counts counts;
    lent slice;
    uint16_t *left = lend_counts(&counts, none);
    make_record(old, wrong, mark, 0);
    make_record(marked, words[0], mark, 1);
    make_record(clean, words[0], mark, 0);
    make_record(bad, far, mark, 0);
    answers("charge four counts", xrs_charge(left, 4), XRS_REFUSED_LENGTH, 0);
    answers("charge six counts", xrs_charge(left, 6), XRS_REFUSED_LENGTH, 0);
    check("a refused charge changes nothing", holds_counts(&counts, none));
    answers("charge five counts", xrs_charge(left, XRS_COUNTS), XRS_ACCEPTED, 0);
    check("a new charge", holds_counts(&counts, charge));

    record = lend(&slice, old, 139);
    answers("restore at bay 2", xrs_bay_restore(2, left, 5, record, 139), XRS_ACCEPTED, 1);
    check("bay 2 pays one of its own", holds_counts(&counts, paid) && holds(&slice, clean));
    answers("restore it again", xrs_bay_restore(2, left, 5, record, 139), XRS_ACCEPTED, 0);
    check("what does not change costs none", holds_counts(&counts, paid) && holds(&slice, clean));
    left = lend_counts(&counts, few);
    record = lend(&slice, marked, 139);
    answers("restore a marked codeword at bay 2", xrs_bay_restore_within(2, left, 5, record, 139, 1), XRS_ACCEPTED, 0);
    check("bay 2 pays a common one", holds_counts(&counts, none) && holds(&slice, clean));

    record = lend(&slice, old, 139);
    answers("restore with no rewrite left", xrs_bay_restore(2, left, 5, record, 139), XRS_REFUSED_REWRITE, 0);
    answers("the same at the reach 1", xrs_bay_restore_within(2, left, 5, record, 139, 1), XRS_REFUSED_REWRITE, 0);
    answers("the same at the reach 0", xrs_bay_restore_within(2, left, 5, record, 139, 0), XRS_REFUSED_CORRECTABLE, 0);
    answers("the same at the reach 3", xrs_bay_restore_within(2, left, 5, record, 139, 3), XRS_REFUSED_REACH, 0);
    answers("restore with four counts", xrs_bay_restore(2, left, 4, record, 139), XRS_REFUSED_LENGTH, 0);
    answers("restore with six counts", xrs_bay_restore_within(2, left, 6, record, 139, 3), XRS_REFUSED_LENGTH, 0);
    answers("restore a short record at a bay", xrs_bay_restore(2, left, 5, record, 138), XRS_REFUSED_LENGTH, 0);
    answers("restore at bay 4", xrs_bay_restore(4, left, 4, record, 138), XRS_REFUSED_BAY, 0);
    answers("restore at bay 255", xrs_bay_restore_within(255, left, 6, record, 138, 3), XRS_REFUSED_BAY, 0);
    check("refused bays change nothing", holds_counts(&counts, none) && holds(&slice, old));
    answers("restore three wrong symbols at a bay", xrs_bay_restore(2, left, 5, bad, 139), XRS_REFUSED_CORRECTABLE, 0);
    memset(bad, 255, sizeof bad);
    answers("restore a blank slot at a bay", xrs_bay_restore(2, left, 5, bad, 139), XRS_REFUSED_WIDTH, 0);
}

/* 29 February 2024, pump 5, and counts from 0 to 127 in the quarter hours. */
static void make_symbols(uint8_t *symbols) {
    size_t i;
    for (i = 0; i < XRS_SHEET_QUARTERS; i++) {
        symbols[i] = (uint8_t)(i * 53 % 128);
    }
    symbols[XRS_SHEET_QUARTERS - 1] = 127;
    symbols[XRS_SHEET_YEAR] = 24;
    symbols[XRS_SHEET_MONTH] = 2;
    symbols[XRS_SHEET_DAY] = 29;
    symbols[XRS_SHEET_PUMP] = 5;
}

static void sheets(void) {
    uint8_t symbols[XRS_SHEET_SIZE + 1] = {0}, data[127] = {0}, zeros[100] = {0}, sheet[132], old[132];
    lent word, read;
    memset(old, 9, sizeof old);
    make_symbols(symbols);
    memcpy(data, symbols, XRS_SHEET_SIZE);
    xrs_encode(7, data, 127, sheet, 132);
    answers("write a day sheet", xrs_write_sheet(7, symbols, 100, lend(&word, old, 132), 132), XRS_ACCEPTED, 0);
    check("it is the codeword of its symbols and zeros", holds(&word, sheet));
    answers("read a day sheet", xrs_read_sheet(7, sheet, 132, lend(&read, old, 100), 100), XRS_ACCEPTED, 0);
    check("its symbols are read", holds(&read, symbols));

    lend(&word, old, 132);
    lend(&read, old, 100);
    answers("write a sheet at width 6", xrs_write_sheet(6, symbols, 99, word.bytes + RIM, 131), XRS_REFUSED_WIDTH, 0);
    answers("write 101 symbols", xrs_write_sheet(7, symbols, 101, word.bytes + RIM, 132), XRS_REFUSED_LENGTH, 0);
    answers("write a sheet into a short word", xrs_write_sheet(7, symbols, 100, word.bytes + RIM, 131), XRS_REFUSED_LENGTH, 0);
    answers("read 99 symbols", xrs_read_sheet(7, sheet, 132, read.bytes + RIM, 99), XRS_REFUSED_LENGTH, 0);
    answers("read 132 symbols at width 5", xrs_read_sheet(5, sheet, 132, read.bytes + RIM, 100), XRS_REFUSED_LENGTH, 0);
    answers("write symbols of width 7 at width 5", xrs_write_sheet(5, symbols, 100, word.bytes + RIM, 36), XRS_REFUSED_SYMBOL, 0);
    answers("write zeros at width 5", xrs_write_sheet(5, zeros, 100, word.bytes + RIM, 36), XRS_REFUSED_SHEET_WIDTH, 0);
    answers("write zeros at width 4", xrs_write_sheet(4, zeros, 100, word.bytes + RIM, 20), XRS_REFUSED_SHEET_WIDTH, 0);
    answers("read zeros at width 3", xrs_read_sheet(3, words[0], 12, read.bytes + RIM, 100), XRS_REFUSED_SHEET_WIDTH, 0);
    answers("read zeros at width 4", xrs_read_sheet(4, zeros, 20, read.bytes + RIM, 100), XRS_REFUSED_SHEET_WIDTH, 0);
    symbols[XRS_SHEET_YEAR] = 100;
    answers("write 29 February 2100", xrs_write_sheet(7, symbols, 100, word.bytes + RIM, 132), XRS_REFUSED_DATE, 0);
    symbols[XRS_SHEET_PUMP] = 128;
    answers("write pump 128", xrs_write_sheet(7, symbols, 100, word.bytes + RIM, 132), XRS_REFUSED_SYMBOL, 0);
    sheet[0] ^= 1;
    answers("read a sheet with a wrong symbol", xrs_read_sheet(7, sheet, 132, read.bytes + RIM, 100), XRS_REFUSED_SYNDROME, 0);
    data[126] = 1;
    xrs_encode(7, data, 127, sheet, 132);
    answers("read a sheet with c_126 = 1", xrs_read_sheet(7, sheet, 132, read.bytes + RIM, 100), XRS_REFUSED_UNUSED, 0);
    data[XRS_SHEET_YEAR] = 100;
    xrs_encode(7, data, 127, sheet, 132);
    answers("read 29 February 2100 with c_126 = 1", xrs_read_sheet(7, sheet, 132, read.bytes + RIM, 100), XRS_REFUSED_DATE, 0);
    check("refused sheets write nothing", holds(&word, old) && holds(&read, old));
}

/* A clean record of width 7 that holds the day sheet of these symbols. */
static void make_sheet(uint8_t *record, const uint8_t *symbols) {
    static const uint8_t header[7] = {7, 0, 255, 255, 255, 255, 255};
    memcpy(record, header, sizeof header);
    xrs_write_sheet(7, symbols, XRS_SHEET_SIZE, record + 7, 132);
}

/* The answer is a refusal alone, or the chosen side and the three totals. */
static void compares(const char *name, uint64_t answer, uint32_t refusal, uint32_t side, const uint32_t *totals) {
    int k, right = XRS_REFUSAL(answer) == refusal && XRS_BYTE(answer, 1) == side && answer >> 40 == 0;
    for (k = 0; k < 3; k++) {
        right = right && XRS_BYTE(answer, 2 + k) == totals[k];
    }
    check(name, right);
}

/* The part of records 2 and 1: the side, and where the part lies; on a refusal both numbers stay. */
static void parts(const char *name, const uint8_t *first, const uint8_t *second, size_t length, uint32_t refusal, uint32_t side, uint64_t want) {
    uint64_t offset = 7, size = 9;
    uint32_t answer = xrs_compare_part(first, 278, 2, second, length, 1, &offset, &size);
    answers(name, answer, refusal, side);
    check("its offset and size", refusal ? offset == 7 && size == 9 : offset == want && size == XRS_RECORD_SIZE);
}

static void compared_sheets(void) {
    static const uint32_t none[3] = {0}, totals[3] = {93, 1, 2};
    uint8_t symbols[XRS_SHEET_SIZE], first[2 * XRS_RECORD_SIZE], second[XRS_RECORD_SIZE], want[97] = {0}, old[97];
    uint8_t *controller, *cupboard, *row;
    lent a, b, signs;
    memset(old, 9, sizeof old);
    memset(first, 255, sizeof first);
    make_symbols(symbols);
    make_sheet(first + XRS_RECORD_SIZE, symbols);
    symbols[0]++;
    symbols[1]--;
    symbols[94] = 127;
    make_sheet(second, symbols);
    want[0] = want[94] = 2;
    want[1] = 1;
    controller = lend(&a, first, 278);
    cupboard = lend(&b, second, 139);
    row = lend(&signs, old, 96);
    compares("compare two sheets", xrs_compare_sheets(controller, 278, 2, cupboard, 139, 1, row, 96), XRS_ACCEPTED, 1, totals);
    check("the signs, and both cards as they were", holds(&signs, want) && holds(&a, first) && holds(&b, second));
    parts("the controller's part", controller, cupboard, 139, XRS_ACCEPTED, 1, XRS_RECORD_SIZE);
    first[XRS_RECORD_SIZE + 7] ^= 1;
    controller = lend(&a, first, 278);
    parts("the cupboard's part", controller, cupboard, 139, XRS_ACCEPTED, 2, 0);
    compares("compare with a wrong symbol", xrs_compare_sheets(controller, 278, 2, cupboard, 139, 1, row, 96), XRS_ACCEPTED, 2, totals);
    check("a card that is not repaired", holds(&a, first) && holds(&b, second));

    row = lend(&signs, old, 97);
    compares("compare record 3", xrs_compare_sheets(first, 278, 3, second, 139, 1, row, 95), XRS_REFUSED_RECORD_NUMBER, 0, none);
    compares("compare with record 0", xrs_compare_sheets(first, 278, 1, second, 139, 0, row, 95), XRS_REFUSED_RECORD_NUMBER, 0, none);
    compares("compare with 95 signs", xrs_compare_sheets(first, 278, 1, second, 139, 1, row, 95), XRS_REFUSED_LENGTH, 0, none);
    compares("compare with 97 signs", xrs_compare_sheets(first, 278, 2, second, 139, 1, row, 97), XRS_REFUSED_LENGTH, 0, none);
    compares("compare a blank slot", xrs_compare_sheets(first, 278, 1, second, 138, 1, row, 96), XRS_REFUSED_WIDTH, 0, none);
    compares("compare with a short piece", xrs_compare_sheets(first, 278, 2, second, 138, 1, row, 96), XRS_REFUSED_LENGTH, 0, none);
    parts("the part of a short piece", first, second, 138, XRS_REFUSED_LENGTH, 0, 0);
    parts("the part of an empty card", first, second, 0, XRS_REFUSED_RECORD_NUMBER, 0, 0);
    symbols[XRS_SHEET_PUMP]++;
    make_sheet(second, symbols);
    parts("the part of two pumps", first, second, 139, XRS_REFUSED_SAME_DAY, 0, 0);
    compares("compare two pumps", xrs_compare_sheets(first, 278, 2, second, 139, 1, row, 96), XRS_REFUSED_SAME_DAY, 0, none);
    make_record(second, words[0], old, 0);
    compares("compare with width 3", xrs_compare_sheets(first, 278, 2, second, 139, 1, row, 96), XRS_REFUSED_SHEET_WIDTH, 0, none);
    check("refused comparisons write nothing", holds(&signs, old));
}

/* A window over two sheets of a pump, one of another, a blank slot, a record of width 3 and a short last piece. */
static void windows(void) {
    enum { LENGTH = 5 * XRS_RECORD_SIZE + 7 };
    uint8_t symbols[XRS_SHEET_SIZE], card[LENGTH], *bytes;
    uint64_t all[2 + XRS_REPORT_SIZE + 2], want[2 + XRS_REPORT_SIZE + 2], *report = all + 2, *numbers = want + 2;
    lent slice;
    memset(card, 255, sizeof card);
    memset(all, 9, sizeof all);
    memset(want, 9, sizeof want);
    make_symbols(symbols);
    memset(symbols, 2, XRS_SHEET_QUARTERS);
    symbols[30] = symbols[35] = 127;
    make_sheet(card, symbols);
    symbols[XRS_SHEET_DAY] = 28;
    symbols[30] = 0;
    make_sheet(card + XRS_RECORD_SIZE, symbols);
    symbols[XRS_SHEET_PUMP] = 127;
    make_sheet(card + 3 * XRS_RECORD_SIZE, symbols);
    make_record(card + 4 * XRS_RECORD_SIZE, words[0], symbols, 0);
    bytes = lend(&slice, card, LENGTH);
    answers("an empty window", xrs_window(bytes, LENGTH, 30, 30, report, 1154), XRS_REFUSED_WINDOW, 0);
    answers("a window behind the day", xrs_window(bytes, LENGTH, 95, 97, report, 1155), XRS_REFUSED_WINDOW, 0);
    answers("a short report", xrs_window(bytes, LENGTH, 30, 31, report, 1154), XRS_REFUSED_LENGTH, 0);
    answers("a long report", xrs_window(bytes, LENGTH, 30, 31, report, 1156), XRS_REFUSED_LENGTH, 0);
    check("refused windows write nothing", memcmp(all, want, sizeof all) == 0);

    memset(numbers, 0, XRS_REPORT_SIZE * sizeof *numbers);
    numbers[XRS_PUMP_SHEETS(5)] = 2;
    numbers[XRS_PUMP_SUM(5)] = 127 + 4 * 2 + 4 * 2;
    numbers[XRS_PUMP_FULL(5)] = 1;
    numbers[XRS_PUMP_HIGHEST(5)] = 127;
    numbers[XRS_PUMP_YEAR(5)] = 24;
    numbers[XRS_PUMP_MONTH(5)] = 2;
    numbers[XRS_PUMP_DAY(5)] = 29;
    numbers[XRS_PUMP_QUOTIENT(5)] = 71;
    numbers[XRS_PUMP_REMAINDER(5)] = 1;
    numbers[XRS_PUMP_SHEETS(127)] = 1;
    numbers[XRS_PUMP_SUM(127)] = numbers[XRS_PUMP_QUOTIENT(127)] = 4 * 2;
    numbers[XRS_PUMP_HIGHEST(127)] = 2;
    numbers[XRS_PUMP_YEAR(127)] = 24;
    numbers[XRS_PUMP_MONTH(127)] = 2;
    numbers[XRS_PUMP_DAY(127)] = 28;
    numbers[XRS_REPORT_REFUSED] = 2;
    numbers[XRS_REPORT_BLANK] = 1;
    answers("a window", xrs_window(bytes, LENGTH, 30, 35, report, XRS_REPORT_SIZE), XRS_ACCEPTED, 0);
    check("its report, and the card as it was", memcmp(all, want, sizeof all) == 0 && holds(&slice, card));
    answers("the whole day", xrs_window(bytes, LENGTH, 0, 96, report, XRS_REPORT_SIZE), XRS_ACCEPTED, 0);
    check("its first date of the highest count", report[XRS_PUMP_FULL(5)] == 3 && report[XRS_PUMP_DAY(5)] == 28);
    check("no further record", report[XRS_REPORT_FURTHER] == 0);
}

/* NULL for a slice of length 0: no marks, an empty card, and outputs that are then of the wrong length. */
static void empty_slices(void) {
    static const uint8_t none[5] = {0}, wrong[12] = {1, 2, 4, 3, 6, 0, 1, 0, 0, 0, 0, 5};
    static uint64_t report[XRS_REPORT_SIZE];
    uint8_t row[XRS_ROW_SIZE];
    uint64_t next = 1;
    lent word;
    answers("restore with NULL for no marks", xrs_restore_word(3, lend(&word, wrong, 12), 12, NULL, 0), XRS_ACCEPTED, 1);
    answers("the same at the reach 1", xrs_restore_word_within(3, lend(&word, wrong, 12), 12, NULL, 0, 1), XRS_ACCEPTED, 1);
    answers("the same by trials", xrs_restore_word_by_trials(3, lend(&word, wrong, 12), 12, NULL, 0), XRS_ACCEPTED, 1);
    answers("by trials at the reach 1", xrs_restore_word_by_trials_within(3, lend(&word, wrong, 12), 12, NULL, 0, 1), XRS_ACCEPTED, 1);
    check("the word restored without marks", holds(&word, words[2]));
    syndromes_are("syndromes with NULL for no marks", xrs_syndromes(3, words[2], 12, NULL, 0), XRS_ACCEPTED, none);

    check("check a card of NULL", xrs_check_card(NULL, 0) == 0);
    answers("convert an old card of NULL", xrs_card_to_new(NULL, 0, NULL, 0), XRS_ACCEPTED, 0);
    answers("convert a new card of NULL", xrs_card_to_old(NULL, 0, NULL, 0), XRS_ACCEPTED, 0);
    answers("a step over a card of NULL", xrs_walk_step(0, &next, NULL, 0), XRS_ACCEPTED, 0);
    check("it leaves the next record at 1", next == 1);
    answers("look at a card of NULL", xrs_look(NULL, 0, 1, row, sizeof row), XRS_REFUSED_RECORD_NUMBER, 0);
    report[0] = report[XRS_REPORT_FURTHER] = 9;
    answers("a window over a card of NULL", xrs_window(NULL, 0, 0, 96, report, XRS_REPORT_SIZE), XRS_ACCEPTED, 0);
    check("its report is zeros", report[0] == 0 && report[XRS_REPORT_FURTHER] == 0);
    check("compare cards of NULL", xrs_compare_sheets(NULL, 0, 1, NULL, 0, 1, row, 96) == XRS_REFUSED_RECORD_NUMBER);

    answers("encode NULL into NULL", xrs_encode(3, NULL, 0, NULL, 0), XRS_REFUSED_LENGTH, 0);
    answers("test a word of NULL", xrs_is_codeword(3, NULL, 0), XRS_REFUSED_LENGTH, 0);
    answers("read a word of NULL", xrs_read_data(3, NULL, 0, NULL, 0), XRS_REFUSED_LENGTH, 0);
    answers("restore a word of NULL", xrs_restore_word(3, NULL, 0, NULL, 0), XRS_REFUSED_LENGTH, 0);
    answers("restore a record of NULL", xrs_restore_record(NULL, 0), XRS_REFUSED_LENGTH, 0);
    answers("charge counts of NULL", xrs_charge(NULL, 0), XRS_REFUSED_LENGTH, 0);
    answers("a bay with NULL", xrs_bay_restore(0, NULL, 0, NULL, 0), XRS_REFUSED_LENGTH, 0);
    answers("write a sheet of NULL", xrs_write_sheet(7, NULL, 0, NULL, 0), XRS_REFUSED_LENGTH, 0);
    answers("read a sheet of NULL", xrs_read_sheet(7, NULL, 0, NULL, 0), XRS_REFUSED_LENGTH, 0);
}

int main(void) {
    static const uint8_t widths[4] = {3, 4, 5, 7};
    size_t i;
    field();
    words_of_01();
    refusals();
    restore_cases();
    for (i = 0; i < 4; i++) {
        round_trip(widths[i]);
        restore_at(widths[i]);
        restore_refused_at(widths[i]);
    }
    restore_at_width_4();
    syndromes();
    records();
    cards();
    conversions();
    walks();
    bays();
    sheets();
    compared_sheets();
    windows();
    empty_slices();
    printf("%u passed, %u failed\n", passed, failed);
    return failed != 0;
}
