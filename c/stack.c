/*
 * How much stack do the calls need? Each is made on a stack of its own that is painted beforehand, with records and words of many kinds of
 * wear, and the bytes that lost their paint are counted. XRS_STACK must be more. One line for each check.
 */
#define _XOPEN_SOURCE 700
#include <stdio.h>
#include <string.h>
#include <ucontext.h>

#include "xrs.h"

enum { STACK = 1 << 16, PAINT = 0xA7, SLOTS = 16 };

static uint8_t stack[STACK];
static ucontext_t here, there;
static void (*current)(void);

static uint8_t card[SLOTS * XRS_RECORD_SIZE], copy[SLOTS * XRS_RECORD_SIZE], word[132], marks[5], out[SLOTS * XRS_RECORD_SIZE];
static uint8_t width, mark_count;
static uint16_t left[XRS_COUNTS];
static uint64_t next, report[XRS_REPORT_SIZE];
static volatile uint64_t answer; /* so that no call is left out */

static void run(void) { current(); }

/* The bytes of stack that lose their paint; the first run, on the usual stack, has the loader find what is called. */
static size_t depth(void (*call)(void)) {
    size_t untouched = 0;
    call();
    memset(stack, PAINT, sizeof stack);
    current = call;
    getcontext(&there);
    there.uc_stack.ss_sp = stack;
    there.uc_stack.ss_size = sizeof stack;
    there.uc_link = &here;
    makecontext(&there, run, 0);
    swapcontext(&here, &there);
    while (untouched < STACK && stack[untouched] == PAINT) {
        untouched++;
    }
    return STACK - untouched;
}

static void nothing(void) { answer = 0; }
static void sum(void) { answer = xrs_sum(width, 1, 2); }
static void product(void) { answer = xrs_product(width, 3, 5); }
static void power(void) { answer = xrs_power(width, 3, 65535); }
static void inverse(void) { answer = xrs_inverse(width, 3); }
static size_t n(void) { return ((size_t)1 << width) + 4; }
static void encode(void) { answer = xrs_encode(width, word + 5, n() - 5, out, n()); }
static void is_codeword(void) { answer = xrs_is_codeword(width, word, n()); }
static void read_data(void) { answer = xrs_read_data(width, word, n(), out, n() - 5); }
static void syndromes(void) { answer = xrs_syndromes(width, word, n(), marks, mark_count); }
static void restore(void) {
    memcpy(out, word, n());
    answer = xrs_restore_word(width, out, n(), marks, mark_count);
}
static void restore_within(void) {
    memcpy(out, word, n());
    answer = xrs_restore_word_within(width, out, n(), marks, mark_count, 0);
}
static void by_trials(void) {
    memcpy(out, word, n());
    answer = xrs_restore_word_by_trials(width, out, n(), marks, mark_count);
}
static void by_trials_within(void) {
    memcpy(out, word, n());
    answer = xrs_restore_word_by_trials_within(width, out, n(), marks, mark_count, 0);
}
static void record(void) {
    memcpy(copy, card, XRS_RECORD_SIZE);
    answer = xrs_restore_record(copy, XRS_RECORD_SIZE);
}
static void record_within(void) {
    memcpy(copy, card, XRS_RECORD_SIZE);
    answer = xrs_restore_record_within(copy, XRS_RECORD_SIZE, 0);
}
static void check_card(void) { answer = xrs_check_card(card, sizeof card); }
static void to_old(void) { answer = xrs_card_to_old(card, sizeof card, out, SLOTS * XRS_OLD_RECORD_SIZE); }
static void to_new(void) { answer = xrs_card_to_new(out, SLOTS * XRS_OLD_RECORD_SIZE, copy, sizeof copy); }
static void step(void) {
    memcpy(copy, card, sizeof card);
    next = 1;
    answer = xrs_walk_step(sizeof copy, &next, copy, sizeof copy);
}
static void look(void) { answer = xrs_look(card, sizeof card, 1, out, XRS_ROW_SIZE); }
static void charge(void) { answer = xrs_charge(left, XRS_COUNTS); }
static void bay(void) {
    memcpy(copy, card, XRS_RECORD_SIZE);
    answer = xrs_bay_restore(0, left, XRS_COUNTS, copy, XRS_RECORD_SIZE);
}
static void bay_within(void) {
    memcpy(copy, card, XRS_RECORD_SIZE);
    answer = xrs_bay_restore_within(0, left, XRS_COUNTS, copy, XRS_RECORD_SIZE, 0);
}
static void write_sheet(void) { answer = xrs_write_sheet(7, word + 5, XRS_SHEET_SIZE, out, 132); }
static void read_sheet(void) { answer = xrs_read_sheet(7, card + 7, 132, out, XRS_SHEET_SIZE); }
static void compare(void) { answer = xrs_compare_sheets(card, sizeof card, 1, card, sizeof card, 2, out, XRS_SHEET_QUARTERS); }
static void part(void) { answer = xrs_compare_part(card, sizeof card, 1, card, sizeof card, 2, report, report + 1); }
static void window(void) { answer = xrs_window(card, sizeof card, 0, 96, report, XRS_REPORT_SIZE); }

static const struct {
    const char *name;
    void (*call)(void);
} calls[] = {
    {"xrs_sum", sum},
    {"xrs_product", product},
    {"xrs_power", power},
    {"xrs_inverse", inverse},
    {"xrs_encode", encode},
    {"xrs_is_codeword", is_codeword},
    {"xrs_read_data", read_data},
    {"xrs_syndromes", syndromes},
    {"xrs_restore_word", restore},
    {"xrs_restore_word_within", restore_within},
    {"xrs_restore_word_by_trials", by_trials},
    {"xrs_restore_word_by_trials_within", by_trials_within},
    {"xrs_restore_record", record},
    {"xrs_restore_record_within", record_within},
    {"xrs_check_card", check_card},
    {"xrs_card_to_old", to_old},
    {"xrs_card_to_new", to_new},
    {"xrs_walk_step", step},
    {"xrs_look", look},
    {"xrs_charge", charge},
    {"xrs_bay_restore", bay},
    {"xrs_bay_restore_within", bay_within},
    {"xrs_write_sheet", write_sheet},
    {"xrs_read_sheet", read_sheet},
    {"xrs_compare_sheets", compare},
    {"xrs_compare_part", part},
    {"xrs_window", window},
};

enum { CALLS = sizeof calls / sizeof *calls };

/* Numbers by chance, from a fixed seed. */
static uint32_t below(uint32_t bound) {
    static uint64_t state = 0x9E3779B97F4A7C15u;
    state ^= state << 13;
    state ^= state >> 7;
    state ^= state << 17;
    return (uint32_t)(state >> 32) % bound;
}

/* A word of the width with up to three wrong symbols, and up to so many marks; width 7 is a day sheet before it wears. */
static void wear(uint8_t most_marks) {
    uint8_t data[127] = {0};
    size_t i, wrong = below(4);
    for (i = 0; i < n() - 5 && i < XRS_SHEET_SIZE; i++) {
        data[i] = (uint8_t)below(1u << width);
    }
    if (width == 7) {
        data[XRS_SHEET_MONTH] = data[XRS_SHEET_DAY] = data[XRS_SHEET_PUMP] = 1;
    }
    xrs_encode(width, data, n() - 5, word, n());
    for (i = 0; i < wrong; i++) {
        word[below((uint32_t)n())] ^= (uint8_t)(1 + below((1u << width) - 1));
    }
    mark_count = (uint8_t)below(most_marks + 1u);
    for (i = 0; i < mark_count; i++) {
        marks[i] = (uint8_t)(below(2) == 0 && i < 3 ? 2 * i : 5 + i * (n() - 5) / 5 + below((uint32_t)(n() - 5) / 5));
    }
}

/* The word and the marks as a record, in each slot of the card. */
static void fill_card(void) {
    size_t i;
    memset(card, 0, sizeof card);
    for (i = 0; i < SLOTS; i++) {
        uint8_t *slot = card + i * XRS_RECORD_SIZE;
        slot[0] = width;
        slot[1] = mark_count;
        memset(slot + 2, 255, 5);
        memcpy(slot + 2, marks, mark_count);
        memcpy(slot + 7, word, n());
    }
}

int main(void) {
    static const uint8_t widths[4] = {3, 4, 5, 7};
    size_t deepest[CALLS] = {0}, base = depth(nothing), i, k;
    unsigned passed = 0, failed = 0, accepted = 0, refused = 0;
    charge();
    for (k = 0; k < 1000; k++) {
        width = widths[k % 4];
        wear(width == 4 ? 3 : 5);
        fill_card();
        for (i = 0; i < CALLS; i++) {
            size_t deep = depth(calls[i].call) - base;
            deepest[i] = deep > deepest[i] ? deep : deepest[i];
            if (calls[i].call == restore) {
                XRS_REFUSAL(answer) == XRS_ACCEPTED ? accepted++ : refused++;
            }
        }
    }
    for (i = 0; i < CALLS; i++) {
        int right = deepest[i] < XRS_STACK;
        printf("%s: %s needs %u bytes of stack\n", right ? "ok" : "FAILED", calls[i].name, (unsigned)deepest[i]);
        right ? passed++ : failed++;
    }
    if (accepted < 200 || refused < 200) {
        printf("FAILED: %u words were accepted, %u refused\n", accepted, refused);
        failed++;
    }
    printf("%u passed, %u failed\n", passed, failed);
    return failed != 0;
}
