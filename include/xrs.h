/*
 * The proved library for the five times extended Reed-Solomon code over 8, 16, 32 or 128 symbols.
 *
 * Widths: the width is 3, 4, 5 or 7, and q is 2^width. A symbol is a number below q, one to a byte. A word has n = q + 4 symbols (12, 20,
 * 36 or 132): five check symbols, then the q - 1 data symbols (7, 15, 31 or 127).
 *
 * Answers: every call but xrs_check_card has a refusal in the lowest byte of what it returns. The refusal is 0 where the call was accepted;
 * otherwise it is that of the first question answered no, and the bytes above are 0. XRS_REFUSAL gives the refusal. In an answer of 32 bits
 * the rest is one value, which XRS_VALUE gives; in an answer of 64 bits each byte is a value of its own, which XRS_BYTE gives.
 *
 * Questions: they are put in the order 21, 18, 17, 1, 2, 3, 8, 15, 4, 5, 6, 16, 7, 14, 9, 10, 11, 12, 13, 20, 19 of their refusals, each
 * for all its items before the next. Of a record or a card 2 comes before 1, and in xrs_walk_step before 17.
 *
 * Memory: a slice is passed as a pointer and its length, which counts elements: bytes, or numbers of 16 or 64 bits where the pointer is one
 * to these. The pointer must be valid for that many elements and aligned for them: to read where it is const, else to read and write.
 * Where the length is 0 the pointer is not used, and NULL may be passed: no marks, or an empty card. Slices passed to one call must not
 * overlap, unless both are const, and nobody else may write to a slice, or read one that is not const, until the call returns. Any length
 * and any content are allowed: a wrong one is refused. A single number that a call changes is passed as a pointer to it, which must not be
 * NULL, must be aligned and must not point into a slice of the call. A call touches nothing outside its slices and numbers, and a refused
 * call changes nothing inside. What an output (data or a word that is encoded or read, a converted card, a row, the counts of a new charge,
 * a sheet, signs, a report) holds beforehand does not matter.
 *
 * The calls keep no state and allocate nothing, so any number of threads may call them at once on memory of their own. A call needs less
 * than XRS_STACK bytes of stack.
 *
 * The shared library libxrs.so.0 and the archive libxrs.a, made by `./package` in the repository, are for x86-64 Linux.
 */
#ifndef XRS_H
#define XRS_H

#include <stddef.h>
#include <stdint.h>

/* The version of the library that this header belongs to. */
#define XRS_VERSION "0.1.0"

/* More bytes of stack than any call needs: the deepest takes about 2,500. */
#define XRS_STACK 4096

#ifdef __cplusplus
extern "C" {
#endif

/* Why a call was refused. docs/FORMAT.md in the repository says more of each, and which call gives it. */
enum xrs_refusal {
    XRS_ACCEPTED = 0,                 /* the call was accepted */
    XRS_REFUSED_WIDTH = 1,            /* the width is not 3, 4, 5 or 7 */
    XRS_REFUSED_LENGTH = 2,           /* the length is not the right one */
    XRS_REFUSED_ERASURE_COUNT = 3,    /* there are too many erasures */
    XRS_REFUSED_ERASURE_PLACE = 4,    /* an erasure is no place of the word */
    XRS_REFUSED_ERASURE_DISTINCT = 5, /* an erasure is given twice */
    XRS_REFUSED_SYMBOL = 6,           /* a symbol outside the erasures is not below 2^width */
    XRS_REFUSED_CORRECTABLE = 7,      /* no codeword is near */
    XRS_REFUSED_PADDING = 8,          /* an unused erasure byte is not 255, or the tail is not 0 */
    XRS_REFUSED_SYNDROME = 9,         /* a syndrome is not zero */
    XRS_REFUSED_NONZERO = 10,         /* the symbol 0 has no inverse */
    XRS_REFUSED_SHEET_WIDTH = 11,     /* the width of a day sheet is not 7 */
    XRS_REFUSED_DATE = 12,            /* the date of a day sheet does not exist */
    XRS_REFUSED_UNUSED = 13,          /* an unused symbol of a day sheet is not 0 */
    XRS_REFUSED_UNIQUE = 14,          /* several codewords agree outside the five erasures */
    XRS_REFUSED_FOUR_ERASURES = 15,   /* there are five erasures, and the old edition has room for four */
    XRS_REFUSED_REACH = 16,           /* the reach is longer than r */
    XRS_REFUSED_RECORD_NUMBER = 17,   /* the card has no record of that number */
    XRS_REFUSED_BAY = 18,             /* the bay is not 0 to 3 */
    XRS_REFUSED_REWRITE = 19,         /* no rewrite is left to the bay */
    XRS_REFUSED_SAME_DAY = 20,        /* the two day sheets have not the same pump and date */
    XRS_REFUSED_WINDOW = 21           /* the window has no quarter hour, or its end is above 96 */
};

/* The refusal of an answer, of 32 or of 64 bits. */
#define XRS_REFUSAL(answer) ((uint32_t)(answer) % 256u)

/* The value of an answer of 32 bits. */
#define XRS_VALUE(answer) ((uint32_t)(answer) / 256u)

/* The value in byte 1 to 7 of an answer of 64 bits. */
#define XRS_BYTE(answer, byte) ((uint32_t)((uint64_t)(answer) >> 8 * (byte)) % 256u)

/* ---- The field. The value is a symbol. Refused with 1 and 6. */

/* The sum of two symbols. */
uint32_t xrs_sum(uint8_t width, uint8_t a, uint8_t b);

/* The product of two symbols. */
uint32_t xrs_product(uint8_t width, uint8_t a, uint8_t b);

/* a to the power e; the power 0 is 1, also of 0. */
uint32_t xrs_power(uint8_t width, uint8_t a, uint16_t e);

/* The inverse of a; for 0 refused with 10. */
uint32_t xrs_inverse(uint8_t width, uint8_t a);

/* ---- The code. */

/* Writes the codeword of the data (q - 1 symbols) into the word (n bytes). The value is 0. Refused with 1, 2 and 6. */
uint32_t xrs_encode(uint8_t width, const uint8_t *data, size_t data_length, uint8_t *word, size_t word_length);

/* Are the five syndromes of the word (n symbols) zero? The value is 1 for yes and 0 for no. Refused with 1, 2 and 6. */
uint32_t xrs_is_codeword(uint8_t width, const uint8_t *word, size_t word_length);

/* Writes the data of a codeword (n symbols) into data (q - 1 bytes). The value is 0. Refused with 1, 2, 6 and 9. */
uint32_t xrs_read_data(uint8_t width, const uint8_t *word, size_t word_length, uint8_t *data, size_t data_length);

/*
 * The five syndromes of the word (n bytes) over its unmarked places: a marked place counts as 0, whatever byte it holds. The marks are
 * those of xrs_restore_word. Syndrome k, a symbol, is XRS_BYTE(answer, 1 + k), k from 0 to 4; bytes 6 and 7 are 0. Refused with 1 to 6.
 */
uint64_t xrs_syndromes(uint8_t width, const uint8_t *word, size_t word_length, const uint8_t *marks, size_t marks_length);

/*
 * Writes the near codeword in place of the word (n bytes). The marks are the erasures: at most five different places of the word, at width
 * 4 at most three, counted from 0, in any order. A marked place may hold any byte. The near codeword differs from the word at no more than
 * r unmarked places: r is (4 - marks_length) / 2 rounded down, and 0 with five marks; at width 4 it is (3 - marks_length) / 2 rounded down.
 * With up to four marks there is never a second one; with five there may be several, and then the call is refused with 14. The value is the
 * number of unmarked places changed, 0 to 2. Refused with 1 to 7 and 14.
 */
uint32_t xrs_restore_word(uint8_t width, uint8_t *word, size_t word_length, const uint8_t *marks, size_t marks_length);

/*
 * xrs_restore_word that looks no further than the reach: the near codeword differs at no more unmarked places. The longest reach is the r of
 * xrs_restore_word, and a longer one is refused with 16. With up to four marks, and no more than 4 - marks_length - reach unmarked symbols
 * wrong (3 in place of 4 at width 4), the codeword that was written comes back or the call is refused with 7; another never comes.
 */
uint32_t xrs_restore_word_within(uint8_t width, uint8_t *word, size_t word_length, const uint8_t *marks, size_t marks_length, uint8_t reach);

/*
 * xrs_restore_word and xrs_restore_word_within by another method: the places of wrong symbols are tried, one set after the other, where
 * those find them from the syndromes. The answers and the word afterwards are the same on every input; these take longer.
 */
uint32_t xrs_restore_word_by_trials(uint8_t width, uint8_t *word, size_t word_length, const uint8_t *marks, size_t marks_length);
uint32_t xrs_restore_word_by_trials_within(
    uint8_t width, uint8_t *word, size_t word_length, const uint8_t *marks, size_t marks_length, uint8_t reach);

/* ---- The card. */

/*
 * Bytes of a slot of a card, which holds a record or is blank. A record: the width, the number of marks, five bytes for the marks (255
 * where unused), the word, and zeros. A blank slot: every byte is 255.
 */
#define XRS_RECORD_SIZE 139

/*
 * Restores the word of a record with the marks that the record names, and leaves the record without marks. The value is the number of
 * unmarked places changed, 0 to 2. Refused with 1 to 8 and 14. A blank slot is refused with 1.
 */
uint32_t xrs_restore_record(uint8_t *record, size_t record_length);

/* xrs_restore_record that looks no further than the reach, as xrs_restore_word_within does. */
uint32_t xrs_restore_record_within(uint8_t *record, size_t record_length, uint8_t reach);

/*
 * Would every record of the card be accepted by xrs_restore_record? Returns 0 for yes, else the number of the first record that would not
 * be, counted from 1. Blank slots are passed over, and counted. A last piece shorter than a slot is a record that would not be accepted,
 * even where all its bytes are 255. A card of length 0 passes.
 */
uint64_t xrs_check_card(const uint8_t *card, size_t card_length);

/* Bytes of a slot of the old edition: a record has four bytes for the marks. */
#define XRS_OLD_RECORD_SIZE 138

/*
 * Writes a card of the old edition as a card with slots of XRS_RECORD_SIZE bytes into out: each record gets a fifth mark byte of 255, and a
 * blank slot stays blank. The card must be whole slots, and out as many. Marks and symbols are not asked about, and a blank slot nothing.
 * The value is 0. Refused with 1, 2, 3 and 8.
 */
uint32_t xrs_card_to_new(const uint8_t *card, size_t card_length, uint8_t *out, size_t out_length);

/* The other way, with the same questions and, after them, 15. */
uint32_t xrs_card_to_old(const uint8_t *card, size_t card_length, uint8_t *out, size_t out_length);

/* ---- A walk restores a card by steps, so that one may look at a record meanwhile. */

/*
 * Restores up to 16 records of the card, from record *next on in their order, fewer only at the card's end; *next is then the record behind
 * them, and at the end one more than the card has. Records are counted from 1; blank slots, records that are refused and a short last piece
 * count, and stay as they are. After the end a step changes nothing. A walk begins with the card's length and *next = 1, and a card of N
 * records is done after N / 16 steps, rounded up. The value is 0. Refused with 2 where the card has not the length that the walk began
 * with, then with 17 where *next is not 1 to one more than the card has; *next is then as it was. The pointer next must not be NULL,
 * also where the card is empty, must be aligned for a uint64_t, and must not point into the card.
 */
uint32_t xrs_walk_step(uint64_t length, uint64_t *next, uint8_t *card, size_t card_length);

/* The symbols that a look gives: those of a word of width 7; behind a shorter word stand zeros. */
#define XRS_ROW_SIZE 132

/*
 * Writes the symbols of a record, counted from 1, into the row (XRS_ROW_SIZE bytes): those that xrs_restore_record would give it. The card
 * stays as it is. During a walk it makes no difference whether the record was restored already. The value is 0. Refused with 17, with 2
 * for the row, and like xrs_restore_record; a short last piece with 2, a blank slot with 1.
 */
uint32_t xrs_look(const uint8_t *card, size_t card_length, uint64_t number, uint8_t *row, size_t row_length);

/* ---- A dock of four bays, 0 to 3, has so many rewrites per charge. A bay pays with its own before the common ones. */

/* The counts of the rewrites that are left: those of bays 0 to 3, then the common ones. */
#define XRS_COUNTS 5

/* A new charge: 100 rewrites for each bay and 600 common ones (XRS_COUNTS numbers). The value is 0. Refused with 2. */
uint32_t xrs_charge(uint16_t *left, size_t left_length);

/*
 * xrs_restore_record and xrs_restore_record_within at a bay, which pays one rewrite where a byte of the record changes. A record that stays
 * as it is, a refused one and a blank slot cost none. Refused with 18, with 2 for either slice, and like those; last with 19 where the
 * record would change and no rewrite is left, own or common.
 */
uint32_t xrs_bay_restore(uint8_t bay, uint16_t *left, size_t left_length, uint8_t *record, size_t record_length);
uint32_t xrs_bay_restore_within(uint8_t bay, uint16_t *left, size_t left_length, uint8_t *record, size_t record_length, uint8_t reach);

/* ---- Day sheets: codewords of width 7 whose data symbols are a day's compressor starts, its date and its pump, and then zeros. */

/* The symbols of a day sheet, c_0 to c_99. */
#define XRS_SHEET_SIZE 100

/* The first of them are the starts in each quarter hour of the day, in standard time; 127 means 127 or more. */
#define XRS_SHEET_QUARTERS 96

/* The others: the year less 2000, the month and the day of a date that exists, and the pump. */
#define XRS_SHEET_YEAR 96
#define XRS_SHEET_MONTH 97
#define XRS_SHEET_DAY 98
#define XRS_SHEET_PUMP 99

/*
 * Writes the day sheet that has these symbols (XRS_SHEET_SIZE of them) into the word (n bytes). The value is 0. Refused with 1, 2, 6, 11
 * and 12.
 */
uint32_t xrs_write_sheet(uint8_t width, const uint8_t *symbols, size_t symbols_length, uint8_t *word, size_t word_length);

/*
 * Writes the symbols of the day sheet (n symbols) into symbols (XRS_SHEET_SIZE bytes). The value is 0. Refused with 1, 2, 6, 9, 11, 12
 * and 13.
 */
uint32_t xrs_read_sheet(uint8_t width, const uint8_t *word, size_t word_length, uint8_t *symbols, size_t symbols_length);

/*
 * Compares two sheets of one day, one by the pump's controller and one by the meter cupboard, each a record of its card, counted from 1.
 * The records are restored in a copy and read as xrs_read_sheet reads; both cards stay as they are. Into signs (XRS_SHEET_QUARTERS bytes)
 * go 0 where the counts of a quarter hour are equal, 1 where the controller's is higher, 2 where the cupboard's is. XRS_BYTE(answer, 1) is
 * 1 where the controller's record is chosen and 2 where the cupboard's is: the one with fewer unmarked places changed, the controller's
 * where they are as many; xrs_compare_part says where on its card it lies. Bytes 2, 3 and 4 are the number of signs 0, 1 and 2, which make
 * 96.
 * Refused with 17 for either number, with 2 for signs, then like xrs_restore_record and xrs_read_sheet, all of the controller's questions
 * before the cupboard's, and last with 20.
 */
uint64_t xrs_compare_sheets(const uint8_t *controller, size_t controller_length, uint64_t controller_number, const uint8_t *cupboard,
    size_t cupboard_length, uint64_t cupboard_number, uint8_t *signs, size_t signs_length);

/*
 * Where the record that xrs_compare_sheets chooses lies on its card, as it was lent and not repaired: *size bytes (XRS_RECORD_SIZE) from byte
 * *offset on, counted from 0. The value is 1 where that is the controller's card and 2 where it is the cupboard's. Refused like
 * xrs_compare_sheets, but for the signs; both numbers are then as they were. They must be two different ones.
 */
uint32_t xrs_compare_part(const uint8_t *controller, size_t controller_length, uint64_t controller_number, const uint8_t *cupboard,
    size_t cupboard_length, uint64_t cupboard_number, uint64_t *offset, uint64_t *size);

/* The numbers of a report: nine for each pump, 0 to 127, then three. */
#define XRS_REPORT_SIZE 1155

/* Where those of a pump stand. Without sheets all are 0. */
#define XRS_PUMP_SHEETS(pump) (9 * (pump))        /* the day sheets that were read */
#define XRS_PUMP_SUM(pump) (9 * (pump) + 1)       /* the sum of the starts in the window; a count of 127 enters as 127 */
#define XRS_PUMP_FULL(pump) (9 * (pump) + 2)      /* the number of counts of 127 in the window */
#define XRS_PUMP_HIGHEST(pump) (9 * (pump) + 3)   /* the highest count of one quarter hour in the window */
#define XRS_PUMP_YEAR(pump) (9 * (pump) + 4)      /* its earliest date: the year less 2000, .. */
#define XRS_PUMP_MONTH(pump) (9 * (pump) + 5)     /* .. the month .. */
#define XRS_PUMP_DAY(pump) (9 * (pump) + 6)       /* .. and the day */
#define XRS_PUMP_QUOTIENT(pump) (9 * (pump) + 7)  /* the sum's mean per sheet, rounded down, .. */
#define XRS_PUMP_REMAINDER(pump) (9 * (pump) + 8) /* .. and what is then left of the sum */

/* Where the three others stand. */
#define XRS_REPORT_REFUSED 1152 /* the records that were refused or are no day sheets */
#define XRS_REPORT_BLANK 1153   /* the blank slots */
#define XRS_REPORT_FURTHER 1154 /* 1 where there is a record behind the 1,000,000 that are looked at, else 0 */

/*
 * The starts of each pump over a card, in the quarter hours from first on and before end, into the report (XRS_REPORT_SIZE numbers).
 * Records are read as restored in a copy; the card stays as it is. At most 1,000,000 records are looked at, blank ones included. The value
 * is 0. Refused with 21, then with 2.
 */
uint32_t xrs_window(const uint8_t *card, size_t card_length, uint8_t first, uint8_t end, uint64_t *report, size_t report_length);

#ifdef __cplusplus
}
#endif

#endif
