/*
 * decode_data and correct_errors_erasures of librscode: symbols of 8 bits, the field of 256 symbols, and a word shortened from 255 to 127
 * places. Debian builds it for 4 check symbols. It answers no count.
 */
#include <rscode/ecc.h>

#include "peer.h"

#if NPAR != 4
#error "librscode is built for another number of check symbols"
#endif

const char peer_name[] = "librscode";
const unsigned peer_symbols = 256;

int peer_begin(void) {
    initialize_ecc();
    return 1;
}

void peer_encode(uint8_t *word) {
    uint8_t whole[PLACES];
    encode_data(word, DATA, whole);
    for (int i = DATA; i < PLACES; i++) word[i] = whole[i];
}

/* Places count from the end. */
int peer_mark(int place) { return PLACES - 1 - place; }

static int accepted(uint8_t *word, int *marked, int marks) {
    decode_data(word, PLACES);
    return check_syndrome() == 0 || correct_errors_erasures(word, PLACES, marks, marked) == 1;
}

int peer_restore(uint8_t *word, int *marked, int marks, int wrong) {
    (void)wrong;
    return accepted(word, marked, marks);
}

int peer_refuse(uint8_t *word, int *marked, int marks) { return !accepted(word, marked, marks); }
