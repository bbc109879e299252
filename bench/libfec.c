/* decode_rs_char of libfec: symbols of 7 bits, and the field of ours at width 7. */
#include <fec.h>
#include <stddef.h>

#include "peer.h"

const char peer_name[] = "libfec";
const unsigned peer_symbols = 128;

static void *code;

int peer_begin(void) {
    code = init_rs_char(7, 0x89, 1, 1, CHECKS, 0);
    return code != NULL;
}

void peer_encode(uint8_t *word) { encode_rs_char(code, word, word + DATA); }

int peer_mark(int place) { return place; }

int peer_restore(uint8_t *word, int *marked, int marks, int wrong) { return decode_rs_char(code, word, marked, marks) == wrong + marks; }

int peer_refuse(uint8_t *word, int *marked, int marks) { return decode_rs_char(code, word, marked, marks) < 0; }
