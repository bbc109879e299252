/*
 * What a peer of the library has to offer for being timed by peer.c: a code with words of 127 symbols, 4 of them check symbols, and distance
 * 5, which is the nearest to ours at width 7 (132 symbols, 5 of them check symbols, distance 5).
 */
#ifndef PEER_H
#define PEER_H

#include <stdint.h>

enum { PLACES = 127, CHECKS = 4, DATA = PLACES - CHECKS };

extern const char peer_name[];
extern const unsigned peer_symbols; /* how many different symbols there are */

/* Makes the code; 0 where that fails. */
int peer_begin(void);

/* Writes the check symbols behind the DATA symbols of the word. */
void peer_encode(uint8_t *word);

/* The place, counted from 0, as the peer's list of marks has it. */
int peer_mark(int place);

/*
 * Restores the word in its place; the list of marks may be written into. Says whether the word was accepted and, where the peer counts, that
 * the count is that of the marks and the other wrong symbols.
 */
int peer_restore(uint8_t *word, int *marked, int marks, int wrong);

/* The same for a word that is to be refused: says whether it was. */
int peer_refuse(uint8_t *word, int *marked, int marks);

#endif
