/*
 * Times the restorer of a peer (peer.h). Prints a line 'NAME 7 WRONG MARKS NANOSECONDS' for each kind of word, in the form of
 * rust/examples/bench: the 7 is the width of ours that it is compared with.
 */
#include <stdio.h>
#include <stdlib.h>
#include <string.h>
#include <time.h>

#include "peer.h"

enum { WORDS = 4096 /* words of each kind */ };
#define SPENT 0.5 /* seconds: rounds over the words follow each other until they are spent, and the best counts */

static uint8_t codewords[WORDS][PLACES], worn[WORDS][PLACES], copies[WORDS][PLACES];
static int marked[WORDS][CHECKS], lists[WORDS][CHECKS]; /* a peer may write into its list of marks */

/* The generator xorshift64 from a fixed seed, so that each run times the same words. */
static uint64_t chance;

static unsigned below(unsigned bound) {
    chance ^= chance << 13;
    chance ^= chance >> 7;
    chance ^= chance << 17;
    return (unsigned)(chance >> 32) % bound;
}

static double seconds(void) {
    struct timespec now;
    clock_gettime(CLOCK_MONOTONIC, &now);
    return (double)now.tv_sec + (double)now.tv_nsec / 1e9;
}

/* A codeword, worn at wrong + marks places, of which the last are marked. */
static void wear(int w, int wrong, int marks) {
    for (int i = 0; i < DATA; i++) codewords[w][i] = (uint8_t)below(peer_symbols);
    peer_encode(codewords[w]);
    memcpy(worn[w], codewords[w], PLACES);
    for (int i = 0; i < wrong + marks; i++) {
        int place = (int)below(PLACES);
        while (worn[w][place] != codewords[w][place]) place = (int)below(PLACES);
        worn[w][place] ^= (uint8_t)(1 + below(peer_symbols - 1));
        if (wrong <= i) marked[w][i - wrong] = peer_mark(place);
    }
}

/* Beyond the distance a word may be near another codeword. */
static int beyond(int wrong, int marks) { return 2 * wrong + marks > CHECKS; }

static int is_refused(int w, int marks) {
    memcpy(copies[w], worn[w], PLACES);
    memcpy(lists[w], marked[w], sizeof marked[w]);
    return peer_refuse(copies[w], lists[w], marks);
}

/* Words of a kind: beyond the distance those that are refused. */
static void make(int wrong, int marks) {
    chance = 0x9E3779B97F4A7C15u;
    for (int w = 0; w < WORDS; w++) {
        do {
            wear(w, wrong, marks);
        } while (beyond(wrong, marks) && !is_refused(w, marks));
    }
}

/* Seconds for fresh copies of the words, made before the clock starts. Fails where a word is not treated as it has to be. */
static double one_round(int wrong, int marks) {
    int right = 0, refused = beyond(wrong, marks);
    memcpy(copies, worn, sizeof worn);
    memcpy(lists, marked, sizeof marked);
    double start = seconds();
    if (refused) {
        for (int w = 0; w < WORDS; w++) right += peer_refuse(copies[w], lists[w], marks);
    } else {
        for (int w = 0; w < WORDS; w++) right += peer_restore(copies[w], lists[w], marks, wrong);
    }
    double spent = seconds() - start;
    if (right != WORDS || (!refused && memcmp(copies, codewords, sizeof copies) != 0)) {
        fprintf(stderr, "%s does not treat every word with %d wrong symbols and %d marks right\n", peer_name, wrong, marks);
        exit(1);
    }
    return spent;
}

/* Prints the nanoseconds per word of the best round. */
static void time_words(int wrong, int marks) {
    make(wrong, marks);
    double best = one_round(wrong, marks), sum = best;
    while (sum < SPENT) {
        double spent = one_round(wrong, marks);
        sum += spent;
        if (spent < best) best = spent;
    }
    printf("%s 7 %d %d %.1f\n", peer_name, wrong, marks, best * 1e9 / WORDS);
}

int main(void) {
    static const int kinds[][2] = {{0, 0}, {1, 0}, {2, 0}, {0, 1}, {0, 2}, {0, 3}, {0, 4}, {1, 1}, {1, 2}, {3, 0}, {2, 1}};
    if (!peer_begin()) {
        fprintf(stderr, "%s does not make the code\n", peer_name);
        return 1;
    }
    for (size_t i = 0; i < sizeof kinds / sizeof *kinds; i++) time_words(kinds[i][0], kinds[i][1]);
    return 0;
}
