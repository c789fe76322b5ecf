/* Capture rooms in a mesh, for `count`: as frame lines for planner, or played through room_run of libroom_c.a.

       count WHAT POSITIONS PROPOSALS TIMEOUT SLOTS LOSS WORDS ROOMS

   WHAT is lines: prints a frame line for each room; slots: plays the rooms and prints how many slots they ran;
   propose: one proposal in each, and no round; round: one proposal and its round. All draw the same words. */
#include <stdint.h>
#include <stdio.h>
#include <stdlib.h>
#include <string.h>

#include "random.h"

uint64_t room_run(const uint64_t *setup, size_t, double loss, double abort, const uint64_t *links, size_t,
                  const uint64_t *words, size_t, uint64_t *rows, size_t, const uint64_t *calls, size_t, uint64_t *told,
                  size_t, double *floats, size_t, uint8_t *text, size_t, uint64_t *out, size_t);

/* the slot's place in the account; the numbers told of a call, and the places among them of its refusal and of a round's
   cursor and rows used */
enum { SLOT = 0, ACCOUNT = 12185, EACH = 40, REFUSAL = 0, CURSOR = 1, USED = 2, FOREVER = 0xffffffff };

static uint64_t n, proposals, timeout, slots;
static double loss;
static uint64_t *words;
static size_t lent;
static uint64_t account[ACCOUNT], told[2 * 64 * EACH];

static void line(void)
{
    uint64_t bits;
    memcpy(&bits, &loss, sizeof bits);
    printf("02%02X0100%02X%08X%08X%016llX%016X%016X0141", (unsigned)n, (unsigned)proposals, (unsigned)timeout,
           (unsigned)slots, (unsigned long long)bits, 0, 0);
    for (size_t i = 0; i < lent; i++)
        printf("%016llX", (unsigned long long)words[i]);
    printf("\n");
}

static void play(const uint64_t *calls, size_t count)
{
    const uint64_t setup[10] = {2, 0, 0, FOREVER, FOREVER, 0, timeout, 1, slots, 1};
    uint64_t links[64], rows[5];
    double floats[1];
    uint8_t text[1];
    for (uint64_t i = 0; i < n; i++)
        links[i] = (n == 64 ? ~0ull : (1ull << n) - 1) & ~(1ull << i);
    if (room_run(setup, 10, loss, 0.0, links, n, words, lent, rows, 5, calls, 4 * count, told, EACH * count, floats, 0,
                 text, 0, account, ACCOUNT) != 0)
        exit(1);
    for (size_t i = 0; i < count; i++)
        if (told[EACH * i + REFUSAL] != 0)
            exit(1);
}

/* Each round starts at the cursor where the one before it ended, so the calls are made again with one round more. */
static uint64_t slots_of(void)
{
    uint64_t calls[2 * 64 * 4] = {0}, cursor = 0, used = 0;
    for (uint64_t k = 0; k < proposals; k++) {
        uint64_t *c = calls + 8 * k;
        c[0] = 1, c[1] = k % n, c[4] = 2, c[6] = cursor, c[7] = used;
        play(calls, 2 * k + 2);
        cursor = told[EACH * (2 * k + 1) + CURSOR], used = told[EACH * (2 * k + 1) + USED];
    }
    return account[SLOT];
}

int main(int argc, char **argv)
{
    if (argc != 9)
        return 2;
    n = strtoull(argv[2], 0, 10), proposals = strtoull(argv[3], 0, 10);
    timeout = strtoull(argv[4], 0, 10), slots = strtoull(argv[5], 0, 10);
    loss = strtod(argv[6], 0), lent = strtoull(argv[7], 0, 10);
    words = calloc(lent + 1, sizeof *words);
    if (n < 1 || n > 64 || proposals > 64 || !words)
        return 2;
    uint64_t all = 0;
    for (uint64_t k = strtoull(argv[8], 0, 10); k > 0; k--) {
        for (size_t i = 0; i < lent; i++)
            words[i] = next_word();
        if (!strcmp(argv[1], "lines"))
            line();
        else if (!strcmp(argv[1], "slots"))
            all += slots_of();
        else
            play((const uint64_t[8]){1, 0, 0, 0, 2, 0, 0, 0}, strcmp(argv[1], "round") ? 1 : 2);
    }
    if (!strcmp(argv[1], "slots"))
        printf("%llu\n", (unsigned long long)all);
    return 0;
}
