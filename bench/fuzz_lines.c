/* Random and damaged frame lines for planner, and a look at what it answers.

       fuzz_lines make SEED LINES | planner | fuzz_lines look SEED LINES

   Both ends draw the same lines from the seed. `look` reads each line again by its own reader: as many lines come out as went in; each is `refused` and the number
   that the conditions 1 to 5 and 7 of RULES 15 give, the lowest first, or, where none holds, the frame's own name, a blank and a decimal number, or refused 15 or 16,
   or 14 of a pipeline. Timeouts, repeats and round slots may be any: a round of 2^32 - 1 slots takes no longer than one of a hundred. */
#define _GNU_SOURCE
#include <stdbool.h>
#include <stdint.h>
#include <stdio.h>
#include <stdlib.h>
#include <string.h>

#include "random.h"

enum { MOST = 70000, DIGITS = 60000 };

static const char hex[] = "0123456789ABCDEF";

static size_t put(uint8_t *l, size_t at, uint64_t x, int digits)
{
    for (int i = digits - 1; i >= 0; i--)
        l[at++] = (uint8_t)hex[x >> (4 * i) & 15];
    return at;
}

/* ---- what a line is ---- */

static int digit(uint8_t b)
{
    if (b >= '0' && b <= '9')
        return b - '0';
    return b >= 'A' && b <= 'F' ? b - 'A' + 10 : -1;
}

static uint64_t number(const uint8_t *l, size_t at, int digits)
{
    uint64_t x = 0;
    for (int i = 0; i < digits; i++)
        x = x << 4 | (uint64_t)digit(l[at + (size_t)i]);
    return x;
}

static bool is_frame(const uint8_t *l, size_t len)
{
    if (len > DIGITS || len < 78 || len % 2 != 0)
        return false;
    for (size_t i = 0; i < len; i++)
        if (digit(l[i]) < 0)
            return false;
    uint64_t kind = number(l, 0, 2), name = number(l, 74, 2);
    if (kind < 1 || kind > 2 || name == 0 || 76 + 2 * name > len || (len - 76 - 2 * name) % 16 != 0)
        return false;
    for (size_t i = 0; i < name; i++) {
        uint64_t c = number(l, 76 + 2 * i, 2);
        if (c < 0x21 || c > 0x7e)
            return false;
    }
    return true;
}

/* The lowest of refusals 1 to 7, or 0. */
static int refusal(const uint8_t *l, size_t len)
{
    if (!is_frame(l, len))
        return 1;
    uint64_t kind = number(l, 0, 2), n = number(l, 2, 2), topology = number(l, 4, 2), argument = number(l, 6, 2);
    if (n < 2 || n > 64)
        return 2;
    if (topology < 1 || topology > 5 || (topology < 4 && argument != 0) || (topology == 4 && (argument == 0 || n % argument != 0)))
        return 3;
    uint64_t bits = number(l, 26, 16);
    double loss;
    memcpy(&loss, &bits, sizeof loss);
    if (!(loss >= 0.0 && loss < 1.0))
        return 4;
    if (kind == 1 && number(l, 10, 8) == 0)
        return 5;
    return number(l, 8, 2) > 64 ? 7 : 0;
}

/* ---- lines ---- */

static const uint64_t losses[] = {0, 0, 0x8000000000000000, 1, 0x3FD3333333333333, 0x3FE0000000000000, 0x3FEFFFFFFFFFFFFF};
static const uint64_t bad_losses[] = {0x3FF0000000000000, 0x8000000000000001, 0x7FF8000000000000, 0xFFF0000000000000, UINT64_MAX};
static const uint64_t aborts[] = {0, 0, 0x3FE0000000000000, 0x3FF0000000000000, 0x7FF8000000000000, 0xBFF0000000000000};

/* Timeouts, repeats and round slots far out, up to the last. Under two slots a pipeline runs over 1000 rounds, so these are drawn rarely, elsewhere. */
static uint64_t far_out(void)
{
    static const uint64_t ends[] = {2, 0x55555555, 0x55555556, 0x7FFFFFFF, 0x80000000, UINT32_MAX - 3, UINT32_MAX - 1, UINT32_MAX};
    return below(3) ? ends[below(8)] : 2 + below(UINT32_MAX - 1);
}

static size_t valid(uint8_t *l)
{
    uint64_t kind = 1 + below(2), n = below(40) ? 2 + below(3) : 2 + below(63), topology = 1 + below(5), argument = 0;
    if (topology == 4)
        do
            argument = 1 + below(n);
        while (n % argument != 0);
    if (topology == 5)
        argument = below(4) ? below(4) : below(256);
    if (kind == 1 && argument == 0 && topology == 5 && below(20))   /* nobody hears anybody: over 1000 rounds */
        argument = 1;
    size_t at = put(l, 0, kind, 2);
    at = put(l, at, n, 2);
    at = put(l, at, topology, 2);
    at = put(l, at, argument, 2);
    at = put(l, at, below(30) ? below(4) : below(65), 2);
    at = put(l, at, below(4) == 0 ? far_out() : kind == 1 ? 1 + below(3) : below(12), 8);
    at = put(l, at, below(4) == 0 ? far_out() : kind == 1 ? (below(400) ? UINT32_MAX : below(6)) : below(16), 8);
    at = put(l, at, losses[below(7)], 16);
    at = put(l, at, aborts[below(6)], 16);
    at = put(l, at, next_word(), 16);
    uint64_t name = below(60) ? 1 + below(6) : 255, words = below(300) ? below(24) : below(600);
    at = put(l, at, name, 2);
    for (uint64_t i = 0; i < name; i++)
        at = put(l, at, 0x21 + below(94), 2);
    for (uint64_t i = 0; i < words; i++)
        at = put(l, at, below(3) ? next_word() : (below(2) ? 0 : UINT64_MAX), 16);
    return at;
}

static size_t damage(uint8_t *l, size_t len)
{
    for (uint64_t k = 1 + below(3); k > 0 && len > 1; k--) {
        size_t i = below(len), j = below(len);
        switch (below(10)) {
        case 0: case 1: case 2: l[i] = (uint8_t)hex[below(16)]; break;
        case 3: l[below(len < 76 ? len : 76)] = (uint8_t)hex[below(16)]; break;
        case 4: l[i] = (uint8_t)next_word(); break;
        case 5: memmove(l + i, l + i + 1, len - i - 1); len--; break;
        case 6: memmove(l + i + 1, l + i, len - i); l[i] = (uint8_t)hex[below(16)]; len++; break;
        case 7: len = below(3) ? len - 1 - below(len > 16 ? 16 : len) : i; break;
        case 8: { uint8_t c = l[i]; l[i] = l[j]; l[j] = c; break; }
        default: l[i] |= 0x20;
        }
    }
    return len;
}

static size_t field_fault(uint8_t *l, size_t len)
{
    static const uint64_t positions[] = {0, 1, 65, 255}, transactions[] = {65, 66, 255, 128};
    for (uint64_t k = 1 + below(2); k > 0; k--)
        switch (below(8)) {
        case 0: put(l, 0, below(256), 2); break;
        case 1: put(l, 2, positions[below(4)], 2); break;
        case 2: put(l, 4, below(256), 2); break;
        case 3: put(l, 6, below(256), 2); break;
        case 4: put(l, 8, transactions[below(4)], 2); break;
        case 5: put(l, 10, 0, 8); break;
        case 6: put(l, 26, bad_losses[below(5)], 16); break;
        default: put(l, 74, below(256), 2);
        }
    return len;
}

static size_t make_line(uint8_t *l)
{
    size_t len = 0;
    uint64_t kind = below(16);
    if (kind < 4) {
        len = valid(l);
    } else if (kind < 9) {
        len = damage(l, valid(l));
    } else if (kind < 11) {
        len = field_fault(l, valid(l));
    } else if (kind < 12) {
        len = below(50) ? below(300) : below(2000) ? below(3000) : below(MOST);
        for (size_t i = 0; i < len; i++)
            l[i] = (uint8_t)hex[next_word() & 15];
    } else if (kind < 13) {
        len = below(200);
        for (size_t i = 0; i < len; i++)
            l[i] = (uint8_t)next_word();
    } else if (kind < 14) {   /* a frame of any fields */
        len = put(l, 0, 1 + below(2), 2);
        len = put(l, len, below(66), 2);
        len = put(l, len, below(7), 2);
        while (len < 74)
            len = put(l, len, next_word() & 15, 1);
        len = put(l, len, 1, 2);
        len = put(l, len, 0x61, 2);
    } else if (kind < 15) {
        len = valid(l);
        l[len++] = 13;
    } else {
        len = below(4);
        for (size_t i = 0; i < len; i++)
            l[i] = (uint8_t)hex[below(16)];
    }
    for (size_t i = 0; i < len; i++)
        if (l[i] == 10)
            l[i] = 11;
    return len;
}

/* ---- what comes out ---- */

static void fault(uint64_t k, const uint8_t *l, size_t len, const char *got)
{
    printf("FAULT at line %llu: `%.*s` gives `%s`\n", (unsigned long long)k, (int)len, (const char *)l, got);
    exit(1);
}

static bool is_decimal(const char *s)
{
    size_t len = strlen(s);
    return len > 0 && len <= 20 && strspn(s, "0123456789") == len && (s[0] != '0' || len == 1);
}

static bool sent_fits(const uint8_t *l, const char *got)
{
    uint64_t name = number(l, 74, 2);
    if (strlen(got) < name + 2 || got[name] != ' ')
        return false;
    for (size_t i = 0; i < name; i++)
        if ((uint8_t)got[i] != number(l, 76 + 2 * i, 2))
            return false;
    return is_decimal(got + name + 1);
}

int main(int argc, char **argv)
{
    if (argc != 4)
        return 2;
    bool look = strcmp(argv[1], "look") == 0;
    state = strtoull(argv[2], NULL, 10);
    uint64_t lines = strtoull(argv[3], NULL, 10), answers[18] = {0}, bytes = 0;
    static uint8_t l[MOST + 1000];
    char *got = NULL;
    size_t room = 0;
    for (uint64_t k = 0; k < lines; k++) {
        size_t len = make_line(l);
        bytes += len + 1;
        if (!look) {
            l[len] = 10;
            if (fwrite(l, 1, len + 1, stdout) != len + 1)
                return 1;
            continue;
        }
        ssize_t n = getline(&got, &room, stdin);
        if (n <= 0 || got[n - 1] != '\n')
            fault(k, l, len, "no line");
        got[n - 1] = 0;
        int due = refusal(l, len), number_got = 0;
        if (strncmp(got, "refused ", 8) == 0 && is_decimal(got + 8))
            number_got = atoi(got + 8);
        bool ran = number_got == 15 || number_got == 16 || (number_got == 14 && number(l, 0, 2) == 1) || (number_got == 0 && due == 0 && sent_fits(l, got));
        if (due != 0 ? number_got != due : !ran)
            fault(k, l, len, got);
        answers[number_got]++;
    }
    if (look) {
        if (getline(&got, &room, stdin) > 0)
            fault(lines, l, 0, got);
        for (int i = 0; i < 18; i++)
            if (answers[i] > 0)
                printf(i == 0 ? "name and bytes sent%.0d: %llu\n" : "refused %d: %llu\n", i, (unsigned long long)answers[i]);
        printf("lines: seed %s, %llu lines (%llu bytes) in, %llu out, no fault\n", argv[2], (unsigned long long)lines, (unsigned long long)bytes, (unsigned long long)lines);
    }
    return 0;
}
