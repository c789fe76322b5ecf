/* Random and damaged inputs for every entry of include/packets.h.

       fuzz_packets SEED CALLS

   Every lent list lies in pages of its own and ends (or starts) where a page that nobody may touch begins, so that one byte too far stops the program; what lies
   on the other side is filled with a known byte and looked at after the call. A refused call must leave all that it was lent, an accepted one must
   say what reading back says. The first fault is printed, with the seed and the call's number, and ends the run. */
#define _GNU_SOURCE
#include <stdbool.h>
#include <stdio.h>
#include <stdlib.h>
#include <string.h>
#include <sys/mman.h>
#include "packets.h"

#include "random.h"

enum { PAGE = 4096, MOST = 2048, GUARD = 0xA5 };

static uint64_t seed, call;

static void fault(const char *what)
{
    printf("FAULT: %s (seed %llu, call %llu)\n", what, (unsigned long long)seed, (unsigned long long)call);
    exit(1);
}

static void must(bool is, const char *what)
{
    if (!is)
        fault(what);
}

/* ---- lent lists ---- */

typedef struct {
    uint8_t *page;  /* the page that may be touched, with forbidden ones on both sides */
    uint8_t *at;    /* the list in it; null for some empty ones */
    size_t bytes;
    uint8_t was[PAGE];
} Lent;

static Lent text, numbers, data, buf, local, received;

static void open_lent(Lent *l)
{
    uint8_t *p = mmap(NULL, 3 * PAGE, PROT_NONE, MAP_PRIVATE | MAP_ANONYMOUS, -1, 0);
    if (p == MAP_FAILED || mprotect(p + PAGE, PAGE, PROT_READ | PROT_WRITE) != 0)
        exit(2);
    l->page = p + PAGE;
}

/* A list of so many bytes, at the end of its page or at its start, with this in it (or random bytes). */
static void lend(Lent *l, size_t bytes, const void *what)
{
    memset(l->page, GUARD, PAGE);
    l->bytes = bytes;
    l->at = below(4) ? l->page + PAGE - bytes : l->page;
    if (what != NULL)
        memcpy(l->at, what, bytes);
    else
        for (size_t i = 0; i < bytes; i++)
            l->at[i] = (uint8_t)next_word();
    memcpy(l->was, l->page, PAGE);
    if (bytes == 0 && below(2))
        l->at = NULL;
}

/* All of the page but the bytes from `from` to `to` of the list is as it was. */
static void same_but(const Lent *l, size_t from, size_t to, const char *what)
{
    size_t start = l->at == NULL ? 0 : (size_t)(l->at - l->page);
    must(memcmp(l->page, l->was, start + from) == 0, what);
    must(memcmp(l->page + start + to, l->was + start + to, PAGE - start - to) == 0, what);
}

static void same(const Lent *l, const char *what) { must(memcmp(l->page, l->was, PAGE) == 0, what); }

/* ---- the two families ---- */

typedef uint64_t Reader(const uint8_t *, size_t, uint64_t, uint64_t *, size_t, uint8_t *, size_t);
typedef uint64_t Writer(const uint64_t *, size_t, const uint8_t *, size_t, uint8_t *, size_t, uint64_t, uint64_t *);

typedef struct {
    Reader *read;
    Writer *write;
    size_t numbers, longest, data_len, bitmap_len, marks;
} Family;

static const Family families[2] = {
    {ce_packet_read, ce_packet_write, CE_NUMBERS, CE_LONGEST, CE_DATA_LEN, CE_BITMAP_LEN, CE_MARKS},
    {pipeline_packet_read, pipeline_packet_write, PIPELINE_NUMBERS, PIPELINE_LONGEST, PIPELINE_DATA_LEN, PIPELINE_BITMAP_LEN, PIPELINE_MARKS},
};

static uint64_t any_number(void)
{
    switch (below(6)) {
    case 0: return below(4);
    case 1: return UINT64_MAX - below(3);
    case 2: return (1ull << below(64)) - below(2);
    case 3: return below(100);
    default: return next_word() >> below(64);
    }
}

/* Numbers of a packet within the limits, most times. */
static void some_numbers(const Family *f, uint64_t *x)
{
    for (size_t i = 0; i < f->numbers; i++)
        x[i] = any_number();
    if (below(8) == 0)
        return;
    uint64_t entries = below(65);
    x[f->data_len] = below(33);
    x[f->bitmap_len] = entries;
    x[f->marks] = entries == 64 ? next_word() : next_word() & ((1ull << entries) - 1);
    if (below(16) == 0)   /* a stray mark, where the bitmap leaves room for one */
        x[f->marks] |= 1ull << below(64);
    if (f->numbers == CE_NUMBERS) {
        x[CE_PHASE] = below(3);
        return;
    }
    x[PIPELINE_STATE] = below(3);
    x[PIPELINE_ABORT_FLAG] = below(2);
    x[PIPELINE_HAS_PIGGYBACK_TX] = below(2);
    x[PIPELINE_PIGGYBACK_TX] = x[PIPELINE_HAS_PIGGYBACK_TX] || below(16) == 0 ? any_number() : 0;
    x[PIPELINE_HAS_PIGGYBACK_STATE] = below(2);
    x[PIPELINE_PIGGYBACK_STATE] = x[PIPELINE_HAS_PIGGYBACK_STATE] || below(16) == 0 ? below(3) : 0;
}

static size_t damage(uint8_t *t, size_t len)
{
    static const char likely[] = "{}[],:\"0123456789truefalsnPCA- .eE+\\";
    for (uint64_t k = 1 + below(3); k > 0 && len > 1; k--) {
        size_t i = below(len), j = below(len);
        switch (below(8)) {
        case 0: t[i] = (uint8_t)next_word(); break;
        case 1: t[i] = (uint8_t)likely[below(sizeof likely - 1)]; break;
        case 2: t[i] ^= (uint8_t)(1u << below(8)); break;
        case 3: memmove(t + i, t + i + 1, len - i - 1); len--; break;
        case 4:
            if (len < MOST - 1) {
                memmove(t + i + 1, t + i, len - i);
                t[i] = (uint8_t)likely[below(sizeof likely - 1)];
                len++;
            }
            break;
        case 5: len = i; break;
        case 6: { uint8_t c = t[i]; t[i] = t[j]; t[j] = c; break; }
        default:
            if (i < j && len + (j - i) < MOST) {
                memmove(t + j + (j - i), t + j, len - j);
                memcpy(t + j, t + i, j - i);
                len += j - i;
            }
        }
    }
    return len;
}

/* A text: written, damaged, or bytes of any kind. */
static size_t some_text(const Family *f, uint8_t *t)
{
    uint64_t kind = below(16);
    if (kind == 0) {
        size_t len = below(200);
        for (size_t i = 0; i < len; i++)
            t[i] = (uint8_t)next_word();
        return len;
    }
    uint64_t x[PIPELINE_NUMBERS], len = 0;
    uint8_t d[PACKET_DATA];
    do {
        some_numbers(f, x);
        for (size_t i = 0; i < PACKET_DATA; i++)
            d[i] = (uint8_t)next_word();
    } while (f->write(x, f->numbers, d, PACKET_DATA, t, MOST, 0, &len) != 0);
    return kind < 6 ? len : damage(t, len);
}

static uint64_t stated(size_t count)
{
    switch (below(8)) {
    case 0: return count + 1 + below(3);
    case 1: return any_number();
    case 2: return below(count + 1);
    default: return count;
    }
}

static size_t list_size(size_t due)
{
    switch (below(10)) {
    case 0: return below(due);
    case 1: return due + below(5);
    default: return due;
    }
}

/* ---- calls ---- */

static uint64_t accepted[7], refused[7];

static void counted(size_t entry, uint64_t refusal) { *(refusal == 0 ? &accepted[entry] : &refused[entry]) += 1; }

static void a_read(size_t which)
{
    const Family *f = &families[which];
    uint8_t t[MOST];
    size_t len = some_text(f, t), behind = below(3) ? 0 : below(20);
    memset(t + len, 'x', MOST - len < behind ? MOST - len : behind);
    if (len + behind > MOST)
        behind = 0;
    lend(&text, len + behind, t);
    lend(&numbers, 8 * list_size(f->numbers), NULL);
    lend(&data, list_size(PACKET_DATA), NULL);
    uint64_t said = behind ? len : stated(len);
    uint64_t r = f->read(text.at, text.bytes, said, (uint64_t *)numbers.at, numbers.bytes / 8, data.at, data.bytes);
    counted(which, r);
    same(&text, "read: the text is as it was");
    if (r != 0) {
        must(r == 9 || r == 10, "read: refusal 9 or 10");
        same(&numbers, "read: refused, the numbers are as they were");
        same(&data, "read: refused, the data is as it was");
        return;
    }
    must(said <= text.bytes, "read: no text longer than its buffer");
    same_but(&numbers, 0, 8 * f->numbers, "read: numbers behind the packet's");
    same_but(&data, 0, PACKET_DATA, "read: data behind the packet's");
    uint8_t back[MOST];
    uint64_t next = 0;
    must(f->write((uint64_t *)numbers.at, f->numbers, data.at, PACKET_DATA, back, MOST, 0, &next) == 0, "read: what was read can be written");
    must(next == said && memcmp(back, text.at, said) == 0, "read: writing gives the same text");
}

static void a_write(size_t which)
{
    const Family *f = &families[which];
    uint64_t x[PIPELINE_NUMBERS], next = 77;
    some_numbers(f, x);
    size_t count = list_size(f->numbers);
    uint64_t lots[PIPELINE_NUMBERS + 8];
    memset(lots, 0, sizeof lots);
    memcpy(lots, x, sizeof(uint64_t) * f->numbers);
    lend(&numbers, 8 * count, lots);
    lend(&data, list_size(PACKET_DATA), NULL);
    lend(&buf, below(6) ? below(f->longest + 40) : below(MOST), NULL);
    uint64_t at = below(4) ? below(4) : any_number();
    uint64_t r = f->write((uint64_t *)numbers.at, count, data.at, data.bytes, buf.at, buf.bytes, at, &next);
    counted(2 + which, r);
    same(&numbers, "write: the numbers are as they were");
    same(&data, "write: the data is as it was");
    if (r != 0) {
        must(r == 9 || r == 10, "write: refusal 9 or 10");
        must(next == 77, "write: refused, the index is as it was");
        same(&buf, "write: refused, the buffer is as it was");
        return;
    }
    must(at <= next && next <= buf.bytes, "write: within the buffer");
    same_but(&buf, at, next, "write: bytes around the text");
    uint64_t back[PIPELINE_NUMBERS];
    uint8_t d[PACKET_DATA];
    must(f->read(buf.at + at, next - at, next - at, back, f->numbers, d, PACKET_DATA) == 0, "write: what was written can be read");
    must(memcmp(back, x, 8 * f->numbers) == 0, "write: reading gives the same numbers");
    must(x[f->data_len] == 0 || memcmp(d, data.at, x[f->data_len]) == 0, "write: reading gives the same data");
}

static double probability(void)
{
    static const double some[] = {0.0, -0.0, 0.0005, 0.25, 1.0, -1.0, 1e300};
    uint64_t bits = next_word();
    double p;
    memcpy(&p, &bits, sizeof p);
    return below(4) ? some[below(7)] : p;
}

static void a_merge(void)
{
    uint8_t a[MOST], b[MOST];
    size_t alen = below(4) ? some_text(&families[0], a) : 0, blen = some_text(&families[0], b);
    if (below(3) == 0 && alen > 10) {   /* of the same term, most times */
        memcpy(b, a, alen);
        blen = below(2) ? alen : damage(b, alen);
    }
    size_t room = below(3) ? CE_LONGEST : below(200);
    size_t whole = alen + room > MOST ? MOST : alen + room;
    memset(a + alen, 'y', whole - alen);
    lend(&local, whole, a);
    lend(&received, blen, b);
    uint64_t len = below(8) ? alen : stated(whole), was = len, news = 77;
    uint64_t n = below(8) ? 1 + below(64) : any_number(), v = below(8) ? below(n | 1) : any_number();
    uint64_t said = stated(blen);
    uint64_t r = ce_packet_merge(local.at, local.bytes, &len, received.at, received.bytes, said, n, v, probability(), next_word() >> below(64), &news);
    counted(4, r);
    same(&received, "merge: the received text is as it was");
    if (r != 0) {
        must(r == 2 || r == 8 || r == 10, "merge: refusal 2, 8 or 10");
        must((r == 2) == (n < 1 || n > 64), "merge: 2 for its condition alone");
        must(r != 8 || v >= n, "merge: 8 for its condition alone");
        must(news == 77 && len == was, "merge: refused, the numbers are as they were");
        same(&local, "merge: refused, local is as it was");
        return;
    }
    must(n >= 1 && n <= 64 && v < n && was <= whole && said <= blen, "merge: accepted only within its conditions");
    must(news <= 1, "merge: news is 0 or 1");
    if (news == 0) {
        must(len == was, "merge: no news, the length is as it was");
        same(&local, "merge: no news, local is as it was");
        return;
    }
    must(len <= whole, "merge: within the buffer");
    same_but(&local, 0, len, "merge: bytes behind the new text");
    uint64_t back[CE_NUMBERS];
    uint8_t d[PACKET_DATA];
    must(ce_packet_read(local.at, local.bytes, len, back, CE_NUMBERS, d, PACKET_DATA) == 0, "merge: the new text can be read");
}

static void a_proposal(void)
{
    uint64_t term = any_number(), n = below(6) ? 1 + below(64) : any_number(), v = below(6) ? below(n | 1) : any_number(), next = 77;
    lend(&buf, below(3) ? CE_LONGEST : below(500), NULL);
    uint64_t r = ce_packet_propose(term, n, v, probability(), next_word() >> below(64), buf.at, buf.bytes, &next);
    counted(5, r);
    if (r != 0) {
        must(r == 2 || r == 8 || r == 10 || r == 13, "propose: refusal 2, 8, 10 or 13");
        must((r == 2) == (n < 1 || n > 64), "propose: 2 for its condition alone");
        must(r != 13 || term == UINT64_MAX, "propose: 13 for the last term alone");
        must(next == 77, "propose: refused, the number is as it was");
        same(&buf, "propose: refused, the buffer is as it was");
        return;
    }
    must(n >= 1 && n <= 64 && v < n && term != UINT64_MAX && next <= buf.bytes, "propose: accepted only within its conditions");
    same_but(&buf, 0, next, "propose: bytes behind the text");
    uint64_t back[CE_NUMBERS];
    uint8_t d[PACKET_DATA];
    must(ce_packet_read(buf.at, buf.bytes, next, back, CE_NUMBERS, d, PACKET_DATA) == 0, "propose: the text can be read");
    must(back[CE_TERM] == term + 1 && back[CE_BITMAP_LEN] == n, "propose: the next term, an entry for each position");
}

static void a_vote(void)
{
    uint64_t r = ce_vote(any_number(), any_number(), probability(), any_number());
    counted(6, 0);
    must(r <= 1, "vote: 0 or 1");
}

int main(int argc, char **argv)
{
    if (argc != 3)
        return 2;
    seed = state = strtoull(argv[1], NULL, 10);
    uint64_t calls = strtoull(argv[2], NULL, 10);
    Lent *const all[] = {&text, &numbers, &data, &buf, &local, &received};
    for (size_t i = 0; i < sizeof all / sizeof *all; i++)
        open_lent(all[i]);
    for (call = 0; call < calls; call++) {
        switch (call % 8) {
        case 0: a_read(0); break;
        case 1: a_read(1); break;
        case 2: a_write(0); break;
        case 3: a_write(1); break;
        case 4: case 5: a_merge(); break;
        case 6: a_proposal(); break;
        default: a_vote();
        }
    }
    static const char *const names[] = {"ce_packet_read", "pipeline_packet_read", "ce_packet_write", "pipeline_packet_write", "ce_packet_merge",
                                        "ce_packet_propose", "ce_vote"};
    for (size_t i = 0; i < 7; i++)
        printf("%s: %llu accepted, %llu refused\n", names[i], (unsigned long long)accepted[i], (unsigned long long)refused[i]);
    printf("packets: seed %llu, %llu calls (and those that look at the answers), no fault\n", (unsigned long long)seed, (unsigned long long)calls);
    return 0;
}
