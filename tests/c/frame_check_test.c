/*
 * Calls the frame check from C, as a load program does, and compares each answer with one worked out here from the
 * rules of the frame (docs/record-structure.md), apart from the library's code and proofs.
 */
#include "ibermarc21.h"

#include <stdio.h>
#include <stdlib.h>
#include <string.h>

enum { FIELD_END = 0x1e, RECORD_END = 0x1d, SUBFIELD = 0x1f };

static unsigned long checked;
static unsigned long wrong;
static unsigned long by_number[23];

static uint64_t refusal(unsigned number, size_t place)
{
    return (uint64_t)number * 100000 + place;
}

static int digit(uint8_t b) { return strchr("0123456789", b) != NULL && b != 0; }
static int letter(uint8_t b) { return strchr("abcdefghijklmnopqrstuvwxyz", b) != NULL && b != 0; }

/* The number in `width` digits, or -1. */
static long figure(const uint8_t *at, int width)
{
    long n = 0;
    while (width-- > 0) {
        if (!digit(*at))
            return -1;
        n = n * 10 + (*at++ - '0');
    }
    return n;
}

/* The first place of the leader that is wrong, or -1. */
static int leader_fault(const uint8_t *r, size_t len)
{
    static const char kind[] = "L....ccccc22B....ccc4...";
    for (int p = 0; p < 24; p++) {
        int good = 1;
        switch (kind[p]) {
        case 'L':
            good = figure(r, 5) == (long)len;
            break;
        case 'c':
            good = r[p] == ' ' || digit(r[p]) || letter(r[p]);
            break;
        case '2':
            good = r[p] == '2';
            break;
        case 'B': {
            long base = figure(r + 12, 5);
            good = base >= 25 && (base - 25) % 12 == 0 && base <= (long)len - 1;
            break;
        }
        case '4':
            good = memcmp(r + 20, "4500", 4) == 0;
            break;
        }
        if (!good)
            return p;
    }
    return -1;
}

/* The first byte of a control field that is wrong, or -1. */
static long control_fault(const uint8_t *f, long size)
{
    for (long i = 0; i < size - 1; i++)
        if (f[i] == RECORD_END || f[i] == FIELD_END || f[i] == SUBFIELD)
            return i;
    return f[size - 1] == FIELD_END ? -1 : size - 1;
}

/* The first byte of a data field that is wrong, or -1: what may stand next, byte by byte. */
static long data_fault(const uint8_t *f, long size)
{
    enum { INDICATOR_1, INDICATOR_2, MARK, CODE, DATA } next = INDICATOR_1;
    for (long i = 0; i < size; i++) {
        int last = i == size - 1;
        uint8_t b = f[i];
        switch (next) {
        case INDICATOR_1:
        case INDICATOR_2:
            if (last || !(b == ' ' || digit(b) || letter(b)))
                return i;
            next = next == INDICATOR_1 ? INDICATOR_2 : MARK;
            break;
        case MARK:
            if (last || b != SUBFIELD)
                return i;
            next = CODE;
            break;
        case CODE:
            if (last || !(digit(b) || letter(b)))
                return i;
            next = DATA;
            break;
        case DATA:
            if (last ? b != FIELD_END : (b == FIELD_END || b == RECORD_END))
                return i;
            if (b == SUBFIELD)
                next = CODE;
            break;
        }
    }
    return -1;
}

/* What the rules say of these bytes. */
static uint64_t expected(const uint8_t *r, size_t len)
{
    if (len < 26 || len > 99999)
        return refusal(18, 0);
    int p = leader_fault(r, len);
    if (p >= 0)
        return refusal(19, (size_t)p);
    long base = figure(r + 12, 5);
    long n = (base - 25) / 12;
    long sum = 0;
    for (long k = 0; k < n; k++) {
        const uint8_t *entry = r + 24 + 12 * k;
        if (figure(entry, 3) < 1 || figure(entry + 3, 4) < 1 || figure(entry + 7, 5) != sum)
            return refusal(20, (size_t)(entry - r));
        sum += figure(entry + 3, 4);
    }
    if (r[24 + 12 * n] != FIELD_END || sum != (long)len - base - 1)
        return refusal(20, (size_t)(24 + 12 * n));
    const uint8_t *field = r + base;
    for (long k = 0; k < n; k++) {
        long tag = figure(r + 24 + 12 * k, 3);
        long size = figure(r + 27 + 12 * k, 4);
        long at = tag <= 9 ? control_fault(field, size) : data_fault(field, size);
        if (at >= 0)
            return refusal(21, (size_t)(field + at - r));
        field += size;
    }
    return r[len - 1] == RECORD_END ? 0 : refusal(22, len - 1);
}

/* Compares the library's answer with `want`. */
static void compare(const char *name, const uint8_t *r, size_t len, uint64_t want)
{
    uint64_t got = ibermarc21_frame_check(r, len);
    checked++;
    by_number[want / 100000]++;
    if (got != want && wrong++ < 20)
        fprintf(stderr, "%s, %zu bytes: answered %llu, expected %llu\n", name, len, (unsigned long long)got,
                (unsigned long long)want);
}

/* The record as it is, cut at every byte, and with every byte changed to every other value. */
static void vary(const char *name, const char *text, size_t len, uint64_t answer)
{
    uint8_t *r = malloc(len);
    if (r == NULL)
        exit(2);
    memcpy(r, text, len);
    if (expected(r, len) != answer) {
        fprintf(stderr, "%s: the rules here give %llu, the known answer is %llu\n", name,
                (unsigned long long)expected(r, len), (unsigned long long)answer);
        wrong++;
    }
    unsigned long before = checked;
    compare(name, r, len, answer);
    for (size_t cut = 0; cut < len; cut++)
        compare(name, r, cut, expected(r, cut));
    for (size_t i = 0; i < len; i++) {
        uint8_t was = r[i];
        for (int b = 0; b < 256; b++) {
            if (b == was)
                continue;
            r[i] = (uint8_t)b;
            compare(name, r, len, expected(r, len));
        }
        r[i] = was;
    }
    printf("%-40s %8lu records\n", name, checked - before);
    free(r);
}

/* A record of 99,999 bytes: ten data fields, nine of them of 9,999 bytes. */
static void longest(void)
{
    enum { LEN = 99999, FIELDS = 10, BASE = 25 + 12 * FIELDS };
    static uint8_t r[LEN + 1];
    char text[64];
    memcpy(r, "99999nz   2200145n  4500", 24);
    long start = 0;
    for (int k = 0; k < FIELDS; k++) {
        long size = k < FIELDS - 1 ? 9999 : LEN - BASE - 1 - start;
        snprintf(text, sizeof text, "%03d%04ld%05ld", 100 + k, size, start);
        memcpy(r + 24 + 12 * k, text, 12);
        uint8_t *f = r + BASE + start;
        memset(f, 'a', (size_t)size);
        memcpy(f, "  \x1f", 3);
        f[size - 1] = FIELD_END;
        start += size;
    }
    r[BASE - 1] = FIELD_END;
    r[LEN - 1] = RECORD_END;
    compare("99,999 bytes", r, LEN, 0);
    compare("100,000 bytes", r, LEN + 1, refusal(18, 0));
    for (size_t i = 0; i < LEN; i += 97) {
        uint8_t was = r[i];
        for (int b = 0x1d; b <= 0x1f; b++) {
            r[i] = (uint8_t)b;
            compare("99,999 bytes, one changed", r, LEN, expected(r, LEN));
        }
        r[i] = was;
    }
}

/* Bytes that are no record. */
static void no_records(void)
{
    static uint8_t r[100001];
    static const uint8_t fill[] = {0x00, 0x1d, 0x1e, 0x1f, ' ', '0', '9', 'a', 0xff};
    static const size_t lengths[] = {0, 1, 24, 25, 26, 46, 9999, 99999, 100000, 100001};
    for (size_t i = 0; i < sizeof fill; i++) {
        memset(r, fill[i], sizeof r);
        for (size_t k = 0; k < sizeof lengths / sizeof *lengths; k++)
            compare("one byte over and over", r, lengths[k], expected(r, lengths[k]));
    }
}

#define RECORD(name, text, answer) vary(name, text, sizeof(text) - 1, answer)

int main(void)
{
    RECORD("A", "00046nz   2200037n  4500185000800000\x1e  \x1fjabc\x1e\x1d", 0);
    RECORD("A with 00047", "00047nz   2200037n  4500185000800000\x1e  \x1fjabc\x1e\x1d", refusal(19, 0));
    RECORD("A with x at byte 39", "00046nz   2200037n  4500185000800000\x1e  xjabc\x1e\x1d", refusal(21, 39));
    RECORD("no field", "00026nz   2200025n  4500\x1e\x1d", 0);
    RECORD("the first 25 bytes of it", "00026nz   2200025n  4500\x1e", refusal(18, 0));
    RECORD("a control field and a data field",
           "00061nz   2200049n  4500001000300000185000800003\x1e"
           "a1\x1e  \x1fjabc\x1e\x1d",
           0);
    RECORD("two entries with one start",
           "00061nz   2200049n  4500001000300000185000800000\x1e"
           "a1\x1e  \x1fjabc\x1e\x1d",
           refusal(20, 36));
    RECORD("empty subfields",
           "00046nz   2200037n  4500185000800000\x1e"
           "01\x1f"
           "a\x1f"
           "9x\x1e\x1d",
           0);
    RECORD("a length past the end", "00046nz   2200037n  4500185999900000\x1e  \x1fjabc\x1e\x1d", refusal(20, 36));
    longest();
    no_records();
    for (unsigned n = 0; n < 23; n++)
        if (by_number[n] > 0)
            printf("answer %2u %40lu records\n", n, by_number[n]);
    printf("%lu records checked, %lu answers wrong\n", checked, wrong);
    return wrong == 0 ? 0 : 1;
}
