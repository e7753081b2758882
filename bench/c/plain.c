/* The same algorithm as the proved calls, written in C for speed and unproved: the yardstick of the benchmark.
 *
 * Reading goes over the file twice. The first pass judges every record, and notes nothing; the second lays the columns. Both walk a data part step
 * by step and note an entry a step: four times its columns, and its state's pels. The register takes an octet at a time by a table, a
 * run word comes out of two octets at once, runs are laid and found by whole octets. Writing goes over the bitmap twice as well: the
 * first pass counts the frames, for the room, and the second writes them.
 *
 * The search for frames in a raw capture is not the proved one, which goes bit by bit, but as one would write it in C: a window of 64 bits is compared
 * with the sync at 40 places at once, and only where the sync stands the frame is moved to the first bit of an octet and checked.
 *
 * Numbers and their order are those of include/dacom450.h. */
#include "dacom450.h"

#include <stdbool.h>
#include <string.h>

enum { WW, WB, BW, BB, OPEN, CLOSED };

typedef struct { unsigned generator, start, first; bool compare, high_first; } Check;
typedef struct { unsigned sequence, count, x, black, white, state; } Header;
typedef struct { size_t bits, columns; unsigned end, black, white; } Image;

static uint64_t refused(unsigned number, size_t record) { return number + ((uint64_t)record << 24); }

static uint8_t reversed(uint8_t x) {
    x = (uint8_t)((x & 0xF0) >> 4 | (x & 0x0F) << 4);
    x = (uint8_t)((x & 0xCC) >> 2 | (x & 0x33) << 2);
    return (uint8_t)((x & 0xAA) >> 1 | (x & 0x55) << 1);
}

static uint8_t REVERSED[256];

static void make_reversed(void) {
    for (unsigned i = 0; i < 256; i++) REVERSED[i] = reversed((uint8_t)i);
}

static uint8_t turn(uint8_t x) { return (uint8_t)~REVERSED[x]; }

/* Sixteen bits from octet i on; a frame in hand has an octet more than it needs. */
static unsigned two(const uint8_t *s, size_t i) { return (unsigned)s[i] << 8 | s[i + 1]; }

static unsigned bit(const uint8_t *s, size_t at) { return s[at / 8] >> (7 - at % 8) & 1; }

/* A field of up to 8 bits, low bit first. */
static unsigned word(const uint8_t *s, size_t at, unsigned n) {
    unsigned high = two(s, at / 8) << (at % 8) & 0xFFFF;
    return REVERSED[high >> 8] & ((1u << n) - 1);
}

static unsigned field(const uint8_t *s, size_t at, unsigned n) {
    return n <= 8 ? word(s, at, n) : word(s, at, 8) | word(s, at + 8, n - 8) << 8;
}

/* ---- the check */

static unsigned step(unsigned g, unsigned r, unsigned b) { return (r << 1 & 4095) ^ (((r >> 11) ^ b) & 1 ? g : 0); }

static void make_table(uint16_t t[256], unsigned g) {
    for (unsigned i = 0; i < 256; i++) {
        unsigned r = 0;
        for (int k = 7; k >= 0; k--) r = step(g, r, i >> k & 1);
        t[i] = (uint16_t)r;
    }
}

static unsigned check_of(const uint16_t t[256], Check c, const uint8_t *s) {
    unsigned r = c.start;
    for (size_t i = c.first / 8; i < 71; i++) r = t[(r >> 4 ^ s[i]) & 255] ^ (r << 8 & 0xF00);
    for (size_t i = 568; i < 573; i++) r = step(c.generator, r, bit(s, i));
    return r;
}

/* The check as its field stands in a frame, taken low bit first. */
static unsigned sent_check(const uint16_t t[256], Check c, const uint8_t *s) {
    unsigned r = check_of(t, c, s);
    return c.high_first ? (unsigned)(REVERSED[r & 255] << 4 | REVERSED[r >> 8] >> 4) : r;
}

static bool allowed(const struct dacom_check *c) {
    return c->compare < 2 && c->order < 2 && c->generator % 2 == 1 && c->generator < 4096 && c->start < 4096
        && (c->first_bit == 0 || c->first_bit == 24);
}

/* An allowed setting. */
static Check check_by(const struct dacom_check *c) {
    return (Check){(unsigned)c->generator, (unsigned)c->start, (unsigned)c->first_bit, c->compare == 1, c->order == 1};
}

/* ---- one data part */

static const unsigned LIMIT[8] = {0, 0, 0, 4, 4, 8, 16, 32};

/* Walks a data part from X and notes its steps; false where it has no reading. */
static bool steps(const uint8_t *s, Header h, size_t x, uint16_t *entries, size_t *noted, Image *after) {
    size_t at = 61, end = 61 + h.count, n = 0, columns = 0;
    unsigned state = h.state, size[2] = {h.white, h.black};
    bool later = false;
    for (;;) {
        if (at == end) { after->end = state; break; }
        if (state == WB || state == BW) {
            unsigned own = state == WB, left = (unsigned)(end - at);
            unsigned four = two(s, at / 8) >> (12 - at % 8) & 15;
            if (own) four ^= 15;
            if (four & 8) return false;
            if (left == 1 || !(four & 4)) { at += 1; }
            else if (left == 2) return false;
            else if (left == 3) { if (four & 2) return false; state ^= 3; at += 3; }
            else if ((four & 3) == 1) { state ^= 3; at += 3; }
            else if ((four & 3) == 2) return false;
            else { state = (four & 1) ^ own ? BB : WW; at += 4; later = false; }
            entries[n++] = (uint16_t)(4 + state);
            columns += 1;
            continue;
        }
        unsigned black = state == BB, k = size[black];
        if (end - at < k) return false;
        unsigned v = word(s, at, k);
        at += k;
        entries[n++] = (uint16_t)(4 * v + state);
        columns += v;
        if (v == (1u << k) - 1) { if (k < 7) size[black] = k + 1; later = true; continue; }
        if (v < LIMIT[k] && (!later || (x + columns) % 1726 == 1725)) size[black] = k - 1;
        if (at == end) { after->end = CLOSED; break; }
        if (!bit(s, at)) { at += 1; state ^= 3; later = false; }
        else if (end - at == 1) { after->end = OPEN; break; }
        else { at += 1; state = bit(s, at) ? WB : BW; }
        entries[n++] = (uint16_t)(4 + state);
        columns += 1;
    }
    after->bits = h.count;
    after->columns = columns;
    after->white = size[0];
    after->black = size[1];
    *noted = n;
    return true;
}

/* ---- reading */

static Header header(const uint8_t *s) {
    return (Header){.sequence = s[3] >> 6, .count = field(s, 31, 10), .x = field(s, 41, 12), .black = word(s, 53, 3), .white = word(s, 56, 3),
                    .state = bit(s, 59) * 2 + bit(s, 60)};
}

static void sent(const uint8_t *file, size_t k, uint8_t s[75]) {
    const uint8_t *frame = file + 76 * k + 2;
    for (size_t i = 0; i < 74; i++) s[i] = turn(frame[i]);
    s[74] = 0;
}

/* The image after a frame, or the number of a refusal. */
static unsigned chain(Image *im, Header h, const uint8_t *s, uint16_t *entries, size_t *noted) {
    if (h.count > 512) return 8;
    if (h.black < 2 || h.white < 2) return 9;
    if (im->end == CLOSED) return 12;
    unsigned open = im->end == OPEN;
    if (open ? h.state == WW || h.state == BB : h.state != im->end) return 10;
    if (h.black != im->black || h.white != im->white) return 10;
    size_t x = (im->columns + open + 1725) % 1726;
    if (im->bits && h.x != x) return 10;
    Image after;
    if (!steps(s, h, x, entries, noted, &after)) return 11;
    im->bits += after.bits;
    im->columns += open + after.columns;
    im->end = after.end;
    im->black = after.black;
    im->white = after.white;
    return 0;
}

static const Image BLANK = {0, 0, WW, 7, 7};

static void blacken(uint8_t *out, size_t a, size_t b) {
    size_t i = a / 8, j = b / 8;
    unsigned from = 255u >> (a % 8), to = 255u >> (b % 8);
    if (i == j) {
        if (a < b) out[i] |= (uint8_t)(from - to);
        return;
    }
    out[i] |= (uint8_t)from;
    memset(out + i + 1, 255, j - i - 1);
    if (b % 8) out[j] |= (uint8_t)(255 - to);
}

static void lay(uint8_t *out, size_t at, size_t n, unsigned pels) {
    if (pels == 0) return;
    for (size_t end = at + n; at < end;) {
        size_t pair = at / 1726, x = at % 1726, m = end - at < 1726 - x ? end - at : 1726 - x;
        size_t top = 32 + 3456 * pair + x;
        if (pels & 2) blacken(out, top, top + m);
        if (pels & 1) blacken(out, top + 1728, top + 1728 + m);
        at += m;
    }
}

uint64_t plain_read_page(const uint8_t *file, size_t n, const struct dacom_check *check, uint8_t *out, size_t room, struct dacom_page *answer) {
    if (!allowed(check)) return refused(20, 0);
    make_reversed();
    Check c = check_by(check);
    uint16_t t[256], entries[512];
    make_table(t, c.generator);
    enum { OPENING, SET_UPS, DATAS, CLOSING } stage = OPENING;
    Image im = BLANK;
    unsigned sequence = 0, settings = 0;
    size_t k = 0, noted;
    uint8_t s[75];
    for (;; k++) {
        size_t at = 76 * k;
        if (n < at + 2) return refused(1, k);
        unsigned pair = two(file, at);
        if (pair != 76 * 256 + 56 && pair != 76 * 256 + 57 && pair != 2 * 256 + 58) return refused(2, k);
        if (pair == 2 * 256 + 58) {
            if (stage != DATAS && stage != CLOSING) return refused(3, k);
            break;
        }
        if (n - at < 76) return refused(1, k);
        bool data = pair == 76 * 256 + 57;
        if (data && (stage == OPENING || stage == CLOSING)) return refused(3, k);
        sent(file, k, s);
        if (s[0] != 0x62 || s[1] != 0x79 || s[2] != 0xD8) return refused(4, k);
        if (c.compare && sent_check(t, c, s) != field(s, 573, 12)) return refused(5, k);
        if (!data) {
            unsigned five = two(s, 7) >> 6 & 31;
            if (s[3] >> 6) return refused(7, k);
            if (five > 11 || five % 4 == 3) return refused(6, k);
            if (stage == OPENING) settings = five;
            stage = stage < DATAS ? SET_UPS : CLOSING;
            continue;
        }
        Header h = header(s);
        if (h.sequence != sequence) return refused(7, k);
        if (h.count) {
            unsigned number = chain(&im, h, s, entries, &noted);
            if (number) return refused(number, k);
        }
        stage = DATAS;
        sequence = (sequence + 1) % 4;
    }
    if (im.end == OPEN) return refused(13, k);
    if (im.columns == 0 || im.columns % 1726) return refused(14, k);
    size_t lines = 2 * (im.columns / 1726), size = 4 + 216 * lines;
    if (lines > 6000) return refused(15, k);
    if (size > room) return refused(16, k);
    memset(out, 0, size);
    out[0] = 190;
    out[1] = 6;
    out[2] = (uint8_t)(lines % 256);
    out[3] = (uint8_t)(lines / 256);
    im = BLANK;
    for (size_t i = 0; i < k; i++) {
        if (file[76 * i + 1] != 57) continue;
        sent(file, i, s);
        Header h = header(s);
        if (h.count == 0) continue;
        size_t at = im.columns;
        if (im.end == OPEN) lay(out, at++, 1, h.state);
        chain(&im, h, s, entries, &noted);
        for (size_t e = 0; e < noted; e++) {
            lay(out, at, entries[e] / 4, entries[e] % 4);
            at += entries[e] / 4;
        }
    }
    *answer = (struct dacom_page){76 * k + 2, lines, settings, im.bits, im.columns};
    return 0;
}

/* ---- writing */

static unsigned column(const uint8_t *bitmap, size_t at) {
    size_t top = 32 + 3456 * (at / 1726) + at % 1726;
    return bit(bitmap, top) * 2 + bit(bitmap, top + 1728);
}

/* The first column from x up to `to` of a row pair that is not black (or white). */
static size_t along(const uint8_t *top, size_t x, size_t to, unsigned black) {
    unsigned flip = black ? 255 : 0;
    while (x < to) {
        size_t j = x / 8;
        unsigned differs = ((top[j] ^ flip) | (top[216 + j] ^ flip)) & (255u >> (x % 8));
        if (differs) {
            size_t r = 8 * j + (size_t)__builtin_clz(differs) - 24;
            return r < to ? r : to;
        }
        x = 8 * j + 8;
    }
    return to;
}

static size_t run_ahead(const uint8_t *bitmap, size_t columns, size_t at, size_t most, unsigned black) {
    size_t end = at + most < columns ? at + most : columns, i = at;
    while (i < end) {
        size_t x = i % 1726, to = x + (end - i) < 1726 ? x + (end - i) : 1726;
        size_t y = along(bitmap + 4 + 432 * (i / 1726), x, to, black);
        i += y - x;
        if (y < to) break;
    }
    return i - at;
}

/* Puts a field, low bit first, into octets that are 0 there. */
static void put(uint8_t *s, size_t at, unsigned n, unsigned v) {
    unsigned high = (unsigned)REVERSED[v & 255] << 8 | REVERSED[v >> 8 & 255];
    unsigned long bits = (unsigned long)(high >> (16 - n) << (16 - n)) << 8 >> (at % 8);
    s[at / 8] |= (uint8_t)(bits >> 16);
    s[at / 8 + 1] |= (uint8_t)(bits >> 8);
    if (at % 8 + n > 16) s[at / 8 + 2] |= (uint8_t)bits;
}

typedef struct { size_t before; unsigned state, size[2]; bool later, over; } Head;

/* Out of a mixed state, to each state: the bits and their number, low bit first. */
static const uint8_t ARC[4][4][2] = {
    [WB] = {[WW] = {4, 1}, [WB] = {1, 1}, [BW] = {3, 5}, [BB] = {4, 13}},
    [BW] = {[WW] = {4, 2}, [WB] = {3, 2}, [BW] = {1, 0}, [BB] = {4, 14}},
};

/* Fills a frame from where it starts; answers its bits. */
static size_t fill(const uint8_t *bitmap, size_t columns, Head *head, size_t most, uint8_t data[66]) {
    size_t bits = 0, at = head->before;
    unsigned state = head->state;
    head->later = false;
    while (!head->over && bits <= 500 && at - head->before <= most) {
        if (state == WB || state == BW) {
            if (at == columns) { head->over = true; break; }
            unsigned c = column(bitmap, at);
            put(data, bits, ARC[state][c][0], ARC[state][c][1]);
            bits += ARC[state][c][0];
            at += 1;
            state = c;
            head->later = false;
            continue;
        }
        unsigned black = state == BB, n = head->size[black], full = (1u << n) - 1;
        unsigned v = (unsigned)run_ahead(bitmap, columns, at, full, black);
        at += v;
        if (v == full) {
            put(data, bits, n, v);
            bits += n;
            if (n < 7) head->size[black] = n + 1;
            head->later = true;
            continue;
        }
        if (at == columns) { put(data, bits, n, v); bits += n; head->over = true; break; }
        unsigned c = column(bitmap, at);
        put(data, bits, n + 1, v + (c == WB || c == BW ? full + 1 : 0));
        bits += n + 1;
        if (v < LIMIT[n] && (!head->later || at % 1726 == 0)) head->size[black] = n - 1;
        at += 1;
        state = c;
        head->later = false;
    }
    head->before = at;
    head->state = state;
    return bits;
}

static const Head FIRST = {0, WW, {7, 7}, false, false};

static void close_frame(const uint16_t t[256], Check c, uint8_t *s, uint8_t *out) {
    put(s, 573, 12, sent_check(t, c, s));
    for (size_t i = 0; i < 74; i++) out[i] = turn(s[i]);
}

static void put_sync(uint8_t *s) {
    memset(s, 0, 77);
    s[0] = 0x62;
    s[1] = 0x79;
    s[2] = 0xD8;
}

static void put_data(const uint16_t t[256], Check c, size_t i, Header h, const uint8_t *data, uint8_t *out) {
    uint8_t s[77];
    put_sync(s);
    s[3] = (uint8_t)(h.sequence << 6 | 0x20);
    put(s, 31, 10, h.count);
    put(s, 41, 12, h.x);
    put(s, 53, 3, h.black);
    put(s, 56, 3, h.white);
    s[7] |= (uint8_t)(h.state >> 1 << 4 | (h.state & 1) << 3);
    for (size_t k = 0; k < 64; k++) {
        s[7 + k] |= data[k] >> 5;
        s[8 + k] = (uint8_t)(data[k] << 3);
    }
    out[76 * i + 76] = 76;
    out[76 * i + 77] = 57;
    close_frame(t, c, s, out + 76 * i + 78);
}

uint64_t plain_write_page(const uint8_t *bitmap, size_t n, uint64_t settings, uint64_t rate, const struct dacom_check *check, uint8_t *out,
                          size_t room, struct dacom_file *answer) {
    size_t most = rate == 2400 ? 9600 : rate == 4800 ? 4800 : rate == 9600 ? 2400 : 0;
    if (!allowed(check) || check->compare != 1 || most == 0) return refused(20, 0);
    if (n < 4 || bitmap[0] + 256 * bitmap[1] != 1726) return refused(17, 0);
    size_t lines = bitmap[2] + 256u * bitmap[3];
    if (lines == 0 || lines % 2 || lines > 6000) return refused(17, 0);
    if (n != 4 + 216 * lines) return refused(18, 0);
    for (size_t i = 0; i < lines; i++) if (bitmap[219 + 216 * i] % 4) return refused(18, 0);
    if (settings > 11 || settings % 4 == 3) return refused(6, 0);
    size_t columns = 863 * lines, frames = 0;
    unsigned before = column(bitmap, columns - 2), last = column(bitmap, columns - 1);
    if ((before == WW || before == BB) && (last == WB || last == BW)) return refused(19, 0);
    make_reversed();
    Head head = FIRST;
    uint8_t data[66];
    while (!head.over) {
        memset(data, 0, sizeof data);
        frames += fill(bitmap, columns, &head, most, data) > 0;
    }
    size_t size = 76 * (2 + frames) + 2;
    if (size > room) return refused(16, 0);
    Check c = check_by(check);
    uint16_t t[256];
    make_table(t, c.generator);
    uint8_t s[77];
    put_sync(s);
    s[3] = 0x05 << 1 | 1;
    memset(s + 4, 255, 3);
    s[7] = (uint8_t)(0xF8 | settings >> 2);
    s[8] = (uint8_t)(settings << 6 | 0x20);
    for (size_t i = 93; i < 573; i += 2) s[i / 8] |= (uint8_t)(128 >> i % 8);
    out[0] = 76;
    out[1] = 56;
    close_frame(t, c, s, out + 2);
    memset(data, 0, sizeof data);
    put_data(t, c, 0, (Header){0, 0, 1725, 7, 7, WW}, data, out);
    head = FIRST;
    size_t i = 1;
    while (!head.over) {
        Header h = {.sequence = i % 4, .x = (unsigned)((head.before + 1725) % 1726), .black = head.size[1], .white = head.size[0], .state = head.state};
        memset(data, 0, sizeof data);
        h.count = (unsigned)fill(bitmap, columns, &head, most, data);
        if (h.count) put_data(t, c, i++, h, data, out);
    }
    out[76 * i + 76] = 2;
    out[76 * i + 77] = 58;
    *answer = (struct dacom_file){size};
    return 0;
}

/* ---- raw captures */

enum { SYNC_BITS = 0x6279D8, FRAME_BITS = 585 };

/* At which of the first 40 bits of eight octets a sync starts: the high bit of the answer for the first. Where none starts with the sync's first
 * twelve bits, as mostly, the others are not looked at. */
static uint64_t syncs(const uint8_t *s) {
    uint64_t w = 0, found = ~(uint64_t)0 << 24;
    for (unsigned i = 0; i < 8; i++) w = w << 8 | s[i];
    for (unsigned k = 0; k < 12; k++) found &= SYNC_BITS >> (23 - k) & 1 ? w << k : ~(w << k);
    if (found == 0) return 0;
    for (unsigned k = 12; k < 24; k++) found &= SYNC_BITS >> (23 - k) & 1 ? w << k : ~(w << k);
    return found;
}

/* Whether the check of the frame at a bit of the first octet agrees. Wherever it starts in that octet, its bits are in 74 octets. */
static bool right(const uint16_t t[256], Check c, const uint8_t *octets, unsigned at) {
    uint8_t s[76];
    memcpy(s, octets, 74);
    s[74] = s[75] = 0;
    if (at) for (size_t i = 0; i < 74; i++) s[i] = (uint8_t)(two(s, i) >> (8 - at));
    return sent_check(t, c, s) == field(s, 573, 12);
}

/* The number of frames; where there is a list, they are put there. */
static size_t search(const uint16_t t[256], Check c, const uint8_t *octets, size_t n, uint64_t *list) {
    size_t found = 0, octet = 0;
    unsigned at = 0;
    while (octet + 74 <= n) {
        uint64_t left = syncs(octets + octet) & ~(uint64_t)0 >> at;
        if (left == 0) { octet += 5; at = 0; continue; }
        at = (unsigned)__builtin_clzll(left);
        octet += at / 8;
        at %= 8;
        if (octet + 74 > n) break;
        if (!right(t, c, octets + octet, at)) { octet += (at + 1) / 8; at = (at + 1) % 8; continue; }
        if (list) {
            list[2 * found] = octet;
            list[2 * found + 1] = at;
        }
        found += 1;
        octet += (at + FRAME_BITS) / 8;
        at = (at + FRAME_BITS) % 8;
    }
    return found;
}

uint64_t plain_find_frames(const uint8_t *octets, size_t n, const struct dacom_check *check, uint64_t *list, size_t list_n,
                           struct dacom_frames *answer) {
    if (!allowed(check) || check->compare != 1) return refused(20, 0);
    make_reversed();
    Check c = check_by(check);
    uint16_t t[256];
    make_table(t, c.generator);
    size_t found;
    if (list_n / 2 >= 8 * (n / FRAME_BITS) + 8 * (n % FRAME_BITS) / FRAME_BITS) {
        found = search(t, c, octets, n, list);
    } else {
        found = search(t, c, octets, n, NULL);
        if (found > list_n / 2) return refused(16, 0);
        search(t, c, octets, n, list);
    }
    *answer = (struct dacom_frames){found};
    return 0;
}
