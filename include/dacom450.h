/* Dacom 450 facsimile pages: the C interface of the proved library.
 *
 * Octets, words and lists are lent as a pointer and a length in elements, a check setting and an answer as a pointer to a struct. `check` and
 * `answer` must not be null, and what a call writes, `out` or `list` and `answer`, must not overlap anything else that it is lent: reading clears
 * `out` and then looks at the file again. A null pointer with length 0 is taken for no octets, words or numbers, as any other pointer with length 0
 * is: as input it is refused by 1, 17 or 22, and by 8 where bits are counted, while a data part of no bits is read, a capture of no octets has no
 * frames, and a list of none gives the end record alone; as output it is refused by 16 where something is to be written. Each call was tried so. A
 * null pointer with another length is not allowed. Every other parameter is a uint64_t, so that any value can be handed in and judged.
 *
 * A list is entries end to end, each some numbers in the order named; its length counts the numbers and not the entries. In a list that is handed
 * in, the numbers behind the last whole entry are not read.
 *
 * A call returns 0, or a refusal: DACOM_NUMBER of what it returns is the refusal's number (below), DACOM_RECORD the index of the record that
 * it falls at, which is 0 where there are no records, and DACOM_BIT with 11 the length, in bits, of the data part's longest beginning that has a
 * reading, 0 to 511, and with every other number 0. On a refusal nothing that is lent changes, the answer neither. On success the answer is set
 * whole, and of the output only the elements that are written change.
 *
 *    1  a record's length or command octet is missing, or the rest of a known record is; of a file the first 2^46 octets are read, so that
 *       1 is given too where its end record stands behind them, and DACOM_RECORD is below 2^40
 *    2  length and command are none of the three pairs
 *    3  a record is out of place
 *    4  a frame's sync differs
 *    5  a frame's check differs
 *    6  settings are not allowed: start bit 1, speed and detail, or both paper bits
 *    7  a sequence number is wrong
 *    8  the count is above 512, or above the bits lent for one data part
 *    9  a field length is below 2, or above 7
 *   10  a header's X, state or field length disagrees; one data part: the state is above 3, or X above 1725
 *   11  the data part has no reading
 *   12  an image frame follows one that ended on a closing word
 *   13  the page ends with an open column
 *   14  the columns are 0 or no multiple of 1726
 *   15  more than 6000 lines
 *   16  the output is too short
 *   17  the bitmap is under 4 octets, its width is not 1726, or its lines are odd, 0 or above 6000
 *   18  the bitmap's length is not 4 + 216 * lines, or a trailing bit is set
 *   19  the last column cannot be told: it is mixed while the one before it is solid
 *   20  the check setting is not allowed; writing and finding frames: or does not compare; writing: or the rate is none of the three
 *   22  the run words break their rule
 *   25  a list reaches outside what is lent with it: an entry of a list of frames has a bit above 7, or fewer than 585 bits of the capture from there on
 */
#ifndef DACOM450_H
#define DACOM450_H

#include <stddef.h>
#include <stdint.h>

#ifdef __cplusplus
extern "C" {
#endif

/* A call returns number + 2^8 * bit + 2^24 * record. */
#define DACOM_NUMBER(r) ((r) & 0xFF)
#define DACOM_BIT(r) ((r) >> 8 & 0xFFFF)
#define DACOM_RECORD(r) ((r) >> 24)

/* The bits taken, the columns laid, the end (the state, or 4 where a last single 1 out of WW or BB leaves its column open and
 * uncounted), and the black and the white field length at the end. */
struct dacom_part {
    uint64_t bits, columns, end, black, white;
};

/* Reads one data part: the first `count` bits of sent octets (the high bit of an octet first), from a state (its two pels as a number,
 * top pel first: WW 0, WB 1, BW 2, BB 3), the black and the white field length, and X, the index in its row pair of the last column laid
 * before, 0 to 1725. Writes a column an octet, by its two pels.
 * Refusals, in this order: 8, 9, 10, 11, 16. No data part lays more than 9271 columns.
 *
 * X matters since a run that ends at the right edge, at column 1725, has its closing word tested for a shorter field, however many words it
 * has. A page's first part is read from 1725. The next part's X is (x + columns) modulo 1726, and (x + columns + 1) modulo 1726 where this one
 * ends open. A part that ends on a closing word is not told apart from one that ends in the same state behind a move or an all-ones word; so
 * a caller cannot judge 12, that no image frame follows such a part: dacom_read_page does. */
uint64_t dacom_read_part(const uint8_t *octets, size_t octets_n, uint64_t count, uint64_t state, uint64_t black, uint64_t white,
                         uint64_t x, uint8_t *out, size_t out_n, struct dacom_part *answer);

/* A page is 1726 pels wide and has an even number of lines, 2 to 6000. It has two forms.
 *
 * Bitmap: pels per line and lines as two octets each, low octet first (1726 is 190, 6), then 216 octets a line, the leftmost pel the
 * high bit, black 1, with two trailing 0 bits.
 *
 * Run words: a white run is its size, a black run its size below zero. In a line the colours alternate, the sizes total at most 1726, and
 * trailing white is left out; an all-white line is 1. A 0 ends the line, and one more 0 the page. A page has at most 1727 * lines + 1 words.
 *
 * The words of a bitmap read back give the bitmap, and words that are accepted, written again from their bitmap, are the same words. */

/* The check setting: the generator's twelve low coefficients (an odd number below 4096), the register's start (below 4096), the first bit
 * of a frame that it takes (0 or 24), whether checks are compared (0 or 1), and in which order the twelve bits of the check field stand (0 low
 * bit first, 1 high bit first). Any other number is refused by 20, also where checks are not compared.
 *
 * Low bit first is what the scope paper says. High bit first is what frames off real tapes carry: generator 425, start 0, first bit 0, order 1
 * fits all five frames in the appendix of RFC 798, and no setting of order 0 does. A file that was written by one order and is compared by the
 * other is refused by 5. */
struct dacom_check {
    uint64_t generator, start, first_bit, compare, order;
};

/* The octets of the file that were used, lines, settings (speed 8, detail 4, 14 inch 2, 5.5 inch 1), the data bits, the columns. */
struct dacom_page {
    uint64_t octets, lines, settings, bits, columns;
};

/* Reads a page file and writes its page as a bitmap.
 * Refusals: 20; then by record 1 to 5, of a set-up record 7, 6, of a data record 7, 8, 9, 12, 10, 11; at the end record 13, 14, 15, 16. A bitmap of
 * 6000 lines has 1296004 octets. Octets behind the end record are not read, nor are any behind the first 2^46. */
uint64_t dacom_read_page(const uint8_t *file, size_t file_n, const struct dacom_check *check, uint8_t *out, size_t out_n,
                         struct dacom_page *answer);

/* The octets written. */
struct dacom_file {
    uint64_t octets;
};

/* Writes the page of a bitmap as a page file. Settings: speed 8, detail 4, 14 inch 2, 5.5 inch 1; speed and detail, and both papers, exclude each other. Rate: 2400,
 * 4800 or 9600 bits a second. The check setting is as for reading, and `compare` must be 1.
 * Refusals, in this order: 20, 17, 18, 6, 19, 16. A room of 551 * lines + 230 octets always suffices. dacom_read_page under the same check setting gives
 * back the bitmap and the settings. */
uint64_t dacom_write_page(const uint8_t *bitmap, size_t bitmap_n, uint64_t settings, uint64_t rate, const struct dacom_check *check,
                          uint8_t *out, size_t out_n, struct dacom_file *answer);

/* The words written, the last 0 among them. */
struct dacom_words {
    uint64_t words;
};

/* Writes the run words of a bitmap. Refusals, in this order: 17, 18, 16. */
uint64_t dacom_words_of_bitmap(const uint8_t *bitmap, size_t bitmap_n, int16_t *out, size_t out_n, struct dacom_words *answer);

/* The octets written, and the words used, the last 0 among them. */
struct dacom_bitmap {
    uint64_t octets, words;
};

/* Writes the bitmap of run words. Words behind the 0 that ends the page are not read. Refusals, in this order: 22, 17 (the number of
 * lines is not allowed), 16 (the output has less than 4 + 216 * lines octets). */
uint64_t dacom_bitmap_of_words(const int16_t *words, size_t words_n, uint8_t *out, size_t out_n, struct dacom_bitmap *answer);

/* A raw capture is the line's bits as octets in sent order, the high bit of an octet first, with no records: frames at any bit, and anything else
 * between them. A frame is 585 bits, of which the first 24 are the sync, 62 79 D8 hex. dacom_find_frames lists where frames start, and
 * dacom_records_of_capture makes of the capture and that list a page file, for dacom_read_page. */

/* The frames found. */
struct dacom_frames {
    uint64_t frames;
};

/* Looks for frames in a raw capture. Where 585 bits are left, the first 24 of them are the sync and the check agrees, a frame is taken, and the search
 * goes on behind its 585 bits; else it goes on one bit further. Lists each frame by two numbers, the octet and the bit of it (0 the high one) where
 * it starts; so the frames stand in order and no two overlap. `compare` must be 1. Frames off real tapes want order 1. A check that is the same from
 * either end, about one in 64, agrees by both orders, so few frames where many are expected may come of the wrong order.
 * Refusals, in this order: 20, 16. 2 * (8 * octets_n / 585) numbers always suffice. With a list so long the capture is gone through once, with a
 * shorter one twice. */
uint64_t dacom_find_frames(const uint8_t *octets, size_t octets_n, const struct dacom_check *check, uint64_t *list, size_t list_n,
                           struct dacom_frames *answer);

/* The octets written. */
struct dacom_records {
    uint64_t octets;
};

/* Writes the frames of a list, as dacom_find_frames makes it, as a page file: each frame a record, a set-up record where the 35 bits behind its
 * sequence are 00101 and thirty ones, else a data record; then the end record. Sync and check are not judged again; the entries need not ascend, and
 * their frames may overlap. A set-up frame with another header becomes a data record, which reading the file judges. The seven bits behind a frame's
 * 585, which fill its record, are 0 as sent, whatever the capture has there.
 * Refusals, in this order: 25, all entries judged, 16. The file has 76 octets for each entry and 2 for the end. */
uint64_t dacom_records_of_capture(const uint8_t *octets, size_t octets_n, const uint64_t *list, size_t list_n, uint8_t *out, size_t out_n,
                                  struct dacom_records *answer);

#ifdef __cplusplus
}
#endif

#endif
