/* Reads a page file and writes its page as a portable bitmap: how a C program uses the library.
 *
 *     tools/build exports
 *     cc -Iinclude examples/page_to_pbm.c target/staticlib/libexports.a -o page_to_pbm
 *     ./page_to_pbm samples/transcript-4800.page page.pbm
 *
 * With the library installed by ./install, it is built by
 *
 *     cc examples/page_to_pbm.c $(pkg-config --cflags --libs dacom450) -o page_to_pbm
 *
 * The exit status is 0 where the page was written, 1 where the file was refused, and 2 where the system refused something.
 */
#include "dacom450.h"

#include <inttypes.h>
#include <stdio.h>
#include <stdlib.h>

enum { MOST_BITMAP = 4 + 216 * 6000 };

static uint8_t bitmap[MOST_BITMAP];

/* The octets of a file of any length, which the caller frees, or null with the system's words said. */
static uint8_t *octets_of(const char *name, size_t *n) {
    FILE *in = fopen(name, "rb");
    if (!in) {
        perror(name);
        return NULL;
    }
    uint8_t *octets = NULL;
    size_t room = 0, got;
    *n = 0;
    do {
        if (*n == room) {
            /* Doubled each time; a size that has no number is handed in as the largest one, which is never to be had. */
            size_t more = room == 0 ? 1 << 16 : room <= SIZE_MAX / 2 ? 2 * room : SIZE_MAX;
            uint8_t *grown = realloc(octets, more);
            if (!grown) {
                perror(name);
                free(octets);
                fclose(in);
                return NULL;
            }
            octets = grown;
            room = more;
        }
        got = fread(octets + *n, 1, room - *n, in);
        *n += got;
    } while (got > 0);
    /* Nothing more came: the file is at its end, or reading failed. */
    if (ferror(in)) {
        perror(name);
        free(octets);
        fclose(in);
        return NULL;
    }
    fclose(in);
    return octets;
}

/* Writes the page as a portable bitmap; 0 with the system's words said where that fails. */
static int put(const char *name, uint64_t lines) {
    FILE *out = fopen(name, "wb");
    if (!out) {
        perror(name);
        return 0;
    }
    int written = fprintf(out, "P4\n1726 %" PRIu64 "\n", lines) > 0 && fwrite(bitmap + 4, 216, lines, out) == lines;
    if (!written) perror(name);
    /* What is still held back is written by fclose, and so may fail there. */
    if (fclose(out) && written) {
        perror(name);
        written = 0;
    }
    return written;
}

int main(int argc, char **argv) {
    if (argc != 3) {
        fprintf(stderr, "usage: %s FILE OUT.pbm\n", argv[0]);
        return 2;
    }
    size_t n;
    uint8_t *file = octets_of(argv[1], &n);
    if (!file) return 2;

    /* Checks are not compared here, so files of either order are read. Frames off real tapes want generator 425, start 0, first bit 0,
     * compare 1, order 1: a damaged frame is then refused by 5. Files written by the scope paper's setting want the same with order 0. */
    struct dacom_check check = {.generator = 425, .start = 0, .first_bit = 0, .compare = 0, .order = 0};
    struct dacom_page page;
    uint64_t refused = dacom_read_page(file, n, &check, bitmap, sizeof bitmap, &page);
    free(file);
    if (refused) {
        fprintf(stderr, "%s: refused %" PRIu64 " at %" PRIu64, argv[1], DACOM_NUMBER(refused), DACOM_RECORD(refused));
        if (DACOM_NUMBER(refused) == 11) fprintf(stderr, " bit %" PRIu64, DACOM_BIT(refused));
        fputc('\n', stderr);
        return 1;
    }

    if (!put(argv[2], page.lines)) return 2;
    printf("%" PRIu64 " lines out of %" PRIu64 " octets, %" PRIu64 " data bits, %" PRIu64 " columns\n", page.lines, page.octets, page.bits,
           page.columns);
    return 0;
}
