/* Finds the frames in a raw capture of the line's bits and writes them as a page file: how a C program uses the library on a tape without records.
 *
 *     tools/build exports
 *     cc -Iinclude examples/capture_to_page.c target/staticlib/libexports.a -o capture_to_page
 *     ./capture_to_page samples/transcript.capture transcript.page
 *
 * The exit status is 0 where the file was written, 1 where no frame was found or the library refused, and 2 where the system refused something.
 */
#include "dacom450.h"

#include <inttypes.h>
#include <stdio.h>
#include <stdlib.h>

/* Says what the system refuses, and ends. */
static void must(int done, const char *name) {
    if (done) return;
    perror(name);
    exit(2);
}

/* Says what the library refuses, and ends. Here the setting is allowed and list and room suffice, so that it does not come to this. */
static void accept(uint64_t refused, const char *name) {
    if (!refused) return;
    fprintf(stderr, "%s: refused %" PRIu64 "\n", name, DACOM_NUMBER(refused));
    exit(1);
}

int main(int argc, char **argv) {
    if (argc != 3) {
        fprintf(stderr, "usage: %s CAPTURE OUT\n", argv[0]);
        return 2;
    }
    FILE *in = fopen(argv[1], "rb");
    must(in != NULL, argv[1]);
    must(fseek(in, 0, SEEK_END) == 0, argv[1]);
    long length = ftell(in);
    must(length >= 0 && fseek(in, 0, SEEK_SET) == 0, argv[1]);
    size_t n = (size_t)length;
    uint8_t *capture = malloc(n + 1);
    must(capture != NULL, argv[1]);
    must(fread(capture, 1, n, in) == n, argv[1]);
    fclose(in);

    /* A list that always suffices, so that the capture is gone through once. */
    size_t list_n = 2 * (8 * n / 585);
    uint64_t *list = malloc((list_n + 1) * sizeof *list);
    must(list != NULL, argv[1]);

    /* The sample was written by the scope paper's setting. Frames off real tapes want the same with order 1. */
    struct dacom_check check = {.generator = 425, .start = 0, .first_bit = 0, .compare = 1, .order = 0};
    struct dacom_frames found;
    accept(dacom_find_frames(capture, n, &check, list, list_n, &found), argv[1]);
    if (found.frames == 0) {
        fprintf(stderr, "%s: no frame is found\n", argv[1]);
        free(list);
        free(capture);
        return 1;
    }

    size_t out_n = 76 * found.frames + 2;
    uint8_t *file = malloc(out_n);
    must(file != NULL, argv[2]);
    struct dacom_records records;
    accept(dacom_records_of_capture(capture, n, list, 2 * found.frames, file, out_n, &records), argv[1]);

    FILE *out = fopen(argv[2], "wb");
    must(out != NULL, argv[2]);
    must(fwrite(file, 1, records.octets, out) == records.octets, argv[2]);
    must(fclose(out) == 0, argv[2]);
    printf("%" PRIu64 " frames out of %zu octets\n", found.frames, n);
    free(file);
    free(list);
    free(capture);
    return 0;
}
