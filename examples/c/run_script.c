/*
 * Prints the transcript of a script, as the program zt does.
 *
 *     run_script FILE
 *
 * The exit status is that of the run; 3 where the file can't be read, 4 where the transcript can't be written, and 64 where
 * there isn't one word.
 */
#include <stdio.h>
#include <stdlib.h>

#include "zt_liveliness.h"

/* More than a script may have, so that one that is too long is seen to be. */
#define MOST_BYTES (1048576 + 1)

int main(int count, char **words) {
    if (count != 2) {
        fprintf(stderr, "usage: run_script FILE\n");
        return 64;
    }
    FILE *file = fopen(words[1], "rb");
    if (file == NULL) {
        perror(words[1]);
        return 3;
    }
    uint8_t *script = malloc(MOST_BYTES);
    if (script == NULL) {
        fclose(file);
        return ZL_OUT_OF_MEMORY;
    }
    size_t length = fread(script, 1, MOST_BYTES, file);
    if (ferror(file)) {
        perror(words[1]);
        fclose(file);
        free(script);
        return 3;
    }
    fclose(file);

    /* With no room the first call says how much is needed. */
    size_t room = 0;
    uint8_t *out = NULL;
    size_t written = 0;
    uint32_t status = zl_run(script, length, out, room, &written);
    while (status == ZL_SHORT_BUFFER) {
        free(out);
        room = written;
        out = malloc(room);
        status = out == NULL ? ZL_OUT_OF_MEMORY : zl_run(script, length, out, room, &written);
    }
    free(script);
    /* After ZL_OUT_OF_MEMORY the text may be longer than the buffer. */
    size_t kept = written < room ? written : room;
    if (out != NULL && (fwrite(out, 1, kept, stdout) != kept || fflush(stdout) != 0)) {
        status = 4;
    }
    free(out);
    return (int)status;
}
