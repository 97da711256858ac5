/* Prints what `desk admit` prints of a task set, tells on standard error what it tells there, and ends with its status.
 *
 *     (cd crates/libdesk && rt lib)
 *     cc -std=c11 -Iinclude -o admit examples/c/admit.c crates/libdesk/out/liblibdesk.a $(dirname $(rt doc))/c/liblibc_c.a
 *     ./admit examples/three-tasks.toml
 *
 * The second archive has the three functions that take memory by malloc; it comes with the toolchain.
 */
#include "desk.h"
#include <stdio.h>
#include <stdlib.h>

enum { LONGEST = 1 << 20 };

/* A line says which input was refused, and why, or what is odd in the set. */
static void tell(const uint8_t *set, size_t length)
{
    uint8_t status;
    size_t needed = desk_tell(DESK_ADMIT, set, length, NULL, 0, 0, NULL, 0, &status);
    uint8_t *told = malloc(needed + 1);
    if (told && desk_tell(DESK_ADMIT, set, length, NULL, 0, 0, told, needed, &status) == needed) {
        fwrite(told, 1, needed, stderr);
    }
    free(told);
}

int main(int count, char **words)
{
    static uint8_t set[LONGEST];
    FILE *file = count == 2 ? fopen(words[1], "rb") : NULL;
    if (!file) {
        perror("usage: admit SET");
        return 2;
    }
    size_t length = fread(set, 1, LONGEST, file);
    if (ferror(file) || !feof(file)) {
        fputs("the set was not read whole\n", stderr);
        return 7;
    }
    fclose(file);

    uint8_t status;
    size_t needed = desk_admit(set, length, NULL, 0, &status);
    uint8_t *answer = malloc(needed);
    if (!answer || desk_admit(set, length, answer, needed, &status) != needed) {
        return DESK_OUT_OF_MEMORY;
    }
    fwrite(answer, 1, needed, stdout);
    free(answer);
    tell(set, length);
    return status;
}
