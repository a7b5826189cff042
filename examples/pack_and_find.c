/* Packs the example's bundle and finds its unit again, from C. Once `make library` has written the library, in this folder:
 *
 *     cc -I ../host/product/include pack_and_find.c ../target/staticlib/libbarthovin.a -o pack_and_find
 *     ./pack_and_find one-unit.bundle
 */

#include "barthovin.h"
#include <stdio.h>
#include <stdlib.h>

/* Reads a file of at most `most` bytes; the length, or 0 where that fails. */
static size_t read_file(const char *name, uint8_t *bytes, size_t most) {
    FILE *file = fopen(name, "rb");
    size_t length = 0;
    if (file != NULL) {
        length = fread(bytes, 1, most, file);
        fclose(file);
    }
    return length;
}

/* Packs with memory enough; the caller frees the package, which is null where the bundle is refused. */
static uint8_t *package_of(const uint8_t *bundle, size_t length, struct barthovin_packed *answer) {
    size_t words = length / 4 * BARTHOVIN_WORK_FOR_A_WORD;
    uint32_t *work = malloc(4 * words + 4);
    uint8_t nothing = 0;
    uint8_t *package = NULL;
    if (work != NULL) {
        /* Without output the answer is the length that it needs, or why there is no package. */
        *answer = barthovin_pack(bundle, length, work, words, &nothing, 0);
        if (answer->code == BARTHOVIN_OUTPUT_TOO_SHORT && (package = malloc(answer->length)) != NULL) {
            *answer = barthovin_pack(bundle, length, work, words, package, answer->length);
        }
    }
    free(work);
    return package;
}

int main(int count, char **arguments) {
    static uint8_t bundle[BARTHOVIN_LONGEST_BUNDLE];
    struct barthovin_packed answer = {0, 0, 0, 0};
    struct barthovin_found found;
    uint8_t *package;
    size_t length = count == 2 ? read_file(arguments[1], bundle, sizeof bundle) : 0;
    size_t i;
    if (length == 0) {
        fprintf(stderr, "usage: pack_and_find BUNDLE\n");
        return 2;
    }
    package = package_of(bundle, length, &answer);
    if (package == NULL) {
        fprintf(stderr, "refused %u\n", (unsigned)answer.code);
        return 1;
    }
    printf("a package of %zu bytes\n", answer.length);
    found = barthovin_lookup(package, answer.length, BARTHOVIN_VERSION_5_INDEX, BARTHOVIN_COMPILATION_UNITS, 1, BARTHOVIN_INFO);
    printf("code %u: %zu bytes at %zu, after %zu look(s)\n", (unsigned)found.code, found.length, found.start, found.looks);
    for (i = 0; i < found.length; i++) {
        printf("%02x", package[found.start + i]);
    }
    printf("\n");
    free(package);
    return found.code == BARTHOVIN_DONE ? 0 : 1;
}
