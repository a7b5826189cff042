/* Joins files to one bundle, in place, and packs it, from C: each file may be a bundle, a package or an ELF file. Once `make library` has written the
 * library, in this folder:
 *
 *     cc -I ../host/product/include join_and_pack.c ../target/staticlib/libbarthovin.a -o join_and_pack
 *     ./join_and_pack real/files/gcc-5-main.dwo real/files/gcc-5-race.dwo
 */

#include "barthovin.h"
#include <stdio.h>
#include <stdlib.h>

#define LONGEST_FILE 4194304

static uint8_t file[LONGEST_FILE];
static uint8_t bundle[BARTHOVIN_LONGEST_BUNDLE];
static uint32_t work[BARTHOVIN_LONGEST_BUNDLE / 4 * BARTHOVIN_WORK_FOR_A_WORD];
static uint8_t package[2 * BARTHOVIN_LONGEST_BUNDLE];

/* Joins one more file to the bundle of `used` bytes. It is lent as much memory behind the bundle as the file is long, and more where it says so. */
static struct barthovin_written join_one(const char *name, size_t used) {
    struct barthovin_written answer = {BARTHOVIN_OUTPUT_TOO_SHORT, 0};
    FILE *opened = fopen(name, "rb");
    size_t length = opened == NULL ? 0 : fread(file, 1, sizeof file, opened);
    answer.length = used + length;
    if (opened != NULL) {
        fclose(opened);
    }
    while (answer.code == BARTHOVIN_OUTPUT_TOO_SHORT && answer.length <= sizeof bundle) {
        answer = barthovin_join(bundle, answer.length, used, file, length);
    }
    return answer;
}

int main(int count, char **arguments) {
    struct barthovin_packed packed;
    size_t used = 0;
    int i;
    for (i = 1; i < count; i++) {
        struct barthovin_written answer = join_one(arguments[i], used);
        if (answer.code != BARTHOVIN_DONE) {
            /* The bundle of the files before it is as it was. */
            fprintf(stderr, "%s: refused %u\n", arguments[i], (unsigned)answer.code);
            return 1;
        }
        used = answer.length;
    }
    packed = barthovin_pack(bundle, used, work, used / 4 * BARTHOVIN_WORK_FOR_A_WORD, package, sizeof package);
    if (packed.code != BARTHOVIN_DONE) {
        fprintf(stderr, "refused %u\n", (unsigned)packed.code);
        return 1;
    }
    printf("a bundle of %zu bytes, a package of %zu bytes\n", used, packed.length);
    return 0;
}
