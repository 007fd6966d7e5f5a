/* Assembles the source that is its first argument, or a small one of its own, and prints the words; or prints the refusal, and fails. */
#include <inttypes.h>
#include <stdio.h>
#include <string.h>

#include "zkasm.h"

int main(int argc, char **argv) {
    const char *source = argc > 1 ? argv[1] : "start: addi a0, zero, -1\nsw a0, 8(sp)\njal ra, 0x1FFFFE\necall\n";
    zkasm_label table[16];
    uint8_t image[1024];
    zkasm_assembled answer;

    uint32_t refusal = zkasm_assemble((const uint8_t *)source, strlen(source), table, 16, image, sizeof image, &answer);
    if (refusal != ZKASM_ACCEPTED) {
        printf("refused %" PRIu32 " line %" PRIu64 "\n", refusal, answer.line);
        return 1;
    }
    for (size_t i = 0; i < answer.words; i++) {
        const uint8_t *word = image + 32 + 4 * i;
        printf("0x%02X%02X%02X%02X\n", word[3], word[2], word[1], word[0]);
    }
    return 0;
}
