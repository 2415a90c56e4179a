/* Certifies a claimed maximum flow: certify INSTANCE SOLUTION
 *
 * Prints the verdict or the refusal, and then the text that shows it: a cut, or a better solution. */
#include "dimacs.h"
#include <stdio.h>
#include <stdlib.h>

typedef struct {
    uint8_t *bytes;
    size_t length;
} Text;

static Text read_text(const char *name) {
    FILE *file = fopen(name, "rb");
    if (!file) {
        perror(name);
        exit(3);
    }
    Text text = {NULL, 0};
    size_t count = 0;
    do {
        text.length += count;
        text.bytes = realloc(text.bytes, text.length + 65536);
        count = text.bytes ? fread(text.bytes + text.length, 1, 65536, file) : 0;
    } while (count > 0);
    fclose(file);
    return text;
}

int main(int count, char **words) {
    if (count != 3) {
        return DIMACS_MISUSED;
    }
    Text instance = read_text(words[1]), solution = read_text(words[2]);
    uint8_t line[100];
    size_t line_length, length, room = instance.length + solution.length;
    uint8_t *shown = NULL;
    uint32_t status;
    for (;;) {
        shown = realloc(shown, room);
        if (!shown) {
            return DIMACS_NO_MEMORY;
        }
        status = dimacs_certify(DIMACS_MAX, instance.bytes, instance.length, solution.bytes, solution.length, line,
                                sizeof line, &line_length, shown, room, &length);
        if (length <= room) {
            break;
        }
        room = length;
    }
    fwrite(line, 1, line_length, stdout);
    fwrite(shown, 1, length, stdout);
    free(shown);
    free(solution.bytes);
    free(instance.bytes);
    return (int)status;
}
