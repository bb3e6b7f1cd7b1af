/* Judges a delivery by a rule text: judge MODEL DELIVERY RULES. Its output and status are those of `ocl_check judge --text`. */
#include "ocl_check.h"

#include <stdio.h>
#include <stdlib.h>

struct bytes {
    uint8_t *at;
    size_t length;
};

static struct bytes read_file(const char *path) {
    struct bytes it = {malloc(1), 0};
    FILE *file = fopen(path, "rb");
    if (!file || !it.at) {
        perror(path);
        exit(3);
    }
    size_t room = 1;
    for (size_t got; (got = fread(it.at + it.length, 1, room - it.length, file)) > 0;) {
        it.length += got;
        if (it.length == room) {
            room *= 2;
            it.at = realloc(it.at, room);
            if (!it.at) {
                exit(3);
            }
        }
    }
    if (ferror(file)) {
        perror(path);
        exit(3);
    }
    fclose(file);
    return it;
}

int main(int count, char **words) {
    if (count != 4) {
        fprintf(stderr, "usage: judge MODEL DELIVERY RULES\n");
        return 2;
    }
    struct bytes model = read_file(words[1]), delivery = read_file(words[2]), rules = read_file(words[3]);
    size_t room = 4096, wants;
    uint8_t status, *out;
    for (;;) {
        out = malloc(room);
        if (!out) {
            return 3;
        }
        status = ocl_check_judge(model.at, model.length, delivery.at, delivery.length, rules.at, rules.length, true,
                                 OCL_CHECK_MAX_BUDGET, out, room, &wants);
        if (wants <= room) {
            break;
        }
        free(out);
        room = wants;
    }
    fwrite(out, 1, wants, stdout);
    return fflush(stdout) ? 3 : status;
}
