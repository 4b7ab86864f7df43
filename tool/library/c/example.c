/* Writes what a .dta file says: its line, and for each variable its name and its first cell with the label. With a second name, rewrites it there as edition 117, MSF. */
#include "dta.h"

#include <stdio.h>
#include <stdlib.h>
#include <string.h>

static uint8_t *file;
static size_t length;

static int read_file(const char *name) {
    FILE *from = fopen(name, "rb");
    size_t room = 1 << 16;
    if (!from)
        return 0;
    file = malloc(room);
    while (file) {
        length += fread(file + length, 1, room - length, from);
        if (length < room)
            break;
        room *= 2;
        uint8_t *more = realloc(file, room);
        if (!more)
            free(file);
        file = more;
    }
    int read = file && !ferror(from);
    fclose(from);
    return read;
}

static void write_part(uint64_t place, uint64_t bytes) {
    fwrite(file + place, 1, bytes, stdout);
}

static void write_cell(const uint64_t *answer, const uint64_t *words) {
    uint32_t bits = (uint32_t)answer[1];
    float single;
    double number;
    if (words[0] == DTA_PART) {
        write_part(words[1], words[2]);
        return;
    }
    switch (answer[0]) {
    case DTA_WHOLE:
        printf("%s%llu", answer[2] ? "-" : "", (unsigned long long)answer[1]);
        break;
    case DTA_FLOAT:
        memcpy(&single, &bits, sizeof single);
        printf("%.9g", single);
        break;
    case DTA_DOUBLE:
        memcpy(&number, &answer[1], sizeof number);
        printf("%.17g", number);
        break;
    case DTA_LETTER:
        printf(answer[1] ? ".%c" : ".", (int)('a' + answer[1] - 1));
        break;
    case DTA_TEXT:
        write_part(answer[1], answer[2]);
        break;
    default:
        printf("(%llu)", (unsigned long long)answer[0]);
    }
}

static int rewrite(const char *name) {
    uint64_t written = 0;
    size_t room = length + length / 4 + 2000000;
    uint8_t *out = malloc(room);
    FILE *to = out ? fopen(name, "wb") : NULL;
    int done = to && dta_rewrite(file, length, 117, 1, out, room, &written, 1) == 0 && fwrite(out, 1, written, to) == written;
    if (to)
        done = fclose(to) == 0 && done;
    free(out);
    return done;
}

int main(int count, char **names) {
    uint64_t layout[DTA_LAYOUT], words[DTA_ANSWER], stored = 0;
    uint8_t name[32];
    if (count < 2 || !read_file(names[1])) {
        fprintf(stderr, "a file is due that can be read\n");
        return 2;
    }
    uint8_t verdict = dta_check(file, length, layout, DTA_LAYOUT);
    if (verdict) {
        printf("refused %u\n", verdict);
        return 1;
    }
    printf("%llu %s %llu %llu %zu\n", (unsigned long long)layout[0], layout[1] == 1 ? "MSF" : "LSF", (unsigned long long)layout[2], (unsigned long long)layout[3], length);
    /* The first observation, whole; refused with 16 where there is none. */
    size_t room = layout[2] * DTA_ANSWER;
    uint64_t *cells = malloc((room + 1) * sizeof *cells);
    if (!cells)
        return 2;
    dta_cells_along(file, length, layout, DTA_LAYOUT, 1, 1, cells, room, &stored, 1);
    for (uint64_t i = 1; i <= layout[2]; i++) {
        fwrite(name, 1, dta_text(file, length, layout, DTA_LAYOUT, DTA_NAME, i, 0, file, 0, name, sizeof name), stdout);
        if (i <= stored) {
            dta_ask(file, length, layout, DTA_LAYOUT, DTA_WORDS, i, 1, words, DTA_ANSWER);
            printf(" ");
            write_cell(cells + (i - 1) * DTA_ANSWER, words);
        }
        printf("\n");
    }
    free(cells);
    return count < 3 || rewrite(names[2]) ? 0 : 2;
}
