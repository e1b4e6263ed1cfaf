/* merge LEFT RIGHT JOINS: merges two query files into one and writes it to standard output. The join list has a line `left right` for each
 * pair of columns. Build: cc merge.c $(pkg-config --cflags --libs gandeuch) -o merge */
#include <stdio.h>
#include <stdlib.h>

#include <gandeuch.h>

enum { TEXTS = 3, ROOM = GANDEUCH_MERGE_ROOM(GANDEUCH_TEXT, GANDEUCH_TEXT, 0, 0) };

/* The numbers that a merge can be refused by. */
static const char *reason(uint8_t number) {
    switch (number) {
    case GANDEUCH_MALFORMED: return "a text is malformed";
    case GANDEUCH_OVER_BOUND: return "a text is over a bound";
    case GANDEUCH_OUTSIDE: return "a position is outside its projection";
    case GANDEUCH_NOT_PROJECT: return "a root isn't project";
    case GANDEUCH_NOT_MERGEABLE: return "the heads differ or can't be merged";
    case GANDEUCH_TOO_SHORT: return "the answer is too long";
    case GANDEUCH_REPEATED: return "the join list has a position twice on one side";
    default: return "by a number that has no name here";
    }
}

/* The bytes of a file, at most one more than a text may have, so that a longer one is refused. */
static size_t read_text(const char *path, uint8_t *text, size_t room) {
    FILE *file = fopen(path, "rb");
    if (!file) {
        perror(path);
        exit(66);
    }
    size_t size = fread(text, 1, room, file);
    if (ferror(file)) {
        perror(path);
        exit(66);
    }
    fclose(file);
    return size;
}

int main(int argc, char **argv) {
    static uint8_t texts[TEXTS][GANDEUCH_TEXT + 1], merged[ROOM];
    size_t sizes[TEXTS], size;
    if (argc != 1 + TEXTS) {
        fprintf(stderr, "usage: merge LEFT RIGHT JOINS\n");
        return 64;
    }
    for (int i = 0; i < TEXTS; i++)
        sizes[i] = read_text(argv[1 + i], texts[i], sizeof texts[i]);
    const uint8_t *none = (const uint8_t *)"";
    uint8_t number = gandeuch_merge_queries(texts[0], sizes[0], texts[1], sizes[1], texts[2], sizes[2], none, 0, none, 0, merged, ROOM, &size);
    if (number != GANDEUCH_WRITTEN) {
        fprintf(stderr, "merge: refused, %s\n", reason(number));
        return number;
    }
    return fwrite(merged, 1, size, stdout) == size && fflush(stdout) == 0 ? 0 : 74;
}
