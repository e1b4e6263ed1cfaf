/* Makes each call of gandeuch.h on texts whose answer needs nearly all of the room that the header says, with just that room lent.
 * Writes a line for each; exits with 1 if one is refused, or if a smaller whole factor would have been enough
 * (namespaces: if 31 would). */
#include <stdio.h>
#include <string.h>

#include "gandeuch.h"

/* The numbers of `longest-rooms` in crates/room/proofs/Worked.antt: the header's sums are those that are proved. */
#define LONGEST GANDEUCH_TEXT
_Static_assert(GANDEUCH_SCOPE_ROOM(LONGEST) == 16391, "scope");
_Static_assert(GANDEUCH_RENAME_ROOM(LONGEST) == 720910, "rename");
_Static_assert(GANDEUCH_MERGE_ROOM(LONGEST, LONGEST, LONGEST, LONGEST) == 131156, "merge");
_Static_assert(GANDEUCH_PUSH_ROOM(LONGEST, LONGEST) == 65578, "push");
_Static_assert(GANDEUCH_NEGATE_ROOM(LONGEST) == 16422, "negate");
_Static_assert(GANDEUCH_WITHOUT_ROOM(LONGEST, LONGEST) == 98388, "without");
_Static_assert(GANDEUCH_BINDINGS_ROOM(LONGEST, LONGEST) == 1081358, "bindings");
_Static_assert(GANDEUCH_FILTERS_ROOM(LONGEST, LONGEST) == 409614, "filters");
_Static_assert(GANDEUCH_NAMESPACES_ROOM(LONGEST) == 540686, "namespaces");
_Static_assert(GANDEUCH_LIST_ROOM == 256, "list");

/* A text, and a byte more for the zero that ends it while it is made. */
struct text {
    uint8_t bytes[16384 + 1];
    size_t size;
};

static struct text text(const char *start) {
    struct text t = {.size = strlen(start)};
    memcpy(t.bytes, start, t.size + 1);
    return t;
}

/* A piece so many times, behind what is there. */
static void add(struct text *t, const char *piece, int times) {
    size_t size = strlen(piece);
    for (int i = 0; i < times; i++, t->size += size)
        memcpy(t->bytes + t->size, piece, size + 1);
}

/* Values without rows, under this start: a thousand names, and then `?a` as often as it fits. */
static struct text names(const char *start) {
    enum { OTHERS = 1000, LAST = 4000 };
    struct text t = text(start);
    char piece[32];
    sprintf(piece, "values\t%d\t0\ncols", OTHERS + LAST);
    add(&t, piece, 1);
    for (int i = 0; i < OTHERS; i++) {
        sprintf(piece, "\t?%c%c", 'A' + i / 40, '0' + i % 40);
        add(&t, piece, 1);
    }
    add(&t, "\t?a", LAST);
    add(&t, "\n", 1);
    return t;
}

static uint8_t out[GANDEUCH_BINDINGS_ROOM(LONGEST, LONGEST)];
static const uint8_t none[1];
static int failures = 0;

/* The answer took more than a smaller whole factor gives, `less`, and fitted the room. */
static void held(const char *label, uint8_t number, size_t size, size_t room, size_t less) {
    int fine = number == GANDEUCH_WRITTEN && size <= room && size > less;
    printf("%s\t%d\t%zu of %zu\t%s\n", label, number, size, room, fine ? "ok" : "not so");
    failures += !fine;
}

static void single(void) {
    struct text tree = text(""), query = text("query\task\t-\t-\n");
    size_t size, room = GANDEUCH_SCOPE_ROOM(tree.size);
    uint8_t number = gandeuch_scope(tree.bytes, tree.size, out, room, &size);
    held("scope", number, size, room, room - 1);
    room = GANDEUCH_NEGATE_ROOM(query.size);
    number = gandeuch_negate(query.bytes, query.size, out, room, &size);
    held("negate", number, size, room, room - 1);
}

static void renames(void) {
    struct text tree = text("values\t5000\t0\ncols"), mapping = text("?a\t?");
    add(&tree, "\t?a", 5000);
    add(&tree, "\n", 1);
    add(&mapping, "c", 128);
    add(&mapping, "\n", 1);
    size_t size, room = GANDEUCH_RENAME_ROOM(tree.size);
    uint8_t number = gandeuch_rename(tree.bytes, tree.size, mapping.bytes, mapping.size, out, room, &size);
    held("rename", number, size, room, 43 * tree.size);
}

static void merges(void) {
    struct text left = names("project\n"), right = text("project\nbgp\t0\n");
    size_t size, room = GANDEUCH_MERGE_ROOM(left.size, right.size, 0, 0);
    uint8_t number = gandeuch_merge_patterns(left.bytes, left.size, right.bytes, right.size, none, 0, none, 0, none, 0, out, room, &size);
    held("merge_patterns", number, size, room, 2 * (left.size + right.size));
    struct text query = names("query\task\t-\t-\nproject\n"), other = text("query\task\t-\t-\nproject\nbgp\t0\n");
    room = GANDEUCH_MERGE_ROOM(query.size, other.size, 0, 0);
    number = gandeuch_merge_queries(query.bytes, query.size, other.bytes, other.size, none, 0, none, 0, none, 0, out, room, &size);
    held("merge_queries", number, size, room, 2 * (query.size + other.size));
    struct text pair = text("0\t0\n"), one = names("query\task\t-\t-\nproject\t?z\n"), two = text("query\task\t-\t-\nproject\t?a\nbgp\t0\n");
    room = GANDEUCH_WITHOUT_ROOM(two.size, one.size);
    number = gandeuch_without(two.bytes, two.size, one.bytes, one.size, pair.bytes, pair.size, out, room, &size);
    held("without", number, size, room, 2 * (two.size + one.size));
    room = GANDEUCH_PUSH_ROOM(query.size, 0);
    number = gandeuch_push_constants(query.bytes, query.size, none, 0, out, room, &size);
    held("push_constants", number, size, room, 2 * query.size);
}

static void placings(void) {
    struct text tree = text("project\t?"), sets = text("set\t8000\t0\nat"), filters = text("ref\t0\n");
    add(&tree, "c", 128);
    add(&tree, "\nbgp\t0\n", 1);
    add(&sets, "\t0", 8000);
    add(&sets, "\n", 1);
    size_t size, room = GANDEUCH_BINDINGS_ROOM(tree.size, sets.size);
    uint8_t number = gandeuch_bindings(tree.bytes, tree.size, sets.bytes, sets.size, out, room, &size);
    held("bindings", number, size, room, tree.size + 64 * sets.size);
    room = GANDEUCH_FILTERS_ROOM(tree.size, filters.size);
    uint16_t list[GANDEUCH_LIST_ROOM];
    size_t many;
    number = gandeuch_filters(tree.bytes, tree.size, filters.bytes, filters.size, out, room, &size, list, GANDEUCH_LIST_ROOM, &many);
    held("filters", number, size, room, tree.size + 23 * filters.size);
}

static void conversions(void) {
    enum { ROWS = 54, CELLS = 73 };
    struct text tree = text("values\t73\t54\ncols"), table = text("a\t");
    add(&tree, "\t?x", CELLS);
    for (int row = 0; row < ROWS; row++) {
        add(&tree, "\nrow", 1);
        add(&tree, "\t<a>", CELLS);
    }
    add(&tree, "\n", 1);
    add(&table, "c", 128);
    add(&table, "\n", 1);
    size_t size, room = GANDEUCH_NAMESPACES_ROOM(tree.size);
    uint8_t number = gandeuch_namespaces(tree.bytes, tree.size, table.bytes, table.size, out, room, &size);
    held("namespaces", number, size, room, 31 * tree.size);
}

int main(void) {
    single();
    renames();
    merges();
    placings();
    conversions();
    return failures != 0;
}
