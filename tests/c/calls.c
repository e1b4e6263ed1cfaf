/* Makes every call of gandeuch.h from C on a few texts and holds number, length and every byte of the buffer, and of the bytes
 * around it, against what is expected. Writes a line for each case; exits with 1 if one differs. */
#include <stdio.h>
#include <stdlib.h>
#include <string.h>

#include "gandeuch.h"

enum { AROUND = 64, ROOM = 1024, BUFFER = AROUND + ROOM + AROUND, LONGEST = 16384, ENTRIES = 256, TABLE_LINES = 64, TEXTS = 5, MADE = 15 };

#define TREE "project\t?a\t?b\nminus\nbgp\t1\nt\t?a\t<p>\t?b\nservice\t?s\t0\nbgp\t1\nt\t?b\t<q>\t?c\n"
#define SCOPE "in\t?a\t?b\nhid\t?a\t?b\t?c\n"
#define SWAP "?a\t?b\n?b\t?a\n?s\t?t\n"
#define RENAMED "project\t?b\t?a\nminus\nbgp\t1\nt\t?b\t<p>\t?a\nservice\t?s\t0\nbgp\t1\nt\t?a\t<q>\t?c\n"

#define LEFT "project\t?event\t?relay\nbgp\t1\nt\t?event\t<by>\t?relay\n"
#define RIGHT "project\t?r\t?bay\nbgp\t1\nt\t?r\t<in>\t?bay\n"
#define JOIN "1\t0\n"
#define MERGED "project\t?l0\t?j0\t?r1\njoin\nbgp\t1\nt\t?l0\t<by>\t?j0\nbgp\t1\nt\t?j0\t<in>\t?r1\n"
#define BOUND "project\t?l0\njoin\njoin\nbgp\t1\nt\t?l0\t<by>\t?j0\nvalues\t1\t1\ncols\t?j0\nrow\t<k>\n" \
              "join\nbgp\t1\nt\t?j0\t<in>\t?r1\nvalues\t1\t1\ncols\t?r1\nrow\t\"b\"\n"
#define WITHOUT "project\t?l0\t?j0\nminus\nbgp\t1\nt\t?l0\t<by>\t?j0\nbgp\t1\nt\t?j0\t<in>\t?r1\n"
#define DISTINCT "distinct\n" LEFT
#define BAD "bgp\t1\n"
#define OLD_NAMES "graph\t<a:g>\nbgp\t1\nt\t?s\t<b:p>\t\"1\"^^<a:int>\n"
#define NEW_NAMES "graph\t<c:g>\nbgp\t1\nt\t?s\t<dd:p>\t\"1\"^^<a:int>\n"
#define EMPTY "project\nbgp\t0\n"
#define JOINED "project\njoin\nbgp\t0\nbgp\t0\n"
#define EMPTY_LEFT "project\t?r0\t?r1\njoin\nbgp\t0\nbgp\t1\nt\t?r0\t<in>\t?r1\n"
#define EMPTY_RIGHT "project\t?l0\t?l1\njoin\nbgp\t1\nt\t?l0\t<in>\t?l1\nbgp\t0\n"

#define SELECT "query\tselect\t-\t-\n"
#define ASK "query\task\t-\t-\n"
#define CONSTRUCT "query\tconstruct\t-\t-\n"
#define PUSHED "project\t?v0\njoin\nbgp\t1\nt\t?v0\t<by>\t?v1\nvalues\t1\t1\ncols\t?v1\nrow\t<k>\n"
#define NEGATED "distinct\nproject\t?event\t?relay\nfilter\nbgp\t0\nnot\nexists\nbgp\t1\nt\t?event\t<by>\t?relay\n"

#define SETS "set\t1\t1\nat\t1\nrow\tIri\tk\t-\n"
#define WITH_SETS "distinct\nproject\t?event\t?relay\njoin\nbgp\t1\nt\t?event\t<by>\t?relay\nvalues\t1\t1\ncols\t?relay\nrow\t<k>\n"
#define FILTER "bin\tUnequals\nref\t1\nleaf\tIri\tk\t-\n"
#define WITH_FILTER "distinct\nproject\t?event\t?relay\nfilter\nbgp\t1\nt\t?event\t<by>\t?relay\nnot\neq\nterm\t?relay\nterm\t<k>\n"
#define BELOW_JOIN "join\nbgp\t0\nbgp\t0\n"

struct text {
    const uint8_t *bytes;
    size_t size;
};

/* A call on its texts, in the order of its parameters. */
typedef uint8_t call(const struct text *texts, uint8_t *out, size_t out_size, size_t *size);

#define GIVEN(i) texts[i].bytes, texts[i].size

static uint8_t scope(const struct text *texts, uint8_t *out, size_t out_size, size_t *size) {
    return gandeuch_scope(GIVEN(0), out, out_size, size);
}

static uint8_t rename_tree(const struct text *texts, uint8_t *out, size_t out_size, size_t *size) {
    return gandeuch_rename(GIVEN(0), GIVEN(1), out, out_size, size);
}

static uint8_t merge_patterns(const struct text *texts, uint8_t *out, size_t out_size, size_t *size) {
    return gandeuch_merge_patterns(GIVEN(0), GIVEN(1), GIVEN(2), GIVEN(3), GIVEN(4), out, out_size, size);
}

static uint8_t merge_queries(const struct text *texts, uint8_t *out, size_t out_size, size_t *size) {
    return gandeuch_merge_queries(GIVEN(0), GIVEN(1), GIVEN(2), GIVEN(3), GIVEN(4), out, out_size, size);
}

static uint8_t without(const struct text *texts, uint8_t *out, size_t out_size, size_t *size) {
    return gandeuch_without(GIVEN(0), GIVEN(1), GIVEN(2), out, out_size, size);
}

static uint8_t push_constants(const struct text *texts, uint8_t *out, size_t out_size, size_t *size) {
    return gandeuch_push_constants(GIVEN(0), GIVEN(1), out, out_size, size);
}

static uint8_t negate(const struct text *texts, uint8_t *out, size_t out_size, size_t *size) {
    return gandeuch_negate(GIVEN(0), out, out_size, size);
}

static uint8_t bindings(const struct text *texts, uint8_t *out, size_t out_size, size_t *size) {
    return gandeuch_bindings(GIVEN(0), GIVEN(1), out, out_size, size);
}

static uint8_t namespaces(const struct text *texts, uint8_t *out, size_t out_size, size_t *size) {
    return gandeuch_namespaces(GIVEN(0), GIVEN(1), out, out_size, size);
}

/* The list that is lent to filters, with entries around it, how many of it are lent, and how many numbers were written. */
static uint16_t list[AROUND + ENTRIES + AROUND];
static size_t lent = ENTRIES, many;

static uint8_t filters(const struct text *texts, uint8_t *out, size_t out_size, size_t *size) {
    many = 12345;
    return gandeuch_filters(GIVEN(0), GIVEN(1), out, out_size, size, list + AROUND, lent, &many);
}

static int failures = 0;

/* A text of a start, and of pieces with the numbers from 0 on in the place of %d. */
static const char *repeated(const char *start, const char *piece, int times, const char *end) {
    static char memory[MADE][2 * LONGEST];
    static int used = 0;
    char *bytes = memory[used++];
    int size = sprintf(bytes, "%s", start);
    for (int i = 0; i < times; i++)
        size += sprintf(bytes + size, piece, i);
    sprintf(bytes + size, "%s", end);
    return bytes;
}

/* A byte that stands at a place before the call. */
static uint8_t before(size_t place) {
    return (uint8_t)(place * 37 + 11);
}

/* What is wrong after a call, or a null pointer. */
static const char *fault(const uint8_t *buffer, uint8_t got, size_t size, uint8_t number, const char *answer) {
    size_t length = strlen(answer);
    if (got != number)
        return "another number";
    if (size != length)
        return "another length";
    for (size_t i = 0; i < BUFFER; i++) {
        int inside = AROUND <= i && i < AROUND + length;
        if (buffer[i] != (inside ? (uint8_t)answer[i - AROUND] : before(i)))
            return inside ? "another answer" : "a byte changed that is not the answer's";
    }
    return NULL;
}

/* One call on a buffer with so much room. A refusal has the answer "". */
static void expect(const char *label, call *made, const char *const given[TEXTS], size_t room, uint8_t number, const char *answer) {
    struct text texts[TEXTS];
    for (int i = 0; i < TEXTS; i++) {
        const char *bytes = given[i] ? given[i] : "";
        texts[i] = (struct text){(const uint8_t *)bytes, strlen(bytes)};
    }
    uint8_t buffer[BUFFER];
    for (size_t i = 0; i < BUFFER; i++)
        buffer[i] = before(i);
    size_t size = 12345;
    uint8_t got = made(texts, buffer + AROUND, room, &size);
    const char *wrong = fault(buffer, got, size, number, answer);
    printf("%s\t%d\t%zu\t%s\n", label, got, size, wrong ? wrong : "ok");
    failures += wrong != NULL;
}

/* The texts of a call; those left out are empty. */
#define TEXTS_OF(...) ((const char *const[TEXTS]){__VA_ARGS__})

/* An answer in more room than it needs, in just as much, in one byte less and in none. */
static void expect_in_rooms(const char *label, call *made, const char *const given[TEXTS], const char *answer) {
    char longer[4][80];
    const char *endings[4] = {"", "-exact-room", "-room-short-by-one", "-no-room"};
    for (int i = 0; i < 4; i++)
        snprintf(longer[i], sizeof longer[i], "%s%s", label, endings[i]);
    expect(longer[0], made, given, ROOM, 0, answer);
    expect(longer[1], made, given, strlen(answer), 0, answer);
    expect(longer[2], made, given, strlen(answer) - 1, 6, "");
    expect(longer[3], made, given, 0, 6, "");
}

static void scopes(void) {
    expect_in_rooms("scope", scope, TEXTS_OF(TREE), SCOPE);
    expect_in_rooms("scope-empty-file", scope, TEXTS_OF(""), "in\nhid\n");
    expect("scope-empty-line", scope, TEXTS_OF("\n"), ROOM, 1, "");
    expect("scope-unended", scope, TEXTS_OF("bgp\t0"), ROOM, 1, "");
    expect("scope-malformed-no-room", scope, TEXTS_OF(BAD), 0, 1, "");
    expect("scope-text-at-bound", scope, TEXTS_OF(repeated("", "x", LONGEST, "")), ROOM, 1, "");
    expect("scope-text-too-long", scope, TEXTS_OF(repeated("", "x", LONGEST + 1, "")), ROOM, 2, "");
    expect("scope-columns-over", scope, TEXTS_OF(repeated("project", "\t?c%d", ENTRIES + 1, "\nbgp\t0\n")), ROOM, 2, "");
}

static void renames(void) {
    const char *many = repeated("", "?k%d\t?a\n", ENTRIES + 1, "");
    expect_in_rooms("rename", rename_tree, TEXTS_OF(TREE, SWAP), RENAMED);
    expect("rename-empty-mapping", rename_tree, TEXTS_OF(TREE, ""), ROOM, 0, TREE);
    expect_in_rooms("rename-empty-file", rename_tree, TEXTS_OF("", SWAP), EMPTY);
    expect("rename-bad-tree", rename_tree, TEXTS_OF(BAD, SWAP), ROOM, 1, "");
    expect("rename-from-repeated", rename_tree, TEXTS_OF(TREE, "?a\t?b\n?a\t?c\n"), ROOM, 1, "");
    expect("rename-mapping-over", rename_tree, TEXTS_OF(TREE, many), ROOM, 2, "");
    expect("rename-bad-tree-first", rename_tree, TEXTS_OF(BAD, many), ROOM, 1, "");
}

static void merges_of_patterns(void) {
    const char *over = repeated("project", "\t?c%d", ENTRIES + 1, "\nbgp\t0\n");
    const char *joins = repeated("", "0\t%d\n", ENTRIES + 1, ""), *constants = repeated("", "%d\t<k>\n", ENTRIES + 1, "");
    expect_in_rooms("merge", merge_patterns, TEXTS_OF(LEFT, RIGHT, JOIN), MERGED);
    expect_in_rooms("merge-constants", merge_patterns, TEXTS_OF(LEFT, RIGHT, JOIN, "1\t<k>\n", "1\t\"b\"\n"), BOUND);
    expect_in_rooms("merge-empty-files", merge_patterns, TEXTS_OF(""), JOINED);
    expect("merge-empty-left", merge_patterns, TEXTS_OF("", RIGHT), ROOM, 0, EMPTY_LEFT);
    expect("merge-empty-right", merge_patterns, TEXTS_OF(RIGHT), ROOM, 0, EMPTY_RIGHT);
    expect("merge-empty-left-outside", merge_patterns, TEXTS_OF("", RIGHT, JOIN), 0, 3, "");
    expect("merge-left-first", merge_patterns, TEXTS_OF(over, BAD, "0\n"), ROOM, 2, "");
    expect("merge-right-second", merge_patterns, TEXTS_OF(LEFT, over, "0\n"), ROOM, 2, "");
    expect("merge-joins-third", merge_patterns, TEXTS_OF(DISTINCT, RIGHT, joins, "0\t?a\n"), ROOM, 2, "");
    expect("merge-left-constants-fourth", merge_patterns, TEXTS_OF(DISTINCT, RIGHT, JOIN, "0\t?a\n", constants), ROOM, 1, "");
    expect("merge-right-constants-fifth", merge_patterns, TEXTS_OF(DISTINCT, RIGHT, JOIN, "", constants), ROOM, 2, "");
    expect("merge-no-project", merge_patterns, TEXTS_OF(DISTINCT, RIGHT, "9\t9\n"), 0, 4, "");
    expect("merge-outside", merge_patterns, TEXTS_OF(LEFT, RIGHT, "2\t0\n"), 0, 3, "");
    expect("merge-constant-outside", merge_patterns, TEXTS_OF(LEFT, RIGHT, JOIN, "", "2\t<k>\n"), 0, 3, "");
    expect("merge-left-repeated", merge_patterns, TEXTS_OF(LEFT, RIGHT, "1\t0\n1\t1\n"), 0, 10, "");
    expect("merge-right-repeated", merge_patterns, TEXTS_OF(LEFT, RIGHT, "0\t1\n1\t1\n"), 0, 10, "");
    expect("merge-outside-before-repeated", merge_patterns, TEXTS_OF(LEFT, RIGHT, "1\t0\n1\t2\n"), 0, 3, "");
}

static void merges_of_queries(void) {
    expect_in_rooms("merge-queries", merge_queries, TEXTS_OF(SELECT LEFT, SELECT RIGHT, JOIN), SELECT MERGED);
    expect("merge-queries-ask", merge_queries, TEXTS_OF(ASK LEFT, ASK RIGHT, JOIN), ROOM, 0, ASK MERGED);
    expect_in_rooms("merge-queries-heads-alone", merge_queries, TEXTS_OF(ASK, ASK), ASK JOINED);
    expect("merge-queries-left-head-alone", merge_queries, TEXTS_OF(SELECT, SELECT RIGHT), ROOM, 0, SELECT EMPTY_LEFT);
    expect("merge-queries-right-head-alone", merge_queries, TEXTS_OF(SELECT RIGHT, SELECT), ROOM, 0, SELECT EMPTY_RIGHT);
    expect("merge-queries-other-head-alone", merge_queries, TEXTS_OF(SELECT RIGHT, ASK), 0, 5, "");
    expect("merge-queries-head-unended", merge_queries, TEXTS_OF("query\task\t-\t-", ASK RIGHT), ROOM, 1, "");
    expect("merge-queries-no-query", merge_queries, TEXTS_OF(ASK RIGHT, ""), ROOM, 1, "");
    expect("merge-queries-tree", merge_queries, TEXTS_OF(LEFT, SELECT RIGHT, JOIN), ROOM, 1, "");
    expect("merge-queries-joins", merge_queries, TEXTS_OF(SELECT DISTINCT, ASK RIGHT, "9\n"), ROOM, 1, "");
    expect("merge-queries-heads", merge_queries, TEXTS_OF(SELECT DISTINCT, ASK RIGHT, "9\t9\n"), 0, 5, "");
    expect("merge-queries-construct", merge_queries, TEXTS_OF(CONSTRUCT LEFT, CONSTRUCT RIGHT, JOIN), 0, 5, "");
    expect("merge-queries-no-project", merge_queries, TEXTS_OF(SELECT LEFT, SELECT DISTINCT, "9\t9\n"), 0, 4, "");
    expect("merge-queries-outside", merge_queries, TEXTS_OF(SELECT LEFT, SELECT RIGHT, "0\t2\n"), 0, 3, "");
    expect("merge-queries-repeated", merge_queries, TEXTS_OF(SELECT LEFT, SELECT RIGHT, "0\t0\n0\t1\n"), 0, 10, "");
}

static void withouts(void) {
    expect_in_rooms("without", without, TEXTS_OF(SELECT LEFT, SELECT RIGHT, JOIN), SELECT WITHOUT);
    expect_in_rooms("without-ask", without, TEXTS_OF(ASK LEFT, ASK RIGHT, JOIN), ASK WITHOUT);
    expect("without-left-malformed", without, TEXTS_OF(SELECT BAD, ASK DISTINCT, "9\n"), ROOM, 1, "");
    expect("without-right-malformed", without, TEXTS_OF(ASK DISTINCT, SELECT BAD, "9\n"), ROOM, 1, "");
    expect("without-joins", without, TEXTS_OF(SELECT DISTINCT, ASK RIGHT, "9\n"), ROOM, 1, "");
    expect("without-heads", without, TEXTS_OF(SELECT DISTINCT, ASK RIGHT), 0, 5, "");
    expect("without-no-project", without, TEXTS_OF(SELECT LEFT, SELECT DISTINCT), 0, 4, "");
    expect("without-no-pairs", without, TEXTS_OF(SELECT LEFT, SELECT RIGHT), 0, 11, "");
    expect("without-outside", without, TEXTS_OF(SELECT LEFT, SELECT RIGHT, "0\t0\n0\t2\n"), 0, 3, "");
    expect("without-repeated", without, TEXTS_OF(SELECT LEFT, SELECT RIGHT, "0\t0\n0\t1\n"), 0, 10, "");
    expect("without-heads-alone", without, TEXTS_OF(ASK, ASK), 0, 11, "");
    expect("without-head-alone", without, TEXTS_OF(ASK LEFT, ASK, JOIN), 0, 3, "");
    expect("without-no-query", without, TEXTS_OF(ASK LEFT, "", JOIN), 0, 1, "");
}

static void pushes(void) {
    expect_in_rooms("push", push_constants, TEXTS_OF(SELECT LEFT, "1\t<k>\n"), SELECT PUSHED);
    expect("push-construct", push_constants, TEXTS_OF(CONSTRUCT LEFT, "9\t<k>\n"), ROOM, 0, CONSTRUCT LEFT);
    expect("push-no-project", push_constants, TEXTS_OF(SELECT DISTINCT, "9\t<k>\n"), ROOM, 0, SELECT DISTINCT);
    expect_in_rooms("push-head-alone", push_constants, TEXTS_OF(SELECT), SELECT EMPTY);
    expect_in_rooms("push-construct-head-alone", push_constants, TEXTS_OF(CONSTRUCT, "9\t<k>\n"), CONSTRUCT EMPTY);
    expect("push-head-alone-outside", push_constants, TEXTS_OF(SELECT, "0\t<k>\n"), 0, 3, "");
    expect("push-head-unended", push_constants, TEXTS_OF("query\task\t-\t-"), ROOM, 1, "");
    expect("push-no-query", push_constants, TEXTS_OF(""), ROOM, 1, "");
    expect("push-bad-query", push_constants, TEXTS_OF(SELECT BAD, "1\t<k>\n"), ROOM, 1, "");
    expect("push-repeated", push_constants, TEXTS_OF(SELECT LEFT, "1\t<k>\n1\t<l>\n"), ROOM, 1, "");
    expect("push-outside", push_constants, TEXTS_OF(ASK LEFT, "2\t<k>\n"), 0, 3, "");
}

static void negations(void) {
    expect_in_rooms("negate", negate, TEXTS_OF(SELECT DISTINCT), SELECT NEGATED);
    expect("negate-describe", negate, TEXTS_OF("query\tdescribe\t-\t-\n" LEFT), ROOM, 0, "query\tdescribe\t-\t-\n" LEFT);
    expect("negate-no-projection", negate, TEXTS_OF(SELECT "bgp\t0\n"), ROOM, 0, SELECT "bgp\t0\n");
    expect_in_rooms("negate-head-alone", negate, TEXTS_OF(ASK), ASK "project\nfilter\nbgp\t0\nnot\nexists\nbgp\t0\n");
    expect_in_rooms("negate-construct-head-alone", negate, TEXTS_OF(CONSTRUCT), CONSTRUCT EMPTY);
    expect("negate-head-unended", negate, TEXTS_OF("query\task\t-\t-"), ROOM, 1, "");
    expect("negate-no-query", negate, TEXTS_OF(""), ROOM, 1, "");
    expect("negate-head-too-long", negate, TEXTS_OF(repeated("query\task\t-\t", "b", LONGEST - 12, "\n")), ROOM, 2, "");
    expect("negate-head-at-bound-no-room", negate, TEXTS_OF(repeated("query\task\t-\t", "b", LONGEST - 13, "\n")), ROOM, 6, "");
    expect("negate-tree", negate, TEXTS_OF(LEFT), 0, 1, "");
    expect("negate-over", negate, TEXTS_OF(repeated(SELECT "project", "\t?c%d", ENTRIES + 1, "\nbgp\t0\n")), 0, 2, "");
}

static void bindings_of_sets(void) {
    const char *many = repeated("", "set\t1\t0\nat\t%d\n", ENTRIES + 1, "");
    expect_in_rooms("bindings", bindings, TEXTS_OF(DISTINCT, SETS), WITH_SETS);
    expect("bindings-no-sets", bindings, TEXTS_OF(DISTINCT), ROOM, 0, DISTINCT);
    expect_in_rooms("bindings-empty-file", bindings, TEXTS_OF(""), EMPTY);
    expect_in_rooms("bindings-empty-file-no-columns", bindings, TEXTS_OF("", "set\t0\t1\nat\nrow\n"), "project\njoin\nbgp\t0\nvalues\t0\t1\ncols\nrow\n");
    expect("bindings-empty-file-outside", bindings, TEXTS_OF("", "set\t1\t0\nat\t0\n"), 0, 3, "");
    expect("bindings-no-projection", bindings, TEXTS_OF(BELOW_JOIN, "set\t1\t1\nat\t9\nrow\tMap\tx\t-\n"), ROOM, 0, BELOW_JOIN);
    expect("bindings-bad-tree-first", bindings, TEXTS_OF(BAD, many), ROOM, 1, "");
    expect("bindings-bad-sets", bindings, TEXTS_OF(LEFT, "set\t1\t0\n"), ROOM, 1, "");
    expect("bindings-sets-over", bindings, TEXTS_OF(LEFT, many), ROOM, 2, "");
    expect("bindings-outside", bindings, TEXTS_OF(LEFT, "set\t1\t1\nat\t0\nrow\tMap\tx\t-\nset\t1\t0\nat\t2\n"), 0, 3, "");
    expect("bindings-not-usable", bindings, TEXTS_OF(LEFT, "set\t1\t1\nat\t0\nrow\tTuple\tx\t-\n"), 0, 7, "");
}

/* An entry that stands at a place before the call. */
static uint16_t entry_before(size_t place) {
    return (uint16_t)(place * 257 + 4099);
}

/* What is wrong with the list after a call, or a null pointer. */
static const char *list_fault(const uint16_t *numbers, size_t count) {
    if (many != count)
        return "another number of numbers";
    for (size_t i = 0; i < AROUND + ENTRIES + AROUND; i++) {
        int inside = AROUND <= i && i < AROUND + count;
        if (list[i] != (inside ? numbers[i - AROUND] : entry_before(i)))
            return inside ? "another list" : "an entry changed that is not the list's";
    }
    return NULL;
}

#define NUMBERS(...) ((const uint16_t[]){__VA_ARGS__}), sizeof((const uint16_t[]){__VA_ARGS__}) / sizeof(uint16_t)

/* The call filters with so much room and so many entries lent. A refusal has the answer "" and no numbers. */
static void expect_list(const char *label, const char *const given[TEXTS], size_t room, size_t entries, uint8_t number, const char *answer,
                        const uint16_t *numbers, size_t count) {
    for (size_t i = 0; i < AROUND + ENTRIES + AROUND; i++)
        list[i] = entry_before(i);
    lent = entries;
    expect(label, filters, given, room, number, answer);
    lent = ENTRIES;
    const char *wrong = list_fault(numbers, count);
    printf("%s-list\t%zu\t%s\n", label, many, wrong ? wrong : "ok");
    failures += wrong != NULL;
}

#define OTHERS "un\tOther\nref\t0\n" FILTER "leaf\tBoolean\ttrue\t<d>\n"

static void filters_listed(void) {
    const char *const given[TEXTS] = {DISTINCT, OTHERS}, *const missed[TEXTS] = {BELOW_JOIN, OTHERS};
    size_t exact = strlen(WITH_FILTER);
    expect_list("listed", given, ROOM, ENTRIES, 0, WITH_FILTER, NUMBERS(0, 2));
    expect_list("listed-exact", given, exact, 2, 0, WITH_FILTER, NUMBERS(0, 2));
    expect_list("listed-short-by-one", given, exact, 1, 9, "", NULL, 0);
    expect_list("listed-no-entries", given, exact, 0, 9, "", NULL, 0);
    expect_list("listed-six-before-nine", given, exact - 1, 1, 6, "", NULL, 0);
    expect_list("listed-six", given, exact - 1, ENTRIES, 6, "", NULL, 0);
    expect_list("listed-none", TEXTS_OF(DISTINCT, FILTER), exact, 0, 0, WITH_FILTER, NULL, 0);
    expect_list("listed-no-filters", TEXTS_OF(DISTINCT), ROOM, 0, 0, DISTINCT, NULL, 0);
    expect_list("listed-not-found", missed, ROOM, 3, 0, BELOW_JOIN, NUMBERS(0, 1, 2));
    expect_list("listed-not-found-short", missed, ROOM, 2, 9, "", NULL, 0);
    expect_list("listed-not-found-six", missed, strlen(BELOW_JOIN) - 1, 0, 6, "", NULL, 0);
    expect_list("listed-none-placed", TEXTS_OF(LEFT, "nary\tf\t0\n"), strlen(LEFT), 1, 0, LEFT, NUMBERS(0));
    expect_list("listed-none-placed-short", TEXTS_OF(LEFT, "nary\tf\t0\n"), strlen(LEFT), 0, 9, "", NULL, 0);
    expect_list("listed-empty-file", TEXTS_OF("", "nary\tf\t0\n"), ROOM, 1, 0, EMPTY, NUMBERS(0));
    expect_list("listed-empty-file-short", TEXTS_OF("", "nary\tf\t0\n"), ROOM, 0, 9, "", NULL, 0);
    expect_list("listed-outside", TEXTS_OF(LEFT, "nary\tf\t1\nref\t2\n"), 0, 0, 3, "", NULL, 0);
    expect_list("listed-malformed", TEXTS_OF(LEFT, "un\n"), 0, 0, 1, "", NULL, 0);
    expect_list("listed-over", TEXTS_OF(LEFT, repeated("", "nary\tf\t0\n", ENTRIES + 1, "")), 0, 0, 2, "", NULL, 0);
    uint16_t all[ENTRIES];
    for (uint16_t i = 0; i < ENTRIES; i++)
        all[i] = i;
    expect_list("listed-all", TEXTS_OF(LEFT, repeated("", "nary\tf\t0\n", ENTRIES, "")), ROOM, GANDEUCH_LIST_ROOM, 0, LEFT, all, ENTRIES);
}

static void filters_placed(void) {
    expect_in_rooms("filters", filters, TEXTS_OF(DISTINCT, FILTER), WITH_FILTER);
    expect("filters-none", filters, TEXTS_OF(DISTINCT), ROOM, 0, DISTINCT);
    expect_in_rooms("filters-empty-file", filters, TEXTS_OF("", "nary\tf\t0\n"), EMPTY);
    expect("filters-empty-file-outside", filters, TEXTS_OF("", "ref\t0\n"), 0, 3, "");
    expect("filters-dropped", filters, TEXTS_OF(LEFT, "un\tOther\nref\t0\n"), ROOM, 0, LEFT);
    expect("filters-no-projection", filters, TEXTS_OF(BELOW_JOIN, "ref\t9\n"), ROOM, 0, BELOW_JOIN);
    expect("filters-bad-tree-first", filters, TEXTS_OF(BAD, "ref\n"), ROOM, 1, "");
    expect("filters-over", filters, TEXTS_OF(LEFT, repeated("", "ref\t0\n", ENTRIES + 1, "")), ROOM, 2, "");
    expect("filters-outside-though-dropped", filters, TEXTS_OF(LEFT, "nary\tOther\t1\nref\t2\n"), 0, 3, "");
}

static void namespaces_converted(void) {
    expect_in_rooms("namespaces", namespaces, TEXTS_OF(OLD_NAMES, "a:\tc:\nb:\tdd:\n"), NEW_NAMES);
    expect_in_rooms("namespaces-empty-file", namespaces, TEXTS_OF("", "b:\tc:\n"), EMPTY);
    expect("namespaces-no-texts", namespaces, TEXTS_OF("", ""), ROOM, 0, EMPTY);
    expect("namespaces-bad-tree-first", namespaces, TEXTS_OF(BAD, "b\tx\na\ty\n"), ROOM, 1, "");
    expect("namespaces-bad-table", namespaces, TEXTS_OF(OLD_NAMES, "b\tx\na\ty\nc\n"), ROOM, 1, "");
    expect("namespaces-over", namespaces, TEXTS_OF(OLD_NAMES, repeated("", "a%03d\tb\n", TABLE_LINES + 1, "")), ROOM, 2, "");
    expect("namespaces-unsorted", namespaces, TEXTS_OF(OLD_NAMES, "b:\tx\na:\ty\n"), 0, 14, "");
    expect("namespaces-overlap", namespaces, TEXTS_OF(OLD_NAMES, "a\tx\na:\ty\nb:\tz\n"), 0, 14, "");
    expect("namespaces-unsorted-before-gap", namespaces, TEXTS_OF(OLD_NAMES, "z\tx\ny\tx\n"), 0, 14, "");
    expect("namespaces-gap", namespaces, TEXTS_OF(OLD_NAMES, "a:\tc:\n"), 0, 15, "");
}

int main(void) {
    scopes();
    renames();
    merges_of_patterns();
    merges_of_queries();
    withouts();
    pushes();
    negations();
    bindings_of_sets();
    filters_placed();
    filters_listed();
    namespaces_converted();
    return failures ? EXIT_FAILURE : EXIT_SUCCESS;
}
