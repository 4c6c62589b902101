/* Every name of include/outline.h, tested through the library. Valid as C99 and as C++. */
#include "outline.h"

#include <stdio.h>
#include <string.h>

static int failures;

static void expect_at(int line, const char *what, bool holds) {
    if (holds) return;
    fprintf(stderr, "tests/header.c:%d: not so: %s\n", line, what);
    failures++;
}

#define EXPECT(test) expect_at(__LINE__, #test, test)
#define VALUE(n) ((size_t)OUTLINE_VALUE + (n))

static uint8_t log_a[OUTLINE_LARGEST], log_b[OUTLINE_LARGEST];
static uint16_t parents[OUTLINE_TABLE], path[OUTLINE_LONGEST_PATH], places[OUTLINE_MOST_OPS + 1];
static uint8_t outcomes[OUTLINE_TABLE], text[OUTLINE_LONGEST_LISTING], op[OUTLINE_OP];
static uint8_t bundle[OUTLINE_LARGEST_BUNDLE + 1], holdback[OUTLINE_HOLDBACK];
static uint8_t moves[(OUTLINE_MOST_MOVES + 1) * OUTLINE_OP];
static const uint8_t nothing[OUTLINE_REPLICAS] = {0};

/* A page with an entry more behind each table, which no call may look at or change. */
struct page {
    uint16_t order[OUTLINE_ORDER + 1], parents[OUTLINE_TABLE + 1];
    uint8_t outcomes[OUTLINE_TABLE + 1];
};
static struct page page;
static const size_t whole[3] = {OUTLINE_ORDER + 1, OUTLINE_TABLE + 1, OUTLINE_TABLE + 1};

static size_t add(uint8_t *log, uint8_t replica, uint16_t parent) {
    return outline_issue_add(log, OUTLINE_LARGEST, replica, parent, op, sizeof op);
}

static size_t move(uint8_t *log, uint8_t replica, uint16_t node, uint16_t parent) {
    return outline_issue_move(log, OUTLINE_LARGEST, replica, node, parent, op, sizeof op);
}

static size_t move_all(uint8_t *log, size_t log_len, uint8_t replica, const uint16_t *nodes,
                       size_t nodes_len, uint16_t parent) {
    return outline_issue_moves(log, log_len, replica, nodes, nodes_len, parent, moves,
                               sizeof moves);
}

static size_t deliver(uint8_t *log, const uint8_t *bytes) {
    return outline_deliver(log, OUTLINE_LARGEST, bytes, OUTLINE_OP);
}

static size_t deliver_held(uint8_t *log, const uint8_t *bytes) {
    return outline_holdback_deliver(log, OUTLINE_LARGEST, bytes, OUTLINE_OP, holdback,
                                    OUTLINE_HOLDBACK);
}

/* With the page, of whose tables so many entries are lent. */
static size_t deliver_in(uint8_t *log, size_t log_len, const uint8_t *bytes, size_t length,
                         const size_t lent[3]) {
    return outline_page_deliver(log, log_len, bytes, length, page.order, lent[0], page.parents,
                                lent[1], page.outcomes, lent[2]);
}

static size_t add_in(uint8_t *log, size_t log_len, uint8_t replica, uint16_t parent,
                     size_t out_len, const size_t lent[3]) {
    return outline_page_issue_add(log, log_len, replica, parent, op, out_len, page.order, lent[0],
                                  page.parents, lent[1], page.outcomes, lent[2]);
}

static size_t remove_in(uint8_t *log, size_t log_len, uint8_t replica, uint16_t node,
                        size_t out_len, const size_t lent[3]) {
    return outline_page_issue_remove(log, log_len, replica, node, op, out_len, page.order, lent[0],
                                     page.parents, lent[1], page.outcomes, lent[2]);
}

static size_t move_in(uint8_t *log, size_t log_len, uint8_t replica, uint16_t node,
                      uint16_t parent, size_t out_len, const size_t lent[3]) {
    return outline_page_issue_move(log, log_len, replica, node, parent, op, out_len, page.order,
                                   lent[0], page.parents, lent[1], page.outcomes, lent[2]);
}

static size_t deliver_paged(uint8_t *log, const uint8_t *bytes) {
    return deliver_in(log, OUTLINE_LARGEST, bytes, OUTLINE_OP, whole);
}

static size_t open_bundle(uint8_t *log, size_t length) {
    return outline_bundle_open(log, OUTLINE_LARGEST, bundle, length);
}

static void versions(void) {
    char said[32];
    snprintf(said, sizeof said, "%d.%d.%d", OUTLINE_VERSION_MAJOR, OUTLINE_VERSION_MINOR,
             OUTLINE_VERSION_PATCH);
    EXPECT(strcmp(said, OUTLINE_VERSION_TEXT) == 0);
    EXPECT(outline_version() == OUTLINE_VERSION);
}

static void numbers(void) {
    EXPECT(OUTLINE_UNSOUND == 1 && OUTLINE_MARKED == 11 && OUTLINE_BAD_BUNDLE == 12);
    EXPECT(OUTLINE_HOLDBACK_FULL == 13 && OUTLINE_BAD_HOLDBACK == 14);
    EXPECT(OUTLINE_HAD_IT == 128 && OUTLINE_DONE == 129 && OUTLINE_WAITING == 130);
    EXPECT(OUTLINE_VALUE == 256);
    EXPECT(OUTLINE_HOLDBACK == 1 + OUTLINE_HOLDBACK_OPS * OUTLINE_OP);
    EXPECT(outline_refused(OUTLINE_UNSOUND) && outline_refused(OUTLINE_BAD_HOLDBACK));
    EXPECT(!outline_refused(OUTLINE_HAD_IT) && !outline_refused(OUTLINE_DONE));
    EXPECT(!outline_refused(OUTLINE_WAITING) && !outline_refused(OUTLINE_VALUE));
    EXPECT(outline_value(OUTLINE_BAD_HOLDBACK) == 0 && outline_value(OUTLINE_DONE) == 0);
    EXPECT(outline_value(OUTLINE_WAITING) == 0);
    EXPECT(outline_value(VALUE(0)) == 0 && outline_value(VALUE(28592)) == 28592);
    EXPECT(OUTLINE_TAKEN_BACK == 65536 && OUTLINE_ORDER == OUTLINE_MOST_OPS);
    EXPECT(outline_page_answer(OUTLINE_LENGTH) == 2 && outline_page_taken(OUTLINE_LENGTH) == 0);
    EXPECT(outline_page_answer(VALUE(28592)) == VALUE(28592));
    EXPECT(outline_page_taken(VALUE(28592)) == 0);
    size_t late = VALUE(28592) + (size_t)OUTLINE_TAKEN_BACK * 2039;
    EXPECT(outline_page_answer(late) == VALUE(28592) && outline_page_taken(late) == 2039);
    EXPECT(outline_value(late) == 28592 && !outline_refused(late));
    EXPECT(strcmp(outline_text(late), outline_text(VALUE(0))) == 0);
    const char *none = outline_text(0);
    for (size_t a = 0; a < 300; a++) {
        bool named = (a >= 1 && a <= 14) || (a >= 128 && a <= 130) || a >= 256;
        EXPECT(outline_text(a) != NULL && (strcmp(outline_text(a), none) != 0) == named);
        for (size_t b = 0; b < a && a <= OUTLINE_VALUE; b++)
            EXPECT(!named || strcmp(outline_text(a), outline_text(b)) != 0);
    }
}

/* A slot for the root and the 2,040 node numbers, each its own; none for any other number. */
static void slots(void) {
    static bool taken[OUTLINE_TABLE];
    size_t found = 0;
    for (unsigned n = 0; n <= 65535; n++) {
        unsigned s = n / 256, q = n % 256;
        bool is_node = n == OUTLINE_ROOT || (s >= 1 && s <= OUTLINE_REPLICAS && q >= 1);
        size_t slot = outline_slot((uint16_t)n);
        EXPECT(is_node ? slot < OUTLINE_TABLE : slot == OUTLINE_NO_SLOT);
        if (slot >= OUTLINE_TABLE) continue;
        EXPECT(!taken[slot]);
        taken[slot] = true;
        found++;
        EXPECT(outline_slot_node(slot) == n);
        if (n != OUTLINE_ROOT) EXPECT(outline_node((uint8_t)s, (uint8_t)q) == n);
    }
    EXPECT(outline_slot_node(OUTLINE_TABLE) == 0 && outline_slot_node(OUTLINE_NO_SLOT) == 0);
    EXPECT(found == OUTLINE_TABLE && outline_slot(OUTLINE_ROOT) == 0);
    EXPECT(outline_slot(OUTLINE_NO_PARENT) == OUTLINE_NO_SLOT);
}

static void fields(void) {
    outline_make(log_a, sizeof log_a);
    add(log_a, 2, 0);
    add(log_a, 2, 0);
    EXPECT(add(log_a, 8, 514) == VALUE(OUTLINE_HEADER + 3 * OUTLINE_OP));
    EXPECT(outline_op_kind(op) == OUTLINE_ADD && outline_op_replica(op) == 8);
    EXPECT(outline_op_sequence(op) == 1 && outline_op_node(op) == outline_node(8, 1));
    EXPECT(outline_op_parent(op) == 514 && outline_op_sum(op) == 2);
    EXPECT(outline_op_count(op, 2) == 2 && outline_op_count(op, 8) == 0);
    EXPECT(outline_op_count(op, 0) == 0 && outline_op_count(op, 9) == 0);
    EXPECT(move(log_a, 8, 513, 2049) == VALUE(OUTLINE_HEADER + 4 * OUTLINE_OP));
    EXPECT(outline_op_kind(op) == OUTLINE_MOVE_DOWN && outline_op_sequence(op) == 2);
    EXPECT(outline_op_node(op) == 513 && outline_op_parent(op) == 2049);
    move(log_a, 1, 513, 0);
    EXPECT(outline_op_kind(op) == OUTLINE_MOVE_UP);
    outline_issue_remove(log_a, sizeof log_a, 1, 513, op, sizeof op);
    EXPECT(outline_op_kind(op) == OUTLINE_REMOVE && outline_op_parent(op) == 0);
    op[1] = 0;
    EXPECT(outline_op_sequence(op) == 0);
    op[1] = 9;
    EXPECT(outline_op_sequence(op) == 0);
    memset(op, 255, sizeof op);
    op[1] = 8;
    EXPECT(outline_op_sequence(op) == 0 && outline_op_sum(op) == 2040);
}

/* Each refusal by its number, had it, and done. */
static void answers(void) {
    uint8_t early[OUTLINE_OP], bad[OUTLINE_OP];
    outline_make(log_a, sizeof log_a);
    outline_make(log_b, sizeof log_b);
    EXPECT(add(log_a, 1, 0) == VALUE(46));
    memcpy(bad, op, sizeof bad);
    EXPECT(deliver(log_b, bad) == VALUE(46) && deliver(log_b, bad) == OUTLINE_HAD_IT);
    EXPECT(outline_deliver(log_b, sizeof log_b, bad, 13) == OUTLINE_LENGTH);
    bad[5] = 1;
    EXPECT(deliver(log_b, bad) == OUTLINE_CONFLICT);
    bad[0] = 5;
    EXPECT(deliver(log_b, bad) == OUTLINE_MALFORMED);
    EXPECT(add(log_a, 9, 0) == OUTLINE_MALFORMED && add(log_a, 0, 0) == OUTLINE_MALFORMED);
    add(log_a, 1, 257);
    add(log_a, 2, 258);
    memcpy(early, op, sizeof early);
    EXPECT(deliver(log_b, early) == OUTLINE_EARLY);
    outline_deliver(log_b, sizeof log_b, log_a + OUTLINE_HEADER + OUTLINE_OP, OUTLINE_OP);
    EXPECT(deliver(log_b, early) == VALUE(74));
    memcpy(bad, early, sizeof bad); /* replica 3, which has seen 513 and not what 513 had seen */
    bad[1] = 3;
    bad[2] = 3;
    bad[6] = 1;
    bad[7] = 1;
    EXPECT(deliver(log_b, bad) == OUTLINE_NOT_CLOSED);
    EXPECT(add(log_a, 1, 259) == OUTLINE_UNKNOWN && move(log_a, 1, 257, 257) == OUTLINE_UNKNOWN);
    EXPECT(move(log_a, 1, 257, 513) == OUTLINE_CYCLE);
    EXPECT(outline_make(log_b, 31) == OUTLINE_NO_ROOM);
    EXPECT(outline_issue_add(log_a, 74, 1, 0, op, sizeof op) == OUTLINE_NO_ROOM);
    for (int i = 0; i < 253; i++) add(log_a, 1, 0);
    EXPECT(add(log_a, 1, 0) == OUTLINE_EXHAUSTED);
    EXPECT(outline_judge(log_a, sizeof log_a, parents, OUTLINE_TABLE, outcomes, OUTLINE_TABLE) ==
           OUTLINE_DONE);
    EXPECT(parents[outline_slot(513)] == 258 && parents[outline_slot(514)] == OUTLINE_NO_PARENT);
    EXPECT(outcomes[outline_slot(513)] == OUTLINE_APPLIED);
    EXPECT(outcomes[outline_slot(514)] == OUTLINE_NO_OP);
    EXPECT(outline_path(log_a, sizeof log_a, 513, path, OUTLINE_LONGEST_PATH) == VALUE(4));
    EXPECT(path[0] == 513 && path[1] == 258 && path[2] == 257 && path[3] == OUTLINE_ROOT);
    log_a[0] = 1;
    EXPECT(add(log_a, 1, 0) == OUTLINE_UNSOUND);
}

/* A removed node takes no new work at issue, and all that is delivered. */
static void removed(void) {
    uint8_t unmet[OUTLINE_OP];
    outline_make(log_a, sizeof log_a);
    outline_make(log_b, sizeof log_b);
    add(log_a, 1, 0);
    deliver(log_b, op);
    add(log_a, 1, 257);
    deliver(log_b, op);
    EXPECT(add(log_b, 2, 257) == VALUE(74)); /* replica 2 has not met the removal */
    memcpy(unmet, op, sizeof unmet);
    EXPECT(outline_issue_remove(log_a, sizeof log_a, 1, 257, op, sizeof op) == VALUE(74));
    EXPECT(add(log_a, 1, 257) == OUTLINE_MARKED);
    EXPECT(move(log_a, 1, 257, 0) == OUTLINE_MARKED && move(log_a, 1, 258, 257) == OUTLINE_MARKED);
    EXPECT(move(log_a, 1, 257, 258) == OUTLINE_MARKED); /* and below itself */
    EXPECT(move(log_a, 1, 257, 259) == OUTLINE_UNKNOWN);
    EXPECT(outline_issue_add(log_a, 74, 1, 257, op, sizeof op) == OUTLINE_MARKED);
    EXPECT(add(log_a, 1, 258) == VALUE(88)); /* below a node that is below it */
    EXPECT(outline_issue_remove(log_a, sizeof log_a, 3, 257, op, sizeof op) == VALUE(102));
    EXPECT(deliver(log_a, unmet) == VALUE(116));
}

/* Two moves of one node, and two that close a circle: the outcomes of those that lost. */
static void clashes(void) {
    outline_make(log_a, sizeof log_a);
    for (int i = 0; i < 3; i++) add(log_a, 1, 0);
    memcpy(log_b, log_a, sizeof log_b);
    move(log_a, 1, 257, 258);
    move(log_b, 2, 257, 259);
    EXPECT(!outline_refused(deliver(log_a, op)));
    outline_judge(log_a, sizeof log_a, parents, OUTLINE_TABLE, outcomes, OUTLINE_TABLE);
    EXPECT(outcomes[outline_slot(outline_node(1, 4))] == OUTLINE_PLACED_ALREADY);
    outline_make(log_a, sizeof log_a);
    for (int i = 0; i < 2; i++) add(log_a, 1, 0);
    memcpy(log_b, log_a, sizeof log_b);
    move(log_a, 1, 257, 258);
    move(log_b, 2, 258, 257);
    deliver(log_a, op);
    outline_judge(log_a, sizeof log_a, parents, OUTLINE_TABLE, outcomes, OUTLINE_TABLE);
    EXPECT(outcomes[outline_slot(outline_node(1, 3))] == OUTLINE_WOULD_CLOSE_CIRCLE);
}

/*
 * log_a with a heading 257, 258 to 261 as a chain below it, 262 to 277 under the
 * root, and 278, which is removed; 9s behind it, and in moves.
 */
static void start_batches(void) {
    memset(log_a, 9, sizeof log_a);
    memset(moves, 9, sizeof moves);
    outline_make(log_a, sizeof log_a);
    add(log_a, 1, 0);
    for (uint16_t node = 257; node < 261; node++) add(log_a, 1, node);
    for (uint16_t node = 262; node <= 278; node++) add(log_a, 1, 0);
    outline_issue_remove(log_a, sizeof log_a, 1, 278, op, sizeof op);
    memcpy(log_b, log_a, sizeof log_b);
}

/* A batch is the same as its moves one by one: log_a by the one, log_b by the other. */
static void expect_in_turn(uint8_t replica, const uint16_t *nodes, size_t nodes_len,
                           uint16_t parent) {
    static uint8_t expected[sizeof moves];
    memset(expected, 9, sizeof expected);
    size_t answer = outline_end(log_b, sizeof log_b);
    for (size_t i = 0; i < nodes_len; i++) {
        answer = move(log_b, replica, nodes[i], parent);
        EXPECT(!outline_refused(answer));
        memcpy(expected + OUTLINE_OP * i, op, sizeof op);
    }
    memset(moves, 9, sizeof moves);
    EXPECT(move_all(log_a, sizeof log_a, replica, nodes, nodes_len, parent) == answer);
    EXPECT(memcmp(log_a, log_b, sizeof log_a) == 0);
    EXPECT(memcmp(moves, expected, sizeof moves) == 0);
}

/* Batches that are accepted. */
static void batches(void) {
    const uint16_t column[] = {262, 263, 264, 265, 266, 267, 268, 269,
                               270, 271, 272, 273, 274, 275, 276, 277};
    const uint16_t below[] = {258, 261, 258, 260, 259}, twice[] = {262, 262};
    EXPECT(OUTLINE_MOST_MOVES == 16 && sizeof column / sizeof column[0] == OUTLINE_MOST_MOVES);
    start_batches();
    expect_in_turn(2, column, 16, 261);
    EXPECT(outline_end(log_a, sizeof log_a) == VALUE(OUTLINE_HEADER + 39 * OUTLINE_OP));
    expect_in_turn(1, column, 1, 0);
    expect_in_turn(8, column + 3, 5, 277);
    /* Nodes that lie below each other, and one that comes twice. */
    expect_in_turn(1, below, 5, 0);
    expect_in_turn(3, below, 5, 257);
    expect_in_turn(3, below, 5, 262);
    /* The kind is by the depth that the moves before have left: before them both would be down. */
    start_batches();
    expect_in_turn(1, twice, 2, 258);
    EXPECT(outline_op_kind(moves) == OUTLINE_MOVE_DOWN);
    EXPECT(outline_op_kind(moves + OUTLINE_OP) == OUTLINE_MOVE_UP);
    /* Not a byte more lent than is needed. */
    start_batches();
    size_t end = OUTLINE_HEADER + 39 * OUTLINE_OP;
    EXPECT(outline_issue_moves(log_a, end, 5, column, 16, 257, moves, 16 * OUTLINE_OP) ==
           VALUE(end));
    EXPECT(log_a[end] == 9 && moves[16 * OUTLINE_OP] == 9);
    EXPECT(outline_op_sequence(moves) == 1 && outline_op_sequence(moves + 15 * OUTLINE_OP) == 16);
}

/* What is refused leaves all as it was, whichever move it was for. */
static void refused_batches(void) {
    static uint8_t before[OUTLINE_LARGEST];
    uint16_t nodes[OUTLINE_MOST_MOVES + 1];
    const size_t most = OUTLINE_MOST_MOVES, size = sizeof log_a;
    start_batches();
    for (int i = 0; i < 250; i++) add(log_a, 2, 0); /* five are left to replica 2 */
    memcpy(before, log_a, sizeof before);
    size_t end = outline_value(outline_end(log_a, size));
    for (size_t i = 0; i <= most; i++) nodes[i] = (uint16_t)(262 + i % 16);
    /* The first of two causes is answered. */
    EXPECT(move_all(log_a, end - 1, 9, nodes, most + 1, 257) == OUTLINE_UNSOUND);
    EXPECT(move_all(log_a, size, 9, nodes, most + 1, 257) == OUTLINE_LENGTH);
    for (size_t n = 1; n <= most; n++)
        EXPECT(outline_issue_moves(log_a, size, 9, nodes, n, 257, moves, OUTLINE_OP * n - 1) ==
               OUTLINE_LENGTH);
    EXPECT(move_all(log_a, size, 9, nodes, most, 1) == OUTLINE_MALFORMED);
    EXPECT(move_all(log_a, size, 0, nodes, 0, 1) == OUTLINE_MALFORMED);
    EXPECT(move_all(log_a, size, 1, nodes, most, 1) == OUTLINE_UNKNOWN);
    EXPECT(move_all(log_a, end, 1, nodes, most, 278) == OUTLINE_MARKED);
    EXPECT(move_all(log_a, end + 13, 1, nodes, 1, 257) == OUTLINE_NO_ROOM);
    /* The last of six, of which five could be issued. */
    EXPECT(move_all(log_a, size, 2, nodes, 6, 257) == OUTLINE_EXHAUSTED);
    EXPECT(move_all(log_a, end + 5 * OUTLINE_OP, 1, nodes, 6, 257) == OUTLINE_NO_ROOM);
    EXPECT(move_all(log_a, end + 5 * OUTLINE_OP, 2, nodes, 6, 257) == OUTLINE_EXHAUSTED);
    /* One of sixteen, wherever it stands: unknown, the root, the parent, removed, above it. */
    const uint16_t bad[] = {279, 0, 261, 278, 258};
    const size_t why[] = {OUTLINE_UNKNOWN, OUTLINE_UNKNOWN, OUTLINE_UNKNOWN, OUTLINE_MARKED,
                          OUTLINE_CYCLE};
    for (size_t i = 0; i < most; i++)
        for (size_t k = 0; k < 5; k++) {
            uint16_t good = nodes[i];
            nodes[i] = bad[k];
            EXPECT(move_all(log_a, size, 1, nodes, most, 261) == why[k]);
            nodes[i] = good;
        }
    /* Of two that are refused, the first in the list. */
    nodes[2] = 258;
    nodes[3] = 278;
    nodes[4] = 279;
    EXPECT(move_all(log_a, size, 1, nodes, most, 261) == OUTLINE_CYCLE);
    EXPECT(move_all(log_a, size, 1, nodes + 3, 2, 261) == OUTLINE_MARKED);
    EXPECT(memcmp(before, log_a, sizeof before) == 0);
    for (size_t i = 0; i < sizeof moves; i++) EXPECT(moves[i] == 9);
}

/* A list of no nodes is accepted after 1, 2 and 3, whatever else there is. */
static void empty_batches(void) {
    uint16_t *no_nodes = NULL;
    uint8_t *none = NULL;
    start_batches();
    for (int i = 0; i < 255; i++) add(log_a, 2, 0);
    memcpy(log_b, log_a, sizeof log_b);
    size_t answer = outline_end(log_a, sizeof log_a), end = outline_value(answer);
    const uint16_t any_parent[] = {0, 257, 278, 279, 65535};
    for (size_t i = 0; i < 5; i++) {
        EXPECT(outline_issue_moves(log_a, end, 2, no_nodes, 0, any_parent[i], none, 0) == answer);
        EXPECT(move_all(log_a, sizeof log_a, 1, no_nodes, 0, any_parent[i]) == answer);
    }
    EXPECT(outline_issue_moves(log_a, end - 1, 2, no_nodes, 0, 0, none, 0) == OUTLINE_UNSOUND);
    EXPECT(outline_issue_moves(log_a, end, 9, no_nodes, 0, 0, none, 0) == OUTLINE_MALFORMED);
    EXPECT(memcmp(log_a, log_b, sizeof log_a) == 0);
    for (size_t i = 0; i < sizeof moves; i++) EXPECT(moves[i] == 9);
}

/* A batch is whole at issue only: of its moves one is applied in the end, and one is not. */
static void batch_outcomes(void) {
    const uint16_t column[] = {262, 263};
    start_batches();
    EXPECT(!outline_refused(move_all(log_a, sizeof log_a, 1, column, 2, 264)));
    outline_judge(log_a, sizeof log_a, parents, OUTLINE_TABLE, outcomes, OUTLINE_TABLE);
    EXPECT(parents[outline_slot(262)] == 264 && parents[outline_slot(263)] == 264);
    /* Another has moved the heading below the first of the two, and is judged before. */
    move(log_b, 2, 264, 262);
    deliver(log_a, op);
    outline_judge(log_a, sizeof log_a, parents, OUTLINE_TABLE, outcomes, OUTLINE_TABLE);
    EXPECT(outcomes[outline_slot(outline_node(1, 24))] == OUTLINE_WOULD_CLOSE_CIRCLE);
    EXPECT(outcomes[outline_slot(outline_node(1, 25))] == OUTLINE_APPLIED);
    EXPECT(parents[outline_slot(262)] == 0 && parents[outline_slot(263)] == 264);
}

/* Soundness, end, counts and sizes of a log, whatever lies past it. */
static void measures(void) {
    uint8_t counts[OUTLINE_REPLICAS + 1];
    memset(log_a, 255, sizeof log_a);
    EXPECT(!outline_is_sound(log_a, sizeof log_a));
    EXPECT(outline_end(log_a, sizeof log_a) == OUTLINE_UNSOUND);
    EXPECT(outline_listing_size(log_a, sizeof log_a, false) == OUTLINE_UNSOUND);
    EXPECT(outline_make(log_a, sizeof log_a) == VALUE(OUTLINE_HEADER));
    add(log_a, 1, 0);
    add(log_a, 1, 257);
    add(log_a, 7, 0);
    outline_issue_remove(log_a, sizeof log_a, 7, 257, op, sizeof op);
    EXPECT(outline_is_sound(log_a, sizeof log_a) && outline_is_sound(log_a, 88));
    EXPECT(!outline_is_sound(log_a, 87));
    EXPECT(outline_end(log_a, sizeof log_a) == VALUE(88) && outline_end(log_a, 88) == VALUE(88));
    memset(counts, 9, sizeof counts);
    EXPECT(outline_counts(log_a, 87, counts, 8) == OUTLINE_UNSOUND && counts[0] == 9);
    EXPECT(outline_counts(log_a, 88, counts, 7) == OUTLINE_NO_ROOM && counts[0] == 9);
    EXPECT(outline_counts(log_a, 88, counts, sizeof counts) == VALUE(8));
    EXPECT(memcmp(counts, "\2\0\0\0\0\0\2\0\11", 9) == 0);
    for (int skipping = 0; skipping < 2; skipping++) {
        size_t answer = outline_listing_size(log_a, 88, skipping == 1);
        size_t size = outline_value(answer);
        EXPECT(size == (skipping ? 15 : 31));
        EXPECT(outline_listing(log_a, 88, skipping == 1, text, size - 1) == OUTLINE_NO_ROOM);
        EXPECT(outline_listing(log_a, 88, skipping == 1, text, size) == answer);
    }
    EXPECT(memcmp(text, "0 0 k\n1 1793 k\n", 15) == 0);
}

/* Bundles made with just enough lent; opened wholly, or with nothing changed. */
static void bundles(void) {
    static uint8_t before[OUTLINE_LARGEST];
    uint8_t counts[OUTLINE_REPLICAS];
    outline_make(log_a, sizeof log_a);
    for (int i = 0; i < 2; i++) add(log_a, 1, 0);
    memcpy(log_b, log_a, sizeof log_b);
    move(log_a, 1, 258, 257);
    move(log_b, 2, 257, 258);
    deliver(log_a, op);
    memset(bundle, 9, sizeof bundle);
    EXPECT(outline_bundle_make(log_a, 87, nothing, bundle, sizeof bundle) == OUTLINE_UNSOUND);
    EXPECT(outline_bundle_make(log_a, 88, nothing, bundle, 58) == OUTLINE_NO_ROOM);
    EXPECT(bundle[0] == 9);
    EXPECT(outline_bundle_make(log_a, 88, nothing, bundle, sizeof bundle) == VALUE(59));
    EXPECT(memcmp(bundle, "\3\3\1\1\1\1\1", 7) == 0 && bundle[59] == 9);
    EXPECT(memcmp(bundle + 31, op, sizeof op) == 0); /* 2:1 is judged before 1:3 */
    /* Opened where three of the four are held, all, and none. */
    EXPECT(open_bundle(log_b, 59) == VALUE(88) && memcmp(log_a, log_b, sizeof log_b) == 0);
    EXPECT(open_bundle(log_b, 59) == VALUE(88));
    outline_make(log_b, sizeof log_b);
    EXPECT(outline_bundle_open(log_b, 88, bundle, 59) == VALUE(88));
    EXPECT(memcmp(log_a, log_b, 88) == 0);
    /* A last op without room, and one that is malformed: those before it are taken back. */
    memset(log_b, 9, sizeof log_b);
    outline_make(log_b, sizeof log_b);
    memcpy(before, log_b, sizeof before);
    EXPECT(outline_bundle_open(log_b, 87, bundle, 59) == OUTLINE_NO_ROOM);
    bundle[45] = 5;
    EXPECT(open_bundle(log_b, 59) == OUTLINE_MALFORMED);
    /* No head, not a whole one, a count of 0, another length, another replica. */
    for (size_t length = 0; length < 59; length++)
        EXPECT(open_bundle(log_b, length) == OUTLINE_BAD_BUNDLE);
    EXPECT(open_bundle(log_b, 60) == OUTLINE_BAD_BUNDLE);
    EXPECT(outline_bundle_open(log_b, 31, bundle, 60) == OUTLINE_UNSOUND);
    bundle[46] = 2;
    EXPECT(open_bundle(log_b, 59) == OUTLINE_BAD_BUNDLE);
    EXPECT(outline_bundle_open(log_b, sizeof log_b, nothing, 2) == OUTLINE_BAD_BUNDLE);
    EXPECT(memcmp(before, log_b, sizeof log_b) == 0);
    /* For what it has itself, and for one that is ahead: nothing. */
    outline_counts(log_a, sizeof log_a, counts, sizeof counts);
    EXPECT(outline_bundle_make(log_a, 88, counts, bundle, 1) == VALUE(1) && bundle[0] == 0);
    counts[0] = 255;
    EXPECT(outline_bundle_make(log_a, 88, counts, bundle, 0) == OUTLINE_NO_ROOM);
    EXPECT(outline_bundle_make(log_a, 88, counts, bundle, 1) == VALUE(1) && bundle[0] == 0);
    EXPECT(open_bundle(log_b, 1) == VALUE(32) && memcmp(before, log_b, sizeof log_b) == 0);
}

/* Each answer of a delivery with a holdback: what is refused or held changes nothing. */
static void holdback_answers(void) {
    static uint8_t before[OUTLINE_LARGEST], held_before[OUTLINE_HOLDBACK];
    uint8_t first[OUTLINE_OP], second[OUTLINE_OP], third[OUTLINE_OP], bad[OUTLINE_OP];
    memset(log_b, 9, sizeof log_b);
    memset(holdback, 0, sizeof holdback);
    outline_make(log_a, sizeof log_a);
    outline_make(log_b, sizeof log_b);
    add(log_a, 1, 0);
    memcpy(first, op, sizeof first);
    add(log_a, 1, 0);
    memcpy(second, op, sizeof second);
    add(log_a, 2, 258);
    memcpy(third, op, sizeof third);
    /* Two that wait, in order of arrival, each once; the log is as before. */
    memcpy(before, log_b, sizeof before);
    EXPECT(deliver_held(log_b, third) == OUTLINE_WAITING);
    EXPECT(deliver_held(log_b, second) == OUTLINE_WAITING);
    memcpy(held_before, holdback, sizeof holdback);
    EXPECT(deliver_held(log_b, third) == OUTLINE_WAITING);
    EXPECT(deliver_held(log_b, second) == OUTLINE_WAITING);
    EXPECT(memcmp(held_before, holdback, sizeof holdback) == 0);
    EXPECT(memcmp(before, log_b, sizeof before) == 0);
    EXPECT(holdback[0] == 2 && memcmp(holdback + 1, third, OUTLINE_OP) == 0);
    EXPECT(memcmp(holdback + 1 + OUTLINE_OP, second, OUTLINE_OP) == 0);
    for (size_t i = 1 + 2 * OUTLINE_OP; i < OUTLINE_HOLDBACK; i++) EXPECT(holdback[i] == 0);
    /* The refusals, one after the other: the first of two causes is answered. */
    size_t some = OUTLINE_HOLDBACK, more = OUTLINE_HEADER + OUTLINE_OP;
    EXPECT(outline_holdback_deliver(log_b, 31, first, 13, holdback, 448) == OUTLINE_UNSOUND);
    EXPECT(outline_holdback_deliver(log_b, 32, first, 13, holdback, 448) == OUTLINE_BAD_HOLDBACK);
    EXPECT(outline_holdback_deliver(log_b, 32, first, 13, holdback, some) == OUTLINE_LENGTH);
    memcpy(bad, third, sizeof bad);
    bad[0] = 5;
    EXPECT(deliver_held(log_b, bad) == OUTLINE_MALFORMED);
    memcpy(bad, first, sizeof bad);
    bad[3] = 2;
    EXPECT(deliver_held(log_b, bad) == OUTLINE_UNKNOWN);
    EXPECT(outline_holdback_deliver(log_b, more - 1, bad, 14, holdback, some) == OUTLINE_UNKNOWN);
    EXPECT(outline_holdback_deliver(log_b, more - 1, first, 14, holdback, some) ==
           OUTLINE_NO_ROOM);
    EXPECT(memcmp(before, log_b, sizeof before) == 0);
    EXPECT(memcmp(held_before, holdback, sizeof holdback) == 0);
    /* Accepted with the two that waited, and not a byte more lent than they need. */
    EXPECT(outline_holdback_deliver(log_b, 74, first, 14, holdback, some) == VALUE(74));
    EXPECT(memcmp(log_a, log_b, 74) == 0);
    EXPECT(memcmp(before + 74, log_b + 74, sizeof before - 74) == 0);
    for (size_t i = 0; i < OUTLINE_HOLDBACK; i++) EXPECT(holdback[i] == 0);
    EXPECT(deliver_held(log_b, second) == OUTLINE_HAD_IT);
    EXPECT(deliver_held(log_b, bad) == OUTLINE_CONFLICT);
    memcpy(bad, third, sizeof bad); /* replica 3, which has seen 513 and not what 513 had seen */
    bad[1] = 3;
    bad[2] = 3;
    bad[6] = 1;
    bad[7] = 1;
    EXPECT(deliver_held(log_b, bad) == OUTLINE_NOT_CLOSED);
    /* A delivery without a holdback never leaves one waiting. */
    outline_make(log_b, sizeof log_b);
    EXPECT(deliver(log_b, third) == OUTLINE_EARLY);
}

/* What is no holdback, from every side; and one that is full. */
static void holdbacks(void) {
    static uint8_t before[OUTLINE_HOLDBACK + 1];
    const uint8_t *ops = log_a + OUTLINE_HEADER;
    const size_t last = OUTLINE_HOLDBACK_OPS + 1; /* the last op of log_a, from 0 */
    outline_make(log_a, sizeof log_a);
    outline_make(log_b, sizeof log_b);
    for (size_t i = 0; i <= last; i++) add(log_a, 1, 0);
    memset(before, 0, sizeof before);
    for (size_t length = 0; length <= OUTLINE_HOLDBACK + 1; length++)
        if (length != OUTLINE_HOLDBACK)
            EXPECT(outline_holdback_deliver(log_b, sizeof log_b, ops, OUTLINE_OP, before, length) ==
                   OUTLINE_BAD_HOLDBACK);
    memset(holdback, 0, sizeof holdback);
    for (int count = 33; count < 256; count++) {
        holdback[0] = (uint8_t)count;
        EXPECT(deliver_held(log_b, ops) == OUTLINE_BAD_HOLDBACK);
    }
    holdback[0] = 0;
    for (size_t i = 1; i < OUTLINE_HOLDBACK; i++) { /* a byte past its ops, for every count */
        holdback[i] = 1;
        holdback[0] = (uint8_t)((i - 1) / OUTLINE_OP);
        EXPECT(deliver_held(log_b, ops) == OUTLINE_BAD_HOLDBACK);
        holdback[i] = 0;
    }
    EXPECT(outline_end(log_b, sizeof log_b) == VALUE(OUTLINE_HEADER));
    /* From the last on: 32 wait, and then there is no place. */
    holdback[0] = 0;
    for (size_t i = last; i > 1; i--)
        EXPECT(deliver_held(log_b, ops + OUTLINE_OP * i) == OUTLINE_WAITING);
    EXPECT(holdback[0] == OUTLINE_HOLDBACK_OPS);
    memcpy(before, holdback, sizeof holdback);
    EXPECT(deliver_held(log_b, ops + OUTLINE_OP) == OUTLINE_HOLDBACK_FULL);
    EXPECT(deliver_held(log_b, ops + OUTLINE_OP * last) == OUTLINE_WAITING);
    EXPECT(deliver_held(log_b, ops + OUTLINE_OP * 2) == OUTLINE_WAITING);
    EXPECT(memcmp(before, holdback, sizeof holdback) == 0);
    EXPECT(outline_end(log_b, sizeof log_b) == VALUE(OUTLINE_HEADER));
    /* An op that is not early needs no place. The next one brings all, 33 in one call. */
    EXPECT(deliver_held(log_b, ops) == VALUE(OUTLINE_HEADER + OUTLINE_OP));
    EXPECT(memcmp(before, holdback, sizeof holdback) == 0);
    EXPECT(deliver_held(log_b, ops + OUTLINE_OP) == outline_end(log_a, sizeof log_a));
    EXPECT(memcmp(log_a, log_b, OUTLINE_HEADER + OUTLINE_OP * (last + 1)) == 0);
    for (size_t i = 0; i < OUTLINE_HOLDBACK; i++) EXPECT(holdback[i] == 0);
}

static void put(size_t place, const uint8_t *bytes) {
    memcpy(holdback + 1 + OUTLINE_OP * place, bytes, OUTLINE_OP);
}

static bool waits(size_t place, const uint8_t *bytes) {
    return memcmp(holdback + 1 + OUTLINE_OP * place, bytes, OUTLINE_OP) == 0;
}

/* What the search drops and what it leaves, in a holdback that no call has made. */
static void searches(void) {
    uint8_t ops[5][OUTLINE_OP], noise[OUTLINE_OP], unknown[OUTLINE_OP], other[OUTLINE_OP];
    const uint8_t gap[OUTLINE_OP] = {OUTLINE_ADD, 4, 4, 1, 0, 0, 0, 1};
    const uint8_t *first = ops[0], *second = ops[1], *third = ops[2], *fifth = ops[4];
    outline_make(log_a, sizeof log_a);
    outline_make(log_b, sizeof log_b);
    for (int i = 0; i < 5; i++) {
        add(log_a, i == 1 ? 2 : 1, 0);
        memcpy(ops[i], op, sizeof op);
    }
    memset(noise, 255, sizeof noise);
    memcpy(unknown, second, sizeof unknown);
    unknown[1] = 3;
    memcpy(other, second, sizeof other);
    other[4] = 1;
    other[5] = 1;
    memset(holdback, 0, sizeof holdback);
    holdback[0] = 8;
    put(0, noise);   /* malformed */
    put(1, fifth);   /* early to the end */
    put(2, first);   /* held, since it is the one that is delivered */
    put(3, unknown); /* of replica 3, and adds a node of replica 2 */
    put(4, other);   /* accepted, with 257 as its parent */
    put(5, second);  /* in conflict, since the other was in front of it */
    put(6, gap);     /* has seen an op of replica 2, and not what this had seen */
    put(7, third);   /* lacks room */
    EXPECT(outline_holdback_deliver(log_b, 60, first, OUTLINE_OP, holdback, OUTLINE_HOLDBACK) ==
           VALUE(60));
    EXPECT(memcmp(log_b + 46, other, OUTLINE_OP) == 0);
    EXPECT(holdback[0] == 2 && waits(0, fifth) && waits(1, third));
    for (size_t i = 1 + 2 * OUTLINE_OP; i < OUTLINE_HOLDBACK; i++) EXPECT(holdback[i] == 0);
    /* Had it, a refusal, one that waits: nothing is searched, though there is room now. */
    EXPECT(deliver_held(log_b, first) == OUTLINE_HAD_IT);
    EXPECT(deliver_held(log_b, second) == OUTLINE_CONFLICT);
    EXPECT(deliver_held(log_b, fifth) == OUTLINE_WAITING);
    EXPECT(holdback[0] == 2 && outline_end(log_b, sizeof log_b) == VALUE(60));
    /* The third by itself, which is then met as one that is held. */
    EXPECT(deliver_held(log_b, third) == VALUE(74) && holdback[0] == 1 && waits(0, fifth));
    EXPECT(deliver_held(log_b, ops[3]) == VALUE(102) && holdback[0] == 0);
}

/*
 * The page of a log: the order as a bundle of all ops has it, parents and outcomes
 * as judging fills them, and 9s behind.
 */
static void page_of(const uint8_t *log, struct page *fresh) {
    size_t end = outline_value(outline_end(log, OUTLINE_LARGEST));
    size_t count = (end - OUTLINE_HEADER) / OUTLINE_OP;
    size_t length =
        outline_value(outline_bundle_make(log, OUTLINE_LARGEST, nothing, bundle, sizeof bundle));
    const uint8_t *next = bundle + length - OUTLINE_OP * count;
    memset(fresh, 9, sizeof *fresh);
    outline_judge(log, OUTLINE_LARGEST, fresh->parents, OUTLINE_TABLE, fresh->outcomes,
                  OUTLINE_TABLE);
    for (size_t i = 0; i < OUTLINE_ORDER; i++) {
        fresh->order[i] = 0;
        if (i >= count) continue;
        uint16_t node = outline_node(outline_op_replica(next), outline_op_sequence(next));
        fresh->order[i] = (uint16_t)outline_slot(node);
        next += OUTLINE_OP;
    }
}

static bool same_pages(const struct page *a, const struct page *b) {
    return memcmp(a->order, b->order, sizeof a->order) == 0 &&
           memcmp(a->parents, b->parents, sizeof a->parents) == 0 &&
           memcmp(a->outcomes, b->outcomes, sizeof a->outcomes) == 0;
}

/* Whether the page is what judging the log says. */
static bool is_true(const uint8_t *log) {
    static struct page fresh;
    page_of(log, &fresh);
    return same_pages(&page, &fresh);
}

/* What calls that change nothing have to leave: log_b, op and page. */
static uint8_t kept_log[OUTLINE_LARGEST], kept_op[OUTLINE_OP];
static struct page kept_page;

static void keep(void) {
    memcpy(kept_log, log_b, sizeof kept_log);
    memcpy(kept_op, op, sizeof kept_op);
    memcpy(&kept_page, &page, sizeof kept_page);
}

static bool is_kept(void) {
    return memcmp(kept_log, log_b, sizeof kept_log) == 0 &&
           memcmp(kept_op, op, sizeof kept_op) == 0 && same_pages(&kept_page, &page);
}

/* Two nodes, and each moved below the other: the first of the two moves comes late. */
static void late_ops(void) {
    uint8_t ops[4][OUTLINE_OP];
    outline_make(log_a, sizeof log_a);
    for (int i = 0; i < 2; i++) {
        add(log_a, 1, 0);
        memcpy(ops[i], op, sizeof op);
    }
    memcpy(log_b, log_a, sizeof log_b);
    move(log_a, 1, 258, 257);
    memcpy(ops[2], op, sizeof op);
    move(log_b, 2, 257, 258);
    memcpy(ops[3], op, sizeof op);
    memset(&page, 9, sizeof page);
    memset(log_b, 9, sizeof log_b);
    outline_make(log_b, sizeof log_b);
    /* A page of 9s is built anew, from no op; then those that come last are judged alone. */
    for (size_t i = 0; i < 3; i++) {
        EXPECT(deliver_paged(log_b, ops[i]) == VALUE(46 + OUTLINE_OP * i) && is_true(log_b));
    }
    EXPECT(page.parents[outline_slot(258)] == 257 && page.outcomes[3] == OUTLINE_APPLIED);
    /* 2:1 is judged before 1:3, which is taken back and then would close a circle. */
    EXPECT(deliver_paged(log_b, ops[3]) == VALUE(88) + OUTLINE_TAKEN_BACK && is_true(log_b));
    EXPECT(page.order[0] == 1 && page.order[1] == 2 && page.order[4] == 0);
    EXPECT(page.order[2] == outline_slot(outline_node(2, 1)) && page.order[3] == 3);
    EXPECT(page.parents[outline_slot(258)] == 0 && page.parents[outline_slot(257)] == 258);
    EXPECT(page.outcomes[3] == OUTLINE_WOULD_CLOSE_CIRCLE);
    EXPECT(log_b[88] == 9 && log_b[sizeof log_b - 1] == 9);
    /* Had it, each: nothing is taken back. */
    keep();
    for (size_t i = 0; i < 4; i++) EXPECT(deliver_paged(log_b, ops[i]) == OUTLINE_HAD_IT);
    EXPECT(is_kept());
    /* Issues are judged last. */
    EXPECT(add_in(log_b, 102, 3, 257, sizeof op, whole) == VALUE(102) && is_true(log_b));
    EXPECT(outline_op_node(op) == outline_node(3, 1) && log_b[102] == 9);
    EXPECT(move_in(log_b, sizeof log_b, 3, 769, 0, sizeof op, whole) == VALUE(116));
    EXPECT(is_true(log_b) && outline_op_kind(op) == OUTLINE_MOVE_UP);
    EXPECT(page.parents[outline_slot(769)] == 0);
    EXPECT(remove_in(log_b, sizeof log_b, 1, 769, sizeof op, whole) == VALUE(130));
    EXPECT(is_true(log_b) && outline_op_kind(op) == OUTLINE_REMOVE);
    EXPECT(page.order[6] == outline_slot(outline_node(1, 4)) && page.order[7] == 0);
}

/* Eight replicas that never met, one after the other, to a full log. */
static void late_replicas(void) {
    static uint8_t apart[OUTLINE_LARGEST];
    memset(&page, 9, sizeof page);
    memset(page.order, 0, sizeof page.order[0] * OUTLINE_ORDER);
    outline_make(log_a, sizeof log_a);
    for (size_t s = 1; s <= OUTLINE_REPLICAS; s++) {
        outline_make(apart, sizeof apart);
        for (size_t q = 1; q <= 255; q++) {
            outline_issue_add(apart, sizeof apart, (uint8_t)s, 0, op, sizeof op);
            /* Of each replica before, op q and those behind it are judged later. */
            size_t answer = deliver_paged(log_a, op);
            EXPECT(outline_page_taken(answer) == (s - 1) * (256 - q));
            EXPECT(outline_page_answer(answer) == outline_end(log_a, sizeof log_a));
            if (q % 51 == 0) EXPECT(is_true(log_a));
        }
    }
    EXPECT(page.order[OUTLINE_ORDER - 1] == 255 && page.order[OUTLINE_ORDER] == 9 * 257);
    EXPECT(add_in(log_a, sizeof log_a, 1, 0, sizeof op, whole) == OUTLINE_EXHAUSTED);
    EXPECT(is_true(log_a));
}

/*
 * log_b with nodes 257, 258 below it and 513 below that, 259, which is removed,
 * and all that replica 8 can add; and its page.
 */
static void start_paged(void) {
    outline_make(log_b, sizeof log_b);
    add(log_b, 1, 0);
    add(log_b, 1, 257);
    add(log_b, 2, 258);
    add(log_b, 1, 0);
    outline_issue_remove(log_b, sizeof log_b, 1, 259, op, sizeof op);
    for (int i = 0; i < 255; i++) add(log_b, 8, 0);
    page_of(log_b, &page);
}

static void refused_deliveries(void) {
    const uint8_t good[OUTLINE_OP] = {OUTLINE_ADD, 3, 3, 1};
    const uint8_t held[OUTLINE_OP] = {OUTLINE_ADD, 1, 1, 1};
    const uint8_t other[OUTLINE_OP] = {OUTLINE_ADD, 1, 1, 1, 1, 2};
    const uint8_t malformed[OUTLINE_OP] = {5, 3, 3, 1};
    const uint8_t early[OUTLINE_OP] = {OUTLINE_ADD, 3, 3, 1, 0, 0, 5};
    const uint8_t gap[OUTLINE_OP] = {OUTLINE_ADD, 3, 3, 1, 0, 0, 1, 1};
    const uint8_t unknown[OUTLINE_OP] = {OUTLINE_ADD, 3, 3, 1, 1, 1};
    size_t size = sizeof log_b, end = outline_value(outline_end(log_b, size));
    const size_t none[3] = {0, 0, 0};
    EXPECT(deliver_in(log_b, end - 1, malformed, 13, none) == OUTLINE_UNSOUND);
    EXPECT(deliver_in(log_b, size, malformed, 14, none) == OUTLINE_LENGTH);
    EXPECT(deliver_in(log_b, size, good, 13, whole) == OUTLINE_LENGTH);
    EXPECT(deliver_in(log_b, size, good, 15, whole) == OUTLINE_LENGTH);
    for (int table = 0; table < 3; table++) { /* each too short alone, by one and wholly */
        size_t lent[3] = {OUTLINE_ORDER, OUTLINE_TABLE, OUTLINE_TABLE};
        lent[table]--;
        EXPECT(deliver_in(log_b, size, good, 14, lent) == OUTLINE_LENGTH);
        EXPECT(deliver_in(log_b, size, held, 14, lent) == OUTLINE_LENGTH);
        lent[table] = 0;
        EXPECT(deliver_in(log_b, size, good, 14, lent) == OUTLINE_LENGTH);
        EXPECT(deliver_in(log_b, size, malformed, 14, lent) == OUTLINE_LENGTH);
    }
    EXPECT(deliver_in(log_b, size, malformed, 14, whole) == OUTLINE_MALFORMED);
    EXPECT(deliver_in(log_b, size, held, 14, whole) == OUTLINE_HAD_IT);
    EXPECT(deliver_in(log_b, size, other, 14, whole) == OUTLINE_CONFLICT);
    EXPECT(deliver_in(log_b, size, early, 14, whole) == OUTLINE_EARLY);
    EXPECT(deliver_in(log_b, size, gap, 14, whole) == OUTLINE_NOT_CLOSED);
    EXPECT(deliver_in(log_b, end, unknown, 14, whole) == OUTLINE_UNKNOWN);
    EXPECT(deliver_in(log_b, end + 13, good, 14, whole) == OUTLINE_NO_ROOM);
}

static void refused_issues(void) {
    size_t size = sizeof log_b, end = outline_value(outline_end(log_b, size));
    const size_t none[3] = {0, 0, 0};
    EXPECT(add_in(log_b, end - 1, 9, 1, 13, none) == OUTLINE_UNSOUND);
    EXPECT(remove_in(log_b, end - 1, 9, 1, 13, none) == OUTLINE_UNSOUND);
    EXPECT(move_in(log_b, end - 1, 9, 1, 1, 13, none) == OUTLINE_UNSOUND);
    EXPECT(add_in(log_b, size, 9, 1, 13, whole) == OUTLINE_LENGTH);
    EXPECT(remove_in(log_b, size, 9, 1, 13, whole) == OUTLINE_LENGTH);
    EXPECT(move_in(log_b, size, 9, 1, 1, 13, whole) == OUTLINE_LENGTH);
    for (int table = 0; table < 3; table++) {
        size_t lent[3] = {OUTLINE_ORDER, OUTLINE_TABLE, OUTLINE_TABLE};
        lent[table]--;
        EXPECT(add_in(log_b, size, 9, 0, 14, lent) == OUTLINE_LENGTH);
        EXPECT(remove_in(log_b, size, 9, 257, 14, lent) == OUTLINE_LENGTH);
        EXPECT(move_in(log_b, size, 9, 258, 0, 14, lent) == OUTLINE_LENGTH);
        lent[table] = 0;
        EXPECT(add_in(log_b, size, 1, 0, 14, lent) == OUTLINE_LENGTH);
        EXPECT(remove_in(log_b, size, 1, 257, 14, lent) == OUTLINE_LENGTH);
        EXPECT(move_in(log_b, size, 1, 258, 0, 14, lent) == OUTLINE_LENGTH);
    }
    EXPECT(add_in(log_b, size, 9, 1, 14, whole) == OUTLINE_MALFORMED);
    EXPECT(remove_in(log_b, size, 0, 1, 14, whole) == OUTLINE_MALFORMED);
    EXPECT(move_in(log_b, size, 9, 1, 1, 14, whole) == OUTLINE_MALFORMED);
    EXPECT(add_in(log_b, size, 8, 1, 14, whole) == OUTLINE_EXHAUSTED);
    EXPECT(remove_in(log_b, size, 8, 1, 14, whole) == OUTLINE_EXHAUSTED);
    EXPECT(move_in(log_b, size, 8, 1, 1, 14, whole) == OUTLINE_EXHAUSTED);
    EXPECT(add_in(log_b, size, 1, 1, 14, whole) == OUTLINE_UNKNOWN);
    EXPECT(remove_in(log_b, size, 1, 0, 14, whole) == OUTLINE_UNKNOWN);
    EXPECT(move_in(log_b, size, 1, 257, 257, 14, whole) == OUTLINE_UNKNOWN);
    EXPECT(add_in(log_b, end, 1, 259, 14, whole) == OUTLINE_MARKED);
    EXPECT(move_in(log_b, end, 1, 258, 259, 14, whole) == OUTLINE_MARKED);
    EXPECT(move_in(log_b, end, 1, 257, 513, 14, whole) == OUTLINE_CYCLE);
    EXPECT(add_in(log_b, end + 13, 1, 0, 14, whole) == OUTLINE_NO_ROOM);
    EXPECT(remove_in(log_b, end + 13, 1, 259, 14, whole) == OUTLINE_NO_ROOM);
    EXPECT(move_in(log_b, end + 13, 1, 513, 0, 14, whole) == OUTLINE_NO_ROOM);
}

/* What is refused, or held, leaves all as it was, be the page true or not. */
static void page_answers(void) {
    start_paged();
    for (int stains = 0; stains < 3; stains++) {
        if (stains == 1) page.order[3] ^= 1;
        if (stains == 2) memset(&page, 9, sizeof page);
        keep();
        refused_deliveries();
        refused_issues();
        EXPECT(is_kept());
    }
}

/* Changes an entry of a table of the page, or changes it back. */
static void stain(int table, size_t at) {
    if (table == 0) page.order[at] ^= 1;
    if (table == 1) page.parents[at] ^= 256;
    if (table == 2) page.outcomes[at] ^= 2;
}

/* Adds an op with the page in one of four ways. */
static size_t call_paged(int way, const uint8_t *bytes) {
    size_t size = sizeof log_b;
    switch (way) {
    case 0: return deliver_paged(log_b, bytes);
    case 1: return add_in(log_b, size, 3, 0, sizeof op, whole);
    case 2: return remove_in(log_b, size, 3, 257, sizeof op, whole);
    default: return move_in(log_b, size, 3, 258, 0, sizeof op, whole);
    }
}

/* One wrong entry, wherever it is counted, and the page is built anew; behind it none counts. */
static void page_stains(void) {
    static const uint8_t late[OUTLINE_OP] = {OUTLINE_ADD, 3, 3, 1, 0, 0, 1};
    static struct page good;
    const size_t at[] = {0, 1, 259, 260, 261, 1020, 2038, 2039, 2040, 2041};
    const size_t behind[] = {OUTLINE_ORDER, OUTLINE_TABLE, OUTLINE_TABLE};
    start_paged(); /* 260 ops */
    memcpy(kept_log, log_b, sizeof kept_log);
    memcpy(&good, &page, sizeof good);
    for (int table = 0; table < 3; table++)
        for (size_t i = 0; i < sizeof at / sizeof at[0] && at[i] <= behind[table]; i++)
            for (int way = 0; way < 4; way++) {
                bool counts = at[i] < behind[table];
                size_t later = way == 0 ? 259 : 0; /* the late one is judged after 1:1 alone */
                memcpy(log_b, kept_log, sizeof log_b);
                memcpy(&page, &good, sizeof page);
                stain(table, at[i]);
                size_t answer = call_paged(way, late);
                EXPECT(outline_page_taken(answer) == (counts ? 260 : later));
                EXPECT(outline_page_answer(answer) == VALUE(OUTLINE_HEADER + 261 * OUTLINE_OP));
                if (!counts) stain(table, at[i]);
                EXPECT(is_true(log_b));
            }
}

/* A page that a call without it made old: the next with it tells all ops held before. */
static void old_pages(void) {
    const uint8_t *first = log_a + OUTLINE_HEADER;
    const uint8_t *second = first + OUTLINE_OP, *third = second + OUTLINE_OP;
    outline_make(log_a, sizeof log_a);
    for (int i = 0; i < 3; i++) add(log_a, 1, 0);
    memset(&page, 9, sizeof page);
    outline_make(log_b, sizeof log_b);
    EXPECT(deliver_paged(log_b, first) == VALUE(46));
    EXPECT(deliver(log_b, second) == VALUE(60) && !is_true(log_b));
    keep();
    EXPECT(deliver_paged(log_b, second) == OUTLINE_HAD_IT && is_kept());
    /* The op is judged last, and still the page was built anew. */
    EXPECT(deliver_paged(log_b, third) == VALUE(74) + 2 * OUTLINE_TAKEN_BACK && is_true(log_b));
    EXPECT(add(log_b, 1, 0) == VALUE(88));
    EXPECT(add_in(log_b, sizeof log_b, 1, 0, 14, whole) == VALUE(102) + 4 * OUTLINE_TAKEN_BACK);
    EXPECT(is_true(log_b));
    outline_issue_remove(log_b, sizeof log_b, 1, 257, op, sizeof op);
    EXPECT(remove_in(log_b, sizeof log_b, 1, 257, 14, whole) ==
           VALUE(130) + 6 * OUTLINE_TAKEN_BACK);
    EXPECT(is_true(log_b));
    move(log_b, 1, 258, 259);
    EXPECT(move_in(log_b, sizeof log_b, 1, 258, 0, 14, whole) ==
           VALUE(158) + 8 * OUTLINE_TAKEN_BACK);
    EXPECT(is_true(log_b));
    /* A holdback, a bundle, and a log that was made anew. */
    memset(holdback, 0, sizeof holdback);
    outline_make(log_b, sizeof log_b);
    EXPECT(!is_true(log_b));
    EXPECT(deliver_paged(log_b, first) == VALUE(46) && is_true(log_b));
    EXPECT(deliver_held(log_b, third) == OUTLINE_WAITING && is_true(log_b));
    EXPECT(deliver_held(log_b, second) == VALUE(74) && !is_true(log_b));
    EXPECT(add_in(log_b, sizeof log_b, 2, 0, 14, whole) == VALUE(88) + 3 * OUTLINE_TAKEN_BACK);
    EXPECT(is_true(log_b));
    outline_make(log_b, sizeof log_b);
    EXPECT(deliver_paged(log_b, first) == VALUE(46));
    size_t length =
        outline_value(outline_bundle_make(log_a, sizeof log_a, nothing, bundle, sizeof bundle));
    EXPECT(open_bundle(log_b, length) == VALUE(74) && !is_true(log_b));
    EXPECT(add_in(log_b, sizeof log_b, 2, 0, 14, whole) == VALUE(88) + 3 * OUTLINE_TAKEN_BACK);
    EXPECT(is_true(log_b));
}

/* Length 0 with NULL. */
static void nulls(void) {
    uint8_t *none = NULL;
    uint16_t *no_entries = NULL;
    EXPECT(outline_make(none, 0) == OUTLINE_NO_ROOM);
    EXPECT(!outline_is_sound(none, 0) && outline_end(none, 0) == OUTLINE_UNSOUND);
    EXPECT(outline_counts(none, 0, none, 0) == OUTLINE_UNSOUND);
    EXPECT(outline_deliver(none, 0, none, 0) == OUTLINE_UNSOUND);
    EXPECT(outline_holdback_deliver(none, 0, none, 0, none, 0) == OUTLINE_UNSOUND);
    EXPECT(outline_bundle_make(none, 0, nothing, none, 0) == OUTLINE_UNSOUND);
    EXPECT(outline_bundle_open(none, 0, none, 0) == OUTLINE_UNSOUND);
    EXPECT(outline_issue_add(none, 0, 1, 0, none, 0) == OUTLINE_UNSOUND);
    EXPECT(outline_issue_remove(none, 0, 1, 257, none, 0) == OUTLINE_UNSOUND);
    EXPECT(outline_issue_move(none, 0, 1, 257, 0, none, 0) == OUTLINE_UNSOUND);
    EXPECT(outline_issue_moves(none, 0, 1, no_entries, 0, 0, none, 0) == OUTLINE_UNSOUND);
    EXPECT(outline_judge(none, 0, no_entries, 0, none, 0) == OUTLINE_UNSOUND);
    EXPECT(outline_page_deliver(none, 0, none, 0, no_entries, 0, no_entries, 0, none, 0) ==
           OUTLINE_UNSOUND);
    EXPECT(outline_page_issue_add(none, 0, 1, 0, none, 0, no_entries, 0, no_entries, 0, none, 0) ==
           OUTLINE_UNSOUND);
    EXPECT(outline_page_issue_remove(none, 0, 1, 257, none, 0, no_entries, 0, no_entries, 0, none,
                                     0) == OUTLINE_UNSOUND);
    EXPECT(outline_page_issue_move(none, 0, 1, 257, 0, none, 0, no_entries, 0, no_entries, 0, none,
                                   0) == OUTLINE_UNSOUND);
    EXPECT(outline_path(none, 0, 0, no_entries, 0) == OUTLINE_UNSOUND);
    EXPECT(outline_listing(none, 0, false, none, 0) == OUTLINE_UNSOUND);
    EXPECT(outline_listing_size(none, 0, true) == OUTLINE_UNSOUND);
    EXPECT(outline_causal_order(none, 0, no_entries, 0) == OUTLINE_UNSOUND);
    /* However much is lent beside it, a buffer of length 0 is no log. */
    size_t entries = OUTLINE_TABLE;
    memset(holdback, 0, sizeof holdback);
    EXPECT(outline_holdback_deliver(none, 0, op, sizeof op, holdback, sizeof holdback) ==
           OUTLINE_UNSOUND);
    EXPECT(outline_issue_add(none, 0, 1, 0, op, sizeof op) == OUTLINE_UNSOUND);
    EXPECT(outline_bundle_make(none, 0, nothing, bundle, sizeof bundle) == OUTLINE_UNSOUND);
    EXPECT(outline_judge(none, 0, parents, entries, outcomes, entries) == OUTLINE_UNSOUND);
    EXPECT(deliver_in(none, 0, op, sizeof op, whole) == OUTLINE_UNSOUND);
    EXPECT(add_in(none, 0, 1, 0, sizeof op, whole) == OUTLINE_UNSOUND);
    EXPECT(outline_path(none, 0, 0, path, entries) == OUTLINE_UNSOUND);
    EXPECT(outline_listing(none, 0, false, text, sizeof text) == OUTLINE_UNSOUND);
    outline_make(log_a, sizeof log_a);
    EXPECT(outline_causal_order(log_a, sizeof log_a, no_entries, 0) == VALUE(0));
    add(log_a, 1, 0);
    EXPECT(outline_counts(log_a, sizeof log_a, none, 0) == OUTLINE_NO_ROOM);
    EXPECT(outline_deliver(log_a, sizeof log_a, none, 0) == OUTLINE_LENGTH);
    EXPECT(outline_holdback_deliver(log_a, sizeof log_a, op, sizeof op, none, 0) ==
           OUTLINE_BAD_HOLDBACK);
    EXPECT(outline_holdback_deliver(log_a, sizeof log_a, none, 0, holdback, sizeof holdback) ==
           OUTLINE_LENGTH);
    EXPECT(outline_bundle_make(log_a, sizeof log_a, nothing, none, 0) == OUTLINE_NO_ROOM);
    EXPECT(outline_bundle_open(log_a, sizeof log_a, none, 0) == OUTLINE_BAD_BUNDLE);
    EXPECT(outline_issue_add(log_a, sizeof log_a, 1, 0, none, 0) == OUTLINE_LENGTH);
    EXPECT(outline_issue_remove(log_a, sizeof log_a, 1, 257, none, 0) == OUTLINE_LENGTH);
    EXPECT(outline_issue_move(log_a, sizeof log_a, 1, 257, 0, none, 0) == OUTLINE_LENGTH);
    EXPECT(outline_issue_moves(log_a, sizeof log_a, 1, path, 1, 0, none, 0) == OUTLINE_LENGTH);
    EXPECT(outline_issue_moves(log_a, sizeof log_a, 1, no_entries, 0, 0, none, 0) == VALUE(46));
    EXPECT(outline_judge(log_a, sizeof log_a, no_entries, 0, none, 0) == OUTLINE_LENGTH);
    EXPECT(outline_judge(log_a, sizeof log_a, parents, OUTLINE_TABLE, none, 0) == OUTLINE_LENGTH);
    EXPECT(deliver_in(log_a, sizeof log_a, none, 0, whole) == OUTLINE_LENGTH);
    EXPECT(outline_page_deliver(log_a, sizeof log_a, op, sizeof op, no_entries, 0, no_entries, 0,
                                none, 0) == OUTLINE_LENGTH);
    EXPECT(outline_page_issue_add(log_a, sizeof log_a, 1, 0, op, sizeof op, page.order,
                                  OUTLINE_ORDER, no_entries, 0, none, 0) == OUTLINE_LENGTH);
    EXPECT(outline_page_issue_remove(log_a, sizeof log_a, 1, 257, op, sizeof op, page.order,
                                     OUTLINE_ORDER, page.parents, OUTLINE_TABLE, none,
                                     0) == OUTLINE_LENGTH);
    EXPECT(outline_page_issue_move(log_a, sizeof log_a, 1, 257, 0, none, 0, page.order,
                                   OUTLINE_ORDER, page.parents, OUTLINE_TABLE, page.outcomes,
                                   OUTLINE_TABLE) == OUTLINE_LENGTH);
    EXPECT(outline_path(log_a, sizeof log_a, 0, no_entries, 0) == OUTLINE_NO_ROOM);
    EXPECT(outline_listing(log_a, sizeof log_a, false, none, 0) == OUTLINE_NO_ROOM);
    EXPECT(outline_causal_order(log_a, sizeof log_a, no_entries, 0) == OUTLINE_NO_ROOM);
}

/* A full log, its replicas taking turns: one pass or bundle hands it over, file order does not. */
static void handing_over(void) {
    size_t last = 0, accepted = 0, early = 0;
    outline_make(log_a, sizeof log_a);
    for (int i = 0; i < OUTLINE_MOST_OPS; i++) add(log_a, (uint8_t)(i % 8 + 1), 0);
    EXPECT(outline_end(log_a, sizeof log_a) == VALUE(OUTLINE_LARGEST));
    places[0] = 7;
    EXPECT(outline_causal_order(log_a, sizeof log_a, places, OUTLINE_MOST_OPS - 1) ==
           OUTLINE_NO_ROOM);
    EXPECT(outline_causal_order(log_a, OUTLINE_LARGEST - 1, places, OUTLINE_MOST_OPS) ==
           OUTLINE_UNSOUND);
    EXPECT(places[0] == 7);
    places[OUTLINE_MOST_OPS] = 7;
    EXPECT(outline_causal_order(log_a, sizeof log_a, places, OUTLINE_MOST_OPS + 1) ==
           VALUE(OUTLINE_MOST_OPS));
    EXPECT(places[OUTLINE_MOST_OPS] == 7);
    outline_make(log_b, sizeof log_b);
    for (size_t i = 0; i < OUTLINE_MOST_OPS; i++) {
        const uint8_t *next = log_a + places[i];
        EXPECT(last <= outline_op_sum(next));
        last = outline_op_sum(next);
        accepted += !outline_refused(deliver(log_b, next));
    }
    EXPECT(accepted == OUTLINE_MOST_OPS && memcmp(log_a, log_b, sizeof log_a) == 0);
    outline_make(log_b, sizeof log_b);
    for (size_t at = OUTLINE_HEADER; at < OUTLINE_LARGEST; at += OUTLINE_OP)
        early += deliver(log_b, log_a + at) == OUTLINE_EARLY;
    EXPECT(early > 0);
    EXPECT(outline_bundle_make(log_a, sizeof log_a, nothing, bundle, sizeof bundle) ==
           VALUE(OUTLINE_LARGEST_BUNDLE));
    outline_make(log_b, sizeof log_b);
    EXPECT(open_bundle(log_b, OUTLINE_LARGEST_BUNDLE) == VALUE(OUTLINE_LARGEST));
    EXPECT(memcmp(log_a, log_b, sizeof log_a) == 0);
    EXPECT(outline_listing(log_a, sizeof log_a, false, text, sizeof text) ==
           outline_listing_size(log_a, sizeof log_a, false));
}

int main(void) {
    versions();
    numbers();
    slots();
    fields();
    answers();
    removed();
    clashes();
    batches();
    refused_batches();
    empty_batches();
    batch_outcomes();
    measures();
    bundles();
    holdback_answers();
    holdbacks();
    searches();
    late_ops();
    late_replicas();
    page_answers();
    page_stains();
    old_pages();
    nulls();
    handing_over();
    if (failures == 0) puts("header: all as said");
    return failures == 0 ? 0 : 1;
}
