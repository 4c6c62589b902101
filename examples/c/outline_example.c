/*
 * Two machines, each with a log of its own. One makes two headings and the
 * other gets them; then, apart, each moves a heading below the other's. They
 * meet, hand each other a bundle, and hold the same file and the same tree.
 * Then one heading is removed, and takes no new work. A third machine gets all
 * ops by post, the last first: those that come early wait. A fourth one, which
 * keeps a page for its screen, gets them one by one, and one of them late. At last
 * it moves two nodes under one heading by one call.
 */
#include "outline.h"

#include <inttypes.h>
#include <stdio.h>
#include <stdlib.h>
#include <string.h>

struct machine {
    uint8_t replica;
    uint8_t log[OUTLINE_LARGEST];
    size_t end;
};

/* What judging a log says, kept beside it. */
struct page {
    uint16_t order[OUTLINE_ORDER];
    uint16_t parents[OUTLINE_TABLE];
    uint8_t outcomes[OUTLINE_TABLE];
};

/* Outcomes in words. */
static const char *const said[] = {"no op", "applied", "lost to another move of the node",
                                   "would have closed a circle"};

/* Ends the program where something is refused that cannot be. */
static size_t value_of(size_t answer) {
    if (outline_refused(answer)) {
        fprintf(stderr, "refused %zu: %s\n", answer, outline_text(answer));
        exit(1);
    }
    return outline_value(answer);
}

static void start(struct machine *m, uint8_t replica) {
    m->replica = replica;
    m->end = value_of(outline_make(m->log, sizeof m->log));
}

static uint16_t add(struct machine *m, uint16_t parent) {
    uint8_t op[OUTLINE_OP];
    m->end = value_of(outline_issue_add(m->log, sizeof m->log, m->replica, parent, op, sizeof op));
    printf("machine %d adds node %d under %d\n", m->replica, outline_op_node(op), parent);
    return outline_op_node(op);
}

static void move(struct machine *m, uint16_t node, uint16_t parent) {
    uint8_t op[OUTLINE_OP];
    size_t answer =
        outline_issue_move(m->log, sizeof m->log, m->replica, node, parent, op, sizeof op);
    printf("machine %d moves node %d under %d: %s\n", m->replica, node, parent,
           outline_text(answer));
    if (!outline_refused(answer)) m->end = outline_value(answer);
}

/*
 * Moves nodes under one parent, up to 16 of them: all, or none. That is so at issue
 * only; once moves of other machines come, each of these has an outcome of its own.
 */
static void move_all(struct machine *m, const uint16_t *nodes, size_t count, uint16_t parent) {
    uint8_t ops[OUTLINE_MOST_MOVES * OUTLINE_OP];
    size_t answer = outline_issue_moves(m->log, sizeof m->log, m->replica, nodes, count, parent,
                                        ops, sizeof ops);
    printf("machine %d moves %zu nodes under %d: %s\n", m->replica, count, parent,
           outline_text(answer));
    if (!outline_refused(answer)) m->end = outline_value(answer);
}

static void take_away(struct machine *m, uint16_t node) {
    uint8_t op[OUTLINE_OP];
    m->end = value_of(outline_issue_remove(m->log, sizeof m->log, m->replica, node, op, sizeof op));
    printf("machine %d removes node %d\n", m->replica, node);
}

/*
 * Hands over what one log has and another lacks, in one bundle. Between machines
 * the counts go one way and then the bundle the other way.
 */
static void hand_over(const struct machine *from, struct machine *to) {
    static uint8_t bundle[OUTLINE_LARGEST_BUNDLE];
    uint8_t had[OUTLINE_REPLICAS];
    value_of(outline_counts(to->log, to->end, had, sizeof had));
    size_t length =
        value_of(outline_bundle_make(from->log, from->end, had, bundle, sizeof bundle));
    size_t end = value_of(outline_bundle_open(to->log, sizeof to->log, bundle, length));
    printf("machine %d opens a bundle of machine %d, of %zu bytes: %zu new\n", to->replica,
           from->replica, length, (end - to->end) / OUTLINE_OP);
    to->end = end;
}

/*
 * Hands over all that one log has, op by op and from its end. Whatever the order
 * is, an op that comes before what it counts waits in the holdback.
 */
static void post(const struct machine *from, struct machine *to) {
    uint8_t holdback[OUTLINE_HOLDBACK] = {0};
    for (size_t at = from->end; at > OUTLINE_HEADER; at -= OUTLINE_OP) {
        const uint8_t *op = from->log + at - OUTLINE_OP;
        size_t answer = outline_holdback_deliver(to->log, sizeof to->log, op, OUTLINE_OP, holdback,
                                                 sizeof holdback);
        printf("machine %d gets op %d of machine %d: %s\n", to->replica, outline_op_sequence(op),
               outline_op_replica(op), outline_text(answer));
        if (outline_value(answer) > 0) to->end = outline_value(answer);
    }
}

/*
 * Hands over all that one log has, op by op. The other keeps its page: only an op
 * that is judged before some that are there makes it judge these again.
 */
static void follow(const struct machine *from, struct machine *to, struct page *page) {
    static uint16_t places[OUTLINE_MOST_OPS];
    size_t count = value_of(outline_causal_order(from->log, from->end, places, OUTLINE_MOST_OPS));
    for (size_t i = 0; i < count; i++) {
        const uint8_t *op = from->log + places[i];
        size_t answer = outline_page_deliver(to->log, sizeof to->log, op, OUTLINE_OP, page->order,
                                             OUTLINE_ORDER, page->parents, OUTLINE_TABLE,
                                             page->outcomes, OUTLINE_TABLE);
        to->end = value_of(answer);
        printf("machine %d gets op %d of machine %d: %zu taken back\n", to->replica,
               outline_op_sequence(op), outline_op_replica(op), outline_page_taken(answer));
    }
}

/* Adds a node; the page goes along. */
static uint16_t add_to_page(struct machine *m, uint16_t parent, struct page *page) {
    uint8_t op[OUTLINE_OP];
    size_t answer = outline_page_issue_add(m->log, sizeof m->log, m->replica, parent, op, sizeof op,
                                           page->order, OUTLINE_ORDER, page->parents, OUTLINE_TABLE,
                                           page->outcomes, OUTLINE_TABLE);
    m->end = value_of(answer);
    printf("machine %d adds node %d under %d: %zu taken back\n", m->replica, outline_op_node(op),
           parent, outline_page_taken(answer));
    return outline_op_node(op);
}

/* The ops as they were judged; op q of machine s has the slot of the node 256 * s + q. */
static void show_page(const struct page *page) {
    for (size_t i = 0; i < OUTLINE_ORDER && page->order[i] != 0; i++) {
        size_t slot = page->order[i];
        uint16_t op = outline_slot_node(slot);
        printf("op %d of machine %d: %s\n", op % 256, op / 256, said[page->outcomes[slot]]);
    }
}

static bool same_files(const struct machine *m, const struct machine *other) {
    bool same = m->end == other->end && memcmp(m->log, other->log, m->end) == 0;
    printf("the files are %s: %zu bytes\n", same ? "the same" : "different", m->end);
    return same;
}

static void show(const struct machine *m) {
    static uint8_t text[OUTLINE_LONGEST_LISTING];
    size_t length = value_of(outline_listing(m->log, m->end, false, text, sizeof text));
    printf("machine %d (depth, node, k kept or r removed):\n", m->replica);
    fwrite(text, 1, length, stdout);
}

/* The outcome of every move. */
static void judge(const struct machine *m) {
    static uint16_t parents[OUTLINE_TABLE];
    static uint8_t outcomes[OUTLINE_TABLE];
    value_of(outline_judge(m->log, m->end, parents, OUTLINE_TABLE, outcomes, OUTLINE_TABLE));
    for (uint8_t s = 1; s <= 8; s++)
        for (int q = 1; q <= 255; q++) {
            uint8_t outcome = outcomes[outline_slot(outline_node(s, (uint8_t)q))];
            if (outcome != OUTLINE_NO_OP)
                printf("op %d of machine %d: %s\n", q, s, said[outcome]);
        }
}

static void show_path(const struct machine *m, uint16_t node) {
    uint16_t path[OUTLINE_LONGEST_PATH];
    size_t steps = value_of(outline_path(m->log, m->end, node, path, OUTLINE_LONGEST_PATH));
    printf("path of %d:", node);
    for (size_t i = 0; i < steps; i++) printf(" %" PRIu16, path[i]);
    printf("\n");
}

int main(void) {
    static struct machine one, two, three, four;
    static struct page page; /* any content would do at first */
    start(&one, 1);
    start(&two, 2);
    start(&three, 3);
    start(&four, 4);

    uint16_t a = add(&one, OUTLINE_ROOT);
    uint16_t b = add(&one, OUTLINE_ROOT);
    hand_over(&one, &two);

    move(&one, b, a);
    move(&two, a, b);
    show(&one);
    show(&two);

    hand_over(&one, &two);
    hand_over(&two, &one);
    bool same = same_files(&one, &two);
    show(&one);
    judge(&one);
    show_path(&one, a);
    move(&one, b, a);
    take_away(&one, b);
    move(&one, a, b);
    show(&one);

    post(&one, &three);
    same = same_files(&one, &three) && same;

    follow(&one, &four, &page);
    same = same_files(&one, &four) && same;
    uint16_t c = add_to_page(&four, a, &page);
    show_page(&page);
    printf("node %d is under %d\n", c, page.parents[outline_slot(c)]);

    uint16_t d = add(&four, OUTLINE_ROOT);
    const uint16_t with_removed[] = {c, b}, column[] = {c, a};
    move_all(&four, with_removed, 2, d);
    move_all(&four, column, 2, d);
    show(&four);
    return same ? 0 : 1;
}
