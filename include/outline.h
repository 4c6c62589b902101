/*
 * outline.h - a replicated outline: a tree of nodes that up to eight replicas
 * change without a line between them, and that is the same on all of them once
 * they have handed each other their ops.
 *
 * For C99 and C++. Link with liboutline_c.a (made by `make library`;
 * x86-64 Linux). The calls of the library are proved; docs/LIBRARY.md says what
 * that means for a caller. The inline functions here are plain C.
 *
 * Words. A log lies at the front of a buffer that the caller lends: 32 bytes of
 * header, then 14 bytes for each op. A replica is a number from 1 to 8; it
 * issues at most 255 ops. An op adds, removes or moves a node. The root is node
 * 0; the node that is added by op q of replica s is node 256 * s + q. A batch is
 * up to 16 moves under one parent that are issued by one call. A bundle has all
 * ops of a log that another lacks, in one piece. A holdback has places for 32 ops
 * that came before what they count and wait for it. A page is what judging a log
 * says, kept beside it in three tables: the order in which the ops are judged,
 * the nodes' parents and the ops' outcomes. An op that has been judged is taken
 * back to be judged again after one that sorts before it. A buffer of length 0
 * holds no log, though the programs print a file of no bytes as one without ops.
 *
 * Memory. Lent memory is a pointer and a length, in elements (bytes, or
 * two-byte entries where the pointer is to uint16_t). The pointer must be valid
 * for that length and aligned for its type; with length 0 it may be NULL. The
 * counts of outline_bundle_make have no length: they are always eight bytes. Two
 * pieces of memory that are lent to one call must not overlap, but for two that
 * are both only read. Nothing is kept after a call, nothing is allocated, and
 * there is no global state, so any number of threads may call at once with
 * memory of their own; holdbacks and pages lie in the caller's memory too. A call
 * uses less than 64 KiB of stack.
 *
 * No call asks anything else of its arguments: every content, every length and
 * every number is answered.
 *
 * Answers. Every call but outline_is_sound and outline_version answers one
 * number.
 *   1 to 14   refused, for the reason below; all lent memory is unchanged
 *   128       OUTLINE_HAD_IT: the delivered op was there already; unchanged
 *   129       OUTLINE_DONE: judging is done
 *   130       OUTLINE_WAITING: the delivered op is early and waits in the
 *             holdback; the log is unchanged
 *   256 ..    256 and a value: the end of the file, the entries of a path, the
 *             bytes of a listing or a bundle, how many counts; see
 *             outline_value()
 * These are all below 65536. The four calls with a page, outline_page_.., add
 * 65536 to a value for each op that was taken back; outline_page_answer() and
 * outline_page_taken() give the two parts. No other number is answered. The
 * numbers up to 127 are kept for refusals and those up to 255 for answers without
 * a value.
 */
#ifndef OUTLINE_H
#define OUTLINE_H

#include <stdbool.h>
#include <stddef.h>
#include <stdint.h>

#ifdef __cplusplus
extern "C" {
#endif

/* The version of this header; outline_version() answers that of the library. */
#define OUTLINE_VERSION_MAJOR 0
#define OUTLINE_VERSION_MINOR 6
#define OUTLINE_VERSION_PATCH 0
#define OUTLINE_VERSION_TEXT "0.6.0"
#define OUTLINE_VERSION \
    (10000 * OUTLINE_VERSION_MAJOR + 100 * OUTLINE_VERSION_MINOR + OUTLINE_VERSION_PATCH)

/* Why a call is refused. */
#define OUTLINE_UNSOUND 1        /* the buffer does not hold a sound log */
#define OUTLINE_LENGTH 2         /* not 14 bytes, over 16 moves, too little lent for ops or table */
#define OUTLINE_MALFORMED 3      /* no replica from 1 to 8, or an op out of form */
#define OUTLINE_CONFLICT 4       /* another op of this replica and sequence is held */
#define OUTLINE_EARLY 5          /* the op counts ops that are not held yet: deliver those first */
#define OUTLINE_NOT_CLOSED 6     /* the op counts an op, but not all that this one counts */
#define OUTLINE_UNKNOWN 7        /* a node that the op cannot know, or a move of a node to itself */
#define OUTLINE_NO_ROOM 8        /* the buffer, or what is lent for an answer, is too short */
#define OUTLINE_EXHAUSTED 9      /* the replica has issued its 255 ops */
#define OUTLINE_CYCLE 10         /* the new parent lies below the node */
#define OUTLINE_MARKED 11        /* the parent of new work, or the node of a move, is removed */
#define OUTLINE_BAD_BUNDLE 12    /* a bundle without a whole head, or that disagrees with it */
#define OUTLINE_HOLDBACK_FULL 13 /* the op is early, and the holdback has no place left for it */
#define OUTLINE_BAD_HOLDBACK 14  /* a holdback of not 449 bytes, or not as its count says */

#define OUTLINE_HAD_IT 128
#define OUTLINE_DONE 129
#define OUTLINE_WAITING 130
#define OUTLINE_VALUE 256        /* added to every value */
#define OUTLINE_TAKEN_BACK 65536 /* added by a call with a page for each op taken back */

/* Sizes. What is lent in these sizes is never too short. */
#define OUTLINE_REPLICAS 8
#define OUTLINE_HEADER 32             /* bytes of an empty log */
#define OUTLINE_OP 14                 /* bytes of an op */
#define OUTLINE_MOST_OPS 2040         /* ops of the largest log */
#define OUTLINE_MOST_MOVES 16         /* moves of the longest batch */
#define OUTLINE_LARGEST 28592         /* bytes of the largest log */
#define OUTLINE_TABLE 2041            /* entries of a table of parents or outcomes */
#define OUTLINE_ORDER 2040            /* entries of the order of a page */
#define OUTLINE_LONGEST_PATH 2041     /* entries of the longest path */
#define OUTLINE_LONGEST_LISTING 24492 /* bytes that are enough for every listing */
#define OUTLINE_LARGEST_BUNDLE 28569  /* bytes of the largest bundle */
#define OUTLINE_HOLDBACK 449          /* bytes of a holdback, which has no other length */
#define OUTLINE_HOLDBACK_OPS 32       /* ops of a full holdback */

/* Kinds of ops. */
#define OUTLINE_ADD 1
#define OUTLINE_REMOVE 2
#define OUTLINE_MOVE_UP 3   /* to a parent that was less deep than the node when it was issued */
#define OUTLINE_MOVE_DOWN 4 /* any other move */

/* In the tables of outline_judge and of a page. */
#define OUTLINE_ROOT 0
#define OUTLINE_NO_SLOT ((size_t)-1) /* the slot of a number that is no node's */
#define OUTLINE_NO_PARENT 65535      /* parent entry of a slot without a node */
#define OUTLINE_NO_OP 0              /* outcome entry of a slot without an op */
#define OUTLINE_APPLIED 1            /* the op was applied */
#define OUTLINE_PLACED_ALREADY 2     /* a move that lost against one of the same node and time */
#define OUTLINE_WOULD_CLOSE_CIRCLE 3 /* a move that would have closed a circle */

/* The version of the library: 10000 * major + 100 * minor + patch. */
size_t outline_version(void);

/*
 * Makes an empty log at the front of a buffer, whatever the buffer holds.
 *   value 32     done: the first 32 bytes are the header of an empty log
 *   8            the buffer is shorter than 32 bytes
 * Bytes past the first 32 keep their content.
 */
size_t outline_make(uint8_t *buf, size_t buf_len);

/* Whether a buffer holds a sound log: whether no call would answer 1. */
bool outline_is_sound(const uint8_t *file, size_t file_len);

/*
 * Where the log in a buffer ends: how many bytes are to be stored or sent. What
 * lies past them does not belong to it.
 *   value end    from 32 to OUTLINE_LARGEST
 *   1            unsound
 */
size_t outline_end(const uint8_t *file, size_t file_len);

/*
 * How many ops of each replica the log in a buffer holds.
 *   value 8      the first 8 bytes of `out` are the counts of replicas 1 to 8
 *   1, 8         unsound; `out` shorter than 8 bytes
 * Bytes past the first 8 keep their content. If refused, `out` is unchanged.
 */
size_t outline_counts(const uint8_t *file, size_t file_len, uint8_t *out, size_t out_len);

/*
 * Delivers an op, which another replica issued, to the log in a buffer.
 *   value end    accepted: the log has one op more and ends at `end`
 *   128          had it: the same op is there already
 *   1, 2, 3, 4   unsound; not 14 bytes; malformed; conflict
 *   5, 6, 7, 8   early; not closed; unknown; no room for 14 bytes more
 * The first number of the order 1, 2, 3, (had it or 4), 5, 6, 7, 8 is answered.
 * If accepted, the first `end` bytes are the log with the op; bytes past them
 * keep their content. Else the buffer is unchanged. The op is only read.
 * In the order that outline_causal_order gives no op of a log is early; for ops
 * that come in any order there is outline_holdback_deliver.
 */
size_t outline_deliver(uint8_t *buf, size_t buf_len, const uint8_t *op, size_t op_len);

/*
 * Delivers an op with a holdback: an early op is not refused but waits there
 * until what it counts has come. To begin, lend OUTLINE_HOLDBACK zero bytes, an
 * empty holdback; then lend to each such delivery at this log what the last one
 * left, and store it with the log.
 *   value end    accepted: the log has the op and those of the holdback that
 *                could be taken then, at most 33 in all, and ends at `end`
 *   128          had it: the same op is there already
 *   130          waiting: the op is early, and is in the holdback now or was
 *                there already
 *   1, 14        unsound; a holdback not of 449 bytes, with a count above 32, or
 *                with a byte past its ops that is not 0
 *   2, 3, 4      not 14 bytes; malformed; conflict
 *   13           early, not in the holdback, and the holdback is full
 *   6, 7, 8      not closed; unknown; no room for 14 bytes more
 * The first number of the order 1, 14, 2, 3, (had it or 4), (waiting or 13), 6,
 * 7, 8 is answered; 5 is not among them. The op is only read.
 * Byte 0 of a holdback says how many ops wait. Then come 32 places of 14 bytes,
 * with the ops in the order in which they came. They are not trusted: each is
 * tested like a delivered op when it is met.
 * If accepted, the holdback is searched from the front, and again from the
 * front as soon as one of its ops is accepted. An op met there that the log has
 * already, or that is refused for another reason than 5 or 8, is dropped. The
 * ops behind a free place move up, and places at the end become zero bytes. Each
 * op that is left would be refused with 5 or 8. The first `end` bytes of the
 * buffer are the log; bytes past them keep their content.
 * If waiting, the op is the last in the holdback, or stands where it stood, and
 * the buffer is unchanged. Else buffer and holdback are unchanged.
 * Ops that are offered in any order so, once each, come to the log that offering
 * them to outline_deliver over and over would come to: if the holdback began
 * empty and never got full, the buffer has room, no two ops of one replica and
 * sequence differ, and nothing else is done to log and holdback in between. No
 * other call looks at a holdback.
 */
size_t outline_holdback_deliver(uint8_t *buf, size_t buf_len, const uint8_t *op, size_t op_len,
                                uint8_t *holdback, size_t holdback_len);

/*
 * Makes a bundle for another replica: all ops of the log in a buffer beyond the
 * eight counts that the other tells (outline_counts). A replica of which the
 * other holds as many or more contributes nothing.
 *   value n      the first n bytes of `out` are the bundle
 *   1, 8         unsound; `out` too short
 * Bytes past the first n keep their content. If refused, `out` is unchanged.
 * The log is only read. OUTLINE_LARGEST_BUNDLE bytes always do.
 */
size_t outline_bundle_make(const uint8_t *file, size_t file_len, const uint8_t counts[8],
                           uint8_t *out, size_t out_len);

/*
 * Opens a bundle at the log in a buffer: delivers its ops in turn. Those that
 * are held already are passed by.
 *   value end    accepted: the log has all ops of the bundle and ends at `end`
 *   1, 12        unsound; a bundle without a whole head or with a count of 0,
 *                or whose length or ops' replicas disagree with its head
 *   3, 4, 5,     the number that outline_deliver answers for the first op that
 *   6, 7, 8      is refused
 * in this order. If accepted, the first `end` bytes are the log; bytes past them
 * keep their content. If refused, the whole buffer is unchanged. The bundle is
 * only read. A bundle that was made for counts which this log has reached or
 * passed is accepted if the two logs agree on the ops that both hold and the
 * buffer has room (OUTLINE_LARGEST bytes always do).
 */
size_t outline_bundle_open(uint8_t *buf, size_t buf_len, const uint8_t *bundle,
                           size_t bundle_len);

/*
 * Issues an add of a new node under a parent, which is 0 or a node of the log.
 *   value end    accepted: the log has one op more and ends at `end`, and the
 *                first 14 bytes of `out` are that op, to be handed to others;
 *                outline_op_node() reads the new node's number from it
 *   1, 2, 3      unsound; `out` shorter than 14 bytes; no such replica
 *   9, 7, 11, 8  exhausted; unknown parent; the parent is removed; no room for
 *                14 bytes more
 * in this order. Bytes of the buffer past `end`, and of `out` past 14, keep
 * their content. If refused, the buffer and `out` are unchanged.
 */
size_t outline_issue_add(uint8_t *buf, size_t buf_len, uint8_t replica, uint16_t parent,
                         uint8_t *out, size_t out_len);

/*
 * Issues a remove of a node of the log: it is marked as removed. Answers and
 * leaves behind the same as outline_issue_add; 7 is an unknown node. A node that
 * is removed already may be removed again: there is no 11.
 */
size_t outline_issue_remove(uint8_t *buf, size_t buf_len, uint8_t replica, uint16_t node,
                            uint8_t *out, size_t out_len);

/*
 * Issues a move of a node, with all below it, under a new parent, which is 0 or
 * a node of the log. Answers and leaves behind the same as outline_issue_add,
 * and besides
 *   7            unknown node or parent, or the parent is the node
 *   11           node or parent is removed; tested after 7
 *   10           the new parent lies below the node; tested after 11, before 8
 */
size_t outline_issue_move(uint8_t *buf, size_t buf_len, uint8_t replica, uint16_t node,
                          uint16_t parent, uint8_t *out, size_t out_len);

/*
 * Issues a batch: moves of up to 16 nodes under one parent, one after another in
 * the order of the list. Each is tested in the log and the tree that those before
 * it left. If one is refused, none is issued.
 *   value end    accepted: the log has `nodes_len` ops more and ends at `end`, and
 *                the first 14 * nodes_len bytes of `out` are these ops, one behind
 *                another in the order of the list, to be handed to others
 *   1, 2, 3      unsound; more than 16 nodes, or `out` shorter than 14 bytes for
 *                each; no such replica
 *   9, 7, 11,    what outline_issue_move answers for the first move that is
 *   10, 8        refused
 * in this order. Bytes of the buffer past `end`, and of `out` past the ops, keep
 * their content. If refused, the buffer and `out` are unchanged. The nodes are
 * only read; one may stand in the list twice. With no nodes 1, 2 and 3 are tested
 * and nothing else: whatever the parent is, and however full log and buffer are,
 * `end` is answered, and nothing is written.
 * The batch is whole at issue only. From then on each move is an op by itself,
 * with an outcome of its own: once moves of other replicas have come, some moves
 * of a batch may be applied and others not. Tell the users so.
 */
size_t outline_issue_moves(uint8_t *buf, size_t buf_len, uint8_t replica, const uint16_t *nodes,
                           size_t nodes_len, uint16_t parent, uint8_t *out, size_t out_len);

/*
 * Judges a log: replays its ops into two tables, by slot (outline_slot).
 *   129          done: the first 2,041 entries of both tables are written;
 *                parents: the node's parent, OUTLINE_NO_PARENT if the slot has
 *                no node; outcomes: OUTLINE_APPLIED .., OUTLINE_NO_OP if the
 *                slot has no op
 *   1, 2         unsound; a table of less than 2,041 entries
 * Entries past the first 2,041 keep their content. If refused, both tables are
 * unchanged. The log is only read.
 */
size_t outline_judge(const uint8_t *file, size_t file_len, uint16_t *parents, size_t parents_len,
                     uint8_t *outcomes, size_t outcomes_len);

/*
 * Delivers an op as outline_deliver does, and keeps a page of the log, so that
 * what judging says is at hand after every op. A page is three tables:
 *   order        2,040 entries: the slots (outline_slot) of the held ops in the
 *                order in which they are judged, then zeros
 *   parents      2,041 entries, as outline_judge fills them
 *   outcomes     2,041 entries, as outline_judge fills them
 * To begin, lend tables of any content, such as zeros; then lend to each call
 * with a page at this log what the last one left.
 *   value end    accepted, and 65536 more for each op that was taken back: the
 *                log has one op more and ends at `end`, and the page is what
 *                judging it says
 *   128          had it: the same op is there already
 *   1, 2         unsound; not 14 bytes, or a page that is too short: an order of
 *                less than 2,040 entries, parents or outcomes of less than 2,041
 *   3 to 8       as outline_deliver
 * in the order of outline_deliver.
 * If accepted, the buffer is left as by outline_deliver. An op that is judged
 * last is judged alone, and none is taken back. For any other, those that are
 * judged after it are taken back, it is judged, and they are judged again. If the
 * page was not what judging the log says before the call, it is built anew first;
 * then all ops that were held count as taken back. The other calls know nothing
 * of the page, and that does no harm: after outline_deliver,
 * outline_holdback_deliver, outline_bundle_open, outline_make or an issue without
 * it the page is old, and the next call with it that accepts sets it right.
 * If refused, or had it, buffer and page are unchanged, also a page that is old.
 * Entries past those of a page are not looked at and keep their content. The op
 * is only read.
 */
size_t outline_page_deliver(uint8_t *buf, size_t buf_len, const uint8_t *op, size_t op_len,
                            uint16_t *order, size_t order_len, uint16_t *parents,
                            size_t parents_len, uint8_t *outcomes, size_t outcomes_len);

/*
 * Issues an add as outline_issue_add does, and keeps a page of the log as
 * outline_page_deliver does.
 *   value end    accepted, and 65536 more for each op that was taken back: the
 *                log has one op more and ends at `end`, the first 14 bytes of
 *                `out` are that op, and the page is what judging the log says
 *   1, 2, 3      unsound; `out` shorter than 14 bytes, or a page that is too
 *                short; no such replica
 *   9, 7, 11, 8  as outline_issue_add
 * in this order. A new op is judged last, so none is taken back, unless the page
 * was not what judging the log said: then these are all that were held. If
 * refused, the buffer, `out` and the page are unchanged.
 */
size_t outline_page_issue_add(uint8_t *buf, size_t buf_len, uint8_t replica, uint16_t parent,
                              uint8_t *out, size_t out_len, uint16_t *order, size_t order_len,
                              uint16_t *parents, size_t parents_len, uint8_t *outcomes,
                              size_t outcomes_len);

/*
 * Issues a remove as outline_issue_remove does, and keeps a page of the log.
 * Answers and leaves behind the same as outline_page_issue_add; there is no 11.
 */
size_t outline_page_issue_remove(uint8_t *buf, size_t buf_len, uint8_t replica, uint16_t node,
                                 uint8_t *out, size_t out_len, uint16_t *order, size_t order_len,
                                 uint16_t *parents, size_t parents_len, uint8_t *outcomes,
                                 size_t outcomes_len);

/*
 * Issues a move as outline_issue_move does, and keeps a page of the log. Answers
 * and leaves behind the same as outline_page_issue_add, and besides 7, 11 and 10
 * as outline_issue_move.
 */
size_t outline_page_issue_move(uint8_t *buf, size_t buf_len, uint8_t replica, uint16_t node,
                               uint16_t parent, uint8_t *out, size_t out_len, uint16_t *order,
                               size_t order_len, uint16_t *parents, size_t parents_len,
                               uint8_t *outcomes, size_t outcomes_len);

/*
 * The path of a node: its number, its parent's, and so on to 0. The path of the
 * root is 0 alone.
 *   value n      the first n entries of `out` are the path
 *   1, 7, 8      unsound; neither 0 nor a node of the log; `out` too short
 * Entries past the first n keep their content. If refused, `out` is unchanged.
 * The log is only read. OUTLINE_LONGEST_PATH entries (4,082 bytes) always do.
 */
size_t outline_path(const uint8_t *file, size_t file_len, uint16_t node, uint16_t *out,
                    size_t out_len);

/*
 * The listing of a view: a line for each node that is shown, of its depth, a
 * space, its number, a space, `k` or `r` (removed), and a line feed. The root
 * comes first; children follow their parent in rising number, each with all
 * below it before the next. The keeping view shows a node if it or some node
 * below it is not removed; the skipping view shows it if neither it nor any
 * node above it is removed. Both show the root.
 *   value n      the first n bytes of `out` are the listing (no 0 at the end)
 *   1, 8         unsound; `out` too short
 * Bytes past the first n keep their content. If refused, `out` is unchanged.
 * The log is only read. OUTLINE_LONGEST_LISTING bytes always do.
 */
size_t outline_listing(const uint8_t *file, size_t file_len, bool skipping, uint8_t *out,
                       size_t out_len);

/*
 * How many bytes outline_listing needs for the same log and view.
 *   value n      so many
 *   1            unsound
 */
size_t outline_listing_size(const uint8_t *file, size_t file_len, bool skipping);

/* ---- inline functions: answers */

/* Whether the answer is a refusal. */
static inline bool outline_refused(size_t answer) { return answer < OUTLINE_HAD_IT; }

/* The answer of a call with a page, as the call without it would have answered. */
static inline size_t outline_page_answer(size_t answer) { return answer % OUTLINE_TAKEN_BACK; }

/* How many ops a call with a page has taken back. */
static inline size_t outline_page_taken(size_t answer) { return answer / OUTLINE_TAKEN_BACK; }

/* The value of an answer, with a page or without; 0 for one without a value. */
static inline size_t outline_value(size_t answer) {
    size_t plain = outline_page_answer(answer);
    return plain < OUTLINE_VALUE ? 0 : plain - OUTLINE_VALUE;
}

/* An answer in words, for people; never NULL. */
static inline const char *outline_text(size_t answer) {
    if (answer >= OUTLINE_VALUE) return "accepted";
    switch (answer) {
    case OUTLINE_UNSOUND: return "the buffer does not hold a sound log";
    case OUTLINE_LENGTH: return "not 14 bytes, over 16 moves, too little lent for ops or a table";
    case OUTLINE_MALFORMED: return "no replica from 1 to 8, or an op out of form";
    case OUTLINE_CONFLICT: return "another op of this replica and sequence is held";
    case OUTLINE_EARLY: return "the op counts ops that are not held yet";
    case OUTLINE_NOT_CLOSED: return "the op counts an op, but not all that this one counts";
    case OUTLINE_UNKNOWN: return "an unknown node, or a move of a node to itself";
    case OUTLINE_NO_ROOM: return "the buffer, or what is lent for an answer, is too short";
    case OUTLINE_EXHAUSTED: return "the replica has issued its 255 ops";
    case OUTLINE_CYCLE: return "the new parent lies below the node";
    case OUTLINE_MARKED: return "the node or the parent is removed";
    case OUTLINE_BAD_BUNDLE: return "a bundle that is not whole, or disagrees with its head";
    case OUTLINE_HOLDBACK_FULL: return "the op is early, and the holdback is full";
    case OUTLINE_BAD_HOLDBACK: return "a holdback of not 449 bytes, or not as its count says";
    case OUTLINE_HAD_IT: return "the op was there already";
    case OUTLINE_DONE: return "done";
    case OUTLINE_WAITING: return "the op is early, and waits in the holdback";
    default: return "no answer of this library";
    }
}

/* ---- inline functions: nodes */

/* The node that op q of replica s adds, for s from 1 to 8 and q from 1 to 255. */
static inline uint16_t outline_node(uint8_t replica, uint8_t sequence) {
    return (uint16_t)(256 * replica + sequence);
}

/*
 * The slot of a node, or of the op that adds it, in the tables of outline_judge
 * and of a page; 0 is the root's. OUTLINE_NO_SLOT, which lies outside of every
 * table, for every other number: no replica from 1 to 8, or no sequence from 1.
 */
static inline size_t outline_slot(uint16_t node) {
    size_t replica = node / 256, sequence = node % 256;
    if (node == OUTLINE_ROOT) return 0;
    if (replica < 1 || replica > OUTLINE_REPLICAS || sequence < 1) return OUTLINE_NO_SLOT;
    return 255 * (replica - 1) + sequence;
}

/*
 * The number 256 * s + q of a slot, such as an entry of a page's order: op q of
 * replica s stands there, and the node that it adds. 0 for slot 0, where no op
 * stands, and for a slot past the tables.
 */
static inline uint16_t outline_slot_node(size_t slot) {
    if (slot < 1 || slot >= OUTLINE_TABLE) return OUTLINE_ROOT;
    return (uint16_t)(256 * ((slot - 1) / 255 + 1) + (slot - 1) % 255 + 1);
}

/* ---- inline functions: the 14 bytes of an op; any bytes may be read so */

/* OUTLINE_ADD .. OUTLINE_MOVE_DOWN. */
static inline uint8_t outline_op_kind(const uint8_t *op) { return op[0]; }

/* The replica that issued it. */
static inline uint8_t outline_op_replica(const uint8_t *op) { return op[1]; }

/* The node that it adds, removes or moves. */
static inline uint16_t outline_op_node(const uint8_t *op) {
    return (uint16_t)(256 * op[2] + op[3]);
}

/* The parent that it adds or moves the node to; 0 in a remove. */
static inline uint16_t outline_op_parent(const uint8_t *op) {
    return (uint16_t)(256 * op[4] + op[5]);
}

/* How many ops of a replica its replica held when it was issued; 0 if there is no such replica. */
static inline uint8_t outline_op_count(const uint8_t *op, uint8_t replica) {
    return replica < 1 || replica > OUTLINE_REPLICAS ? (uint8_t)0 : op[5 + replica];
}

/* Its number among the ops of its replica, from 1 to 255; 0 if it is out of form. */
static inline uint8_t outline_op_sequence(const uint8_t *op) {
    uint8_t replica = outline_op_replica(op);
    if (replica < 1 || replica > OUTLINE_REPLICAS) return 0;
    return (uint8_t)(outline_op_count(op, replica) + 1);
}

/* The sum of its eight counts; in a sound log it is below that of every op that has seen it. */
static inline size_t outline_op_sum(const uint8_t *op) {
    size_t sum = 0;
    for (int i = 6; i < OUTLINE_OP; i++) sum += op[i];
    return sum;
}

/* ---- inline functions: handing over */

/*
 * The places of the ops of the log in a buffer, in an order in which they can
 * be delivered to another: by rising sums of their counts. Delivered so, none is
 * early, and one pass hands over all that is missing; ops that the other has
 * already (outline_counts) may be left out.
 *   value n      the first n entries of `places` are where the ops start
 *   1, 8         unsound; less than n entries (OUTLINE_MOST_OPS always do)
 * Entries past the first n keep their content. If refused, all do. It uses 4
 * KiB of stack beside what outline_end uses.
 */
static inline size_t outline_causal_order(const uint8_t *file, size_t file_len, uint16_t *places,
                                          size_t places_len) {
    uint16_t next[8 * 255 + 2] = {0}; /* by the sum: where its next op goes */
    size_t answer = outline_end(file, file_len);
    if (outline_refused(answer)) return answer;
    size_t end = outline_value(answer);
    size_t count = (end - OUTLINE_HEADER) / OUTLINE_OP;
    if (places_len < count) return OUTLINE_NO_ROOM;
    for (size_t at = OUTLINE_HEADER; at < end; at += OUTLINE_OP) {
        size_t sum = outline_op_sum(file + at);
        next[sum + 1] = (uint16_t)(next[sum + 1] + 1);
    }
    for (size_t sum = 0; sum < 8 * 255; sum++)
        next[sum + 1] = (uint16_t)(next[sum + 1] + next[sum]);
    for (size_t at = OUTLINE_HEADER; at < end; at += OUTLINE_OP)
        places[next[outline_op_sum(file + at)]++] = (uint16_t)at;
    return OUTLINE_VALUE + count;
}

#ifdef __cplusplus
}
#endif

#endif
