/* An implementation of documents 01 and 02 of its own, in C: reference_X answers as kaunorpi_X must (include/kaunorpi.h).
 *
 * It was written from the documents and the header, never from the Rattle code, and does what a document says in
 * its own order, with plain loops and signed 64-bit numbers. Speed is no aim.
 */
#ifndef REFERENCE_H
#define REFERENCE_H

#include "kaunorpi.h"

/* Built with -DSELF_CHECK the reference breaks the rule whose number reference_wrong holds (0: none);
 * tests/compare/selfcheck.c breaks each in turn, to see that the comparer notices. */
#ifdef SELF_CHECK
extern int reference_wrong;
#define RULE(k, right, wrong) (reference_wrong == (k) ? (wrong) : (right))
#else
#define RULE(k, right, wrong) (right)
#endif

__typeof__(kaunorpi_replay_word) reference_replay_word;
__typeof__(kaunorpi_replay_stretch) reference_replay_stretch;
__typeof__(kaunorpi_start_replay) reference_start_replay;
__typeof__(kaunorpi_replay_part) reference_replay_part;
__typeof__(kaunorpi_empty_summary) reference_empty_summary;
__typeof__(kaunorpi_summary_word) reference_summary_word;
__typeof__(kaunorpi_summary_stretch) reference_summary_stretch;
__typeof__(kaunorpi_join_summaries) reference_join_summaries;
__typeof__(kaunorpi_ask_summary) reference_ask_summary;
__typeof__(kaunorpi_place_weighting) reference_place_weighting;
__typeof__(kaunorpi_transition_weighting) reference_transition_weighting;
__typeof__(kaunorpi_place_bound) reference_place_bound;
__typeof__(kaunorpi_siphon_set) reference_siphon_set;
__typeof__(kaunorpi_trap_set) reference_trap_set;
__typeof__(kaunorpi_closed_list) reference_closed_list;
__typeof__(kaunorpi_closed_target) reference_closed_target;
__typeof__(kaunorpi_closed_stall) reference_closed_stall;
__typeof__(kaunorpi_cover_list) reference_cover_list;
__typeof__(kaunorpi_cover_target) reference_cover_target;
__typeof__(kaunorpi_complement_places) reference_complement_places;
__typeof__(kaunorpi_complement_net) reference_complement_net;
__typeof__(kaunorpi_read_case) reference_read_case;
__typeof__(kaunorpi_case_length) reference_case_length;
__typeof__(kaunorpi_write_case) reference_write_case;
__typeof__(kaunorpi_order_logs) reference_order_logs;
__typeof__(kaunorpi_rest_fault) reference_rest_fault;
__typeof__(kaunorpi_unread_rest) reference_unread_rest;

/* ---- What the files of the reference share (net.c). */

/* The net as lent, and a way to take it from the parameters that KAUNORPI_NET names. */
struct net {
    size_t places, transitions;
    const uint16_t *pre;
    size_t pre_len;
    const uint16_t *post;
    size_t post_len;
    const uint16_t *caps;
    size_t caps_len;
    const uint8_t *marks;
    size_t marks_len;
};
#define LENT_NET \
    { places, transitions, pre, pre_len, post, post_len, caps, caps_len, marks, marks_len }

/* "nowhere": no place, letter or transition is meant. */
#define NOWHERE ((size_t)-1)

/* "Raise the weight limit to 4,095" (request E6 of document 02). */
enum { HEAVIEST = 4095 };

int64_t reference_pre(const struct net *net, size_t p, size_t t);
int64_t reference_post(const struct net *net, size_t p, size_t t);
int64_t reference_change(const struct net *net, size_t p, size_t t);
int reference_capped(const struct net *net, size_t p);
int reference_pocket(const struct net *net, size_t p);
size_t reference_short(const struct net *net, const int64_t *m, size_t t);
size_t reference_over(const struct net *net, const int64_t *m, size_t t);
void reference_fire(const struct net *net, int64_t *m, size_t t);
int reference_counts_fault(const struct net *net);
int reference_lengths_fault(const struct net *net);
size_t reference_weights_fault(const struct net *net, const uint16_t *marking);
size_t reference_tokens_fault(const struct net *net, const uint16_t *marking);
size_t reference_loose_fault(const struct net *net);
size_t reference_letters_fault(const struct net *net, const uint8_t *word, size_t start, size_t end);

/* ---- Shared by replay.c and running.c. */
kaunorpi_replay reference_play(const struct net *net, int64_t *m, const uint8_t *word, size_t start, size_t end,
                               size_t first);

/* ---- The two ways of order.c, for logs that are right: is there an order that fires, and if so, the one to be given. */
int reference_try_orders(KAUNORPI_NET, const uint16_t *initial, const uint8_t *first, size_t first_len,
                         const uint8_t *second, size_t second_len, uint8_t *order);
int reference_table_order(KAUNORPI_NET, const uint16_t *initial, const uint8_t *first, size_t first_len,
                          const uint8_t *second, size_t second_len, uint8_t *order);

#endif
