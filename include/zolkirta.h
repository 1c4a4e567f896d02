/* Zolkirta: judges certificates of weak and of strong bisimulation for probabilistic automata.
 *
 * Buffers. Every call takes byte buffers and plain numbers and checks everything itself. A buffer is a pointer and a length; the
 * pointer may be NULL where the length is 0. The caller sees to this alone: each pointer is good for its length, the bytes are not
 * changed by others during the call, and a lent buffer overlaps no input and no other lent buffer. A refusal writes no byte of any
 * lent buffer.
 *
 * Stack. zolkirta_judge, zolkirta_judge_costs, zolkirta_judge_strong and zolkirta_alike use at most 12,500 bytes each, zolkirta_sheet
 * 16,500, zolkirta_reduce 23,500, zolkirta_rewrite and zolkirta_rewrite_costs 18,600, zolkirta_read_prism 11,000, zolkirta_compose 7,000,
 * zolkirta_hide 2,700, zolkirta_join 2,600, zolkirta_fetch 2,500, zolkirta_sentence 350, zolkirta_largest 160 (measured, rounded up). In a
 * dynamically linked program the loader adds some 3 KiB when it binds memcpy or memset at the first call. No heap is used.
 *
 * Threads. The library has no state and keeps no pointer: any number of calls may run at once.
 *
 * Platform. x86-64 Linux, with the System V calling convention. Link libzolkirta.a; it needs memcpy and memset and nothing else.
 */
#ifndef ZOLKIRTA_H
#define ZOLKIRTA_H

#include <stddef.h>
#include <stdint.h>

#define ZOLKIRTA_VERSION "1.0.0"
#define ZOLKIRTA_VERSION_NUMBER 10000 /* major * 10000 + minor * 100 + patch */

/* The most states that a model has: a block buffer of this length is always long enough. */
#define ZOLKIRTA_STATES 128
/* The most transitions that a model has. */
#define ZOLKIRTA_TRANSITIONS 256
/* The bytes of the longest model, 8 + 128 + 7 * 256 + 3 * 2048: an output buffer of this length is always long enough for
 * zolkirta_reduce, zolkirta_join, zolkirta_read_prism, zolkirta_compose and zolkirta_hide, and a longer model file is always refused; a
 * cost model's has up to 258 bytes more. */
#define ZOLKIRTA_MODEL 8072
/* The bytes of the longest sheet, 128 lines of 73: a sheet buffer of this length is always long enough. */
#define ZOLKIRTA_SHEET 9344
/* A sentence buffer of this length is always long enough. */
#define ZOLKIRTA_SENTENCE 201
/* How many flow records there are at most: no accepted certificate without costs, weak or strong, for a model of so many states and transitions
 * has more (theorem few-flows, docs/PROOFS.md), and the one that zolkirta_largest writes has as many. Both counts are within the limits, here and
 * in the next two.
 *
 * This bounds no length of a certificate. A flow record has 10 bytes, 7 for each k entry and 6 for each w entry. As entries strictly ascend,
 * there are at most `transitions` k entries for an internal challenger, 2 * transitions - 1 for an external one, in a strong certificate
 * transitions - 1 for either, and states * states w entries: up to 101,891 bytes for one record. Refutations stand before the flows. */
#define ZOLKIRTA_FLOWS(states, transitions) ((size_t)(transitions) * ((size_t)(states) - 1))
/* The bytes of the two files that zolkirta_largest writes, at most 2,696 and 520,326. */
#define ZOLKIRTA_LARGEST_MODEL(states, transitions) (8 + (size_t)(states) + 10 * (size_t)(transitions))
#define ZOLKIRTA_LARGEST_CERTIFICATE(states, transitions) (6 + (size_t)(states) + 16 * ZOLKIRTA_FLOWS(states, transitions))
/* Versions before 0.7.0 have 64 states, 1,024 entries and 2,016 refutations for limits, and versions before 0.10.0 take fractions in any terms.
 * What they accept is accepted with the same blocks, once zolkirta_rewrite has put it into lowest terms where it is not; they refuse a larger
 * sound model with 3 or 8. */

#ifdef __cplusplus
extern "C" {
#endif

/* The numbers that a call answers: 0, or one refusal. Each comment begins with the words that zolkirta_sentence has for the number; what is
 * said behind a semicolon is more exact. */
enum zolkirta_number {
    ZOLKIRTA_ACCEPTED = 0,              /* everything that was asked for was done and nothing was refused */
    /* in a model: file 1, or file 3 for the second of two */
    ZOLKIRTA_MODEL_ENDS = 1,            /* the model file ends inside a record or where the next one should begin */
    ZOLKIRTA_MODEL_MARK = 2,            /* a record of the model does not begin with the mark that belongs there */
    ZOLKIRTA_MODEL_HEAD = 3,            /* the head of the model gives a number of states, actions or transitions that is not allowed;
                                           allowed are 1 to 128 states, 1 to 32 actions and up to 256 transitions */
    ZOLKIRTA_LABEL = 4,                 /* the model has a label that is higher than allowed; 63 is the highest */
    ZOLKIRTA_TRANSITION = 5,            /* a transition of the model has a source, action, denominator or entry count that is not allowed;
                                           a source descends or is absent, an action is absent, d is 0, or a count is 0 or above the state count */
    ZOLKIRTA_ENTRY = 6,                 /* a transition of the model leads to an unknown or misplaced state or has a weight of zero;
                                           absent, or not above the one before */
    ZOLKIRTA_SUM = 7,                   /* the weights of a transition do not add up to its denominator */
    ZOLKIRTA_ENTRIES = 8,               /* the transitions of the model have more entries together than are allowed;
                                           2,048 are, those of this record included */
    ZOLKIRTA_MODEL_BYTES_LEFT = 9,      /* the model file goes on after the model has ended */
    /* of the call, no file and no place */
    ZOLKIRTA_BLOCK_BUFFER = 10,         /* the buffer that was lent for the blocks is too short for all states */
    /* in the certificate, file 2 */
    ZOLKIRTA_CERTIFICATE_ENDS = 11,     /* the certificate file ends inside a record or where the next one should begin */
    ZOLKIRTA_CERTIFICATE_MARK = 12,     /* a record of the certificate does not begin with the mark that belongs there */
    ZOLKIRTA_CERTIFICATE_HEAD = 13,     /* the head of the certificate announces more refutations than are allowed; 8,128 are */
    ZOLKIRTA_REFUTED_PAIR = 14,         /* a refutation names an unknown transition or state or a pair of states that it cannot part;
                                           they are one state, or not related */
    ZOLKIRTA_PRICES = 15,               /* a price condition of a refutation, other than its last one, does not hold */
    ZOLKIRTA_LAST_PRICES = 16,          /* the last price condition of a refutation does not hold */
    ZOLKIRTA_BLOCK_NUMBERS = 17,        /* the blocks of the certificate are not numbered in the order in which they first appear */
    ZOLKIRTA_BLOCKS = 18,               /* the blocks of the certificate do not agree with the pairs of states that are still related */
    ZOLKIRTA_FLOW = 19,                 /* a flow moves nothing or has an entry that is out of order, zero, unknown or out of place;
                                           D is 0, or an entry is not in the question */
    ZOLKIRTA_FLOW_EQUATION = 20,        /* what comes to a state in a flow is not what leaves it; an equation at some v breaks, or in a strong
                                           certificate that of D */
    ZOLKIRTA_TARGET_EQUATION = 21,      /* what a flow leaves at a target is not the share that the challenging transition has there;
                                           an equation at some u breaks */
    ZOLKIRTA_CERTIFICATE_BYTES_LEFT = 22, /* the certificate file goes on after its last flow */
    /* of the call, no file and no place */
    ZOLKIRTA_OUTPUT_BUFFER = 23,        /* the certificate is accepted but the lent buffer is too short for the merged model */
    ZOLKIRTA_STATE = 24,                /* the model does not have the state whose transitions were asked for */
    ZOLKIRTA_JOINED_MODEL = 25,         /* the two models joined to one have more states, transitions or entries than are allowed;
                                           128, 256 and 2,048 are */
    ZOLKIRTA_JOINED_BUFFER = 26,        /* the lent buffer is too short for the two models joined to one */
    ZOLKIRTA_PARTS = 27,                /* the certificate is accepted but a state to be compared is not in its part of the model;
                                           as the second never is where the first's count is above the state count */
    ZOLKIRTA_SHEET_BUFFER = 28,         /* the certificate is accepted but the lent buffer is too short for the sheet of blocks */
    /* in a cost model, file 1, at the byte of the cost */
    ZOLKIRTA_COST = 29,                 /* the model has a cost that is higher than allowed; 63 is the highest */
    /* in the certificate of a cost model, file 2 */
    ZOLKIRTA_COST_EQUATION = 30,        /* what a flow costs is not what the challenging transition costs; the cost equation breaks */
    /* in a text of PRISM, file 1, at the first byte of a line; 31 also at the text's end */
    ZOLKIRTA_LINE = 31,                 /* a line of the text is missing, surplus, too much for a model or not of the right form;
                                           or the head's counts are not the text's */
    ZOLKIRTA_CHOICE_SUM = 32,           /* the probabilities of a choice in the text do not add up to one */
    /* of the call, no file and no place */
    ZOLKIRTA_MODEL_BUFFER = 33,         /* the lent buffer is too short for the model that the text holds */
    /* in a model, after 7, by every call but the two that rewrite: file 1, or file 3 for the second of two */
    ZOLKIRTA_TERMS = 34,                /* the weights of a transition have a common divisor and so are not in lowest terms; the divisor is above 1 */
    /* of the two calls that rewrite: in the certificate, file 2, then of the call, no file and no place */
    ZOLKIRTA_REWRITTEN_K = 35,          /* the certificate is accepted but a number of a flow becomes too large in lowest terms;
                                           a k above 4,294,967,295 */
    ZOLKIRTA_REWRITTEN_BUFFER = 36,     /* the certificate is accepted but a lent buffer is too short for a file in lowest terms */
    /* of the call, no file and no place */
    ZOLKIRTA_COMPOSED_MODEL = 37,       /* the composition of the two models goes beyond what a model may hold;
                                           128 states, 256 transitions, 2,048 entries, d 65,535 and label 63 */
    ZOLKIRTA_COMPOSED_BUFFER = 38,      /* the lent buffer is too short for the composed model or for the one with actions hidden */
    /* of the call that composes sentences, no file and no place */
    ZOLKIRTA_SENTENCE_BUFFER = 39,      /* the lent buffer is too short for the sentence */
    /* of the call that writes the largest certificate, no file and no place */
    ZOLKIRTA_LARGEST_COUNTS = 40,       /* the number of states or transitions asked for the largest certificate is not allowed;
                                           allowed are 1 to 128 states and up to 256 transitions */
    ZOLKIRTA_LARGEST_BUFFER = 41        /* a lent buffer is too short for the model with the largest certificate or for the certificate */
};

/* What a call answers.
 *
 * Off by how much. Where 16, 20 or 21 refuses, state and remainder save a solver's writer from adding up terms: look at the condition or
 * equation of that state in the record at `place`, and lessen its left side, or raise its right one, by the remainder (the other way
 * where it is negative). Names are those of document 01.
 *   16: state is the refutation's t, remainder is d0 A(t) less the sum of p0(u) G(u), for a cost model less L times the challenger's cost
 *       times d0 as well, and in a strong certificate with its one price A for A(t). It is never negative, and as the left side must be below
 *       the right, one more than the remainder is to be made up for.
 *   20: state is the first v where an equation breaks, remainder is its left side, what arrives at v, less its right, what leaves v; never
 *       0. An external challenger has two equations at v: it is the one before the move, or where that one holds the one after it, since
 *       none after the move is looked at until all before it hold. In a strong certificate the equation of D comes first, whatever the
 *       challenger: state is the defender t, remainder is D less the sum of k d; then the first v, with the sum of k p(v) less that of w(v,u).
 *   21: state is the first u where an equation breaks, remainder is d0 times the sum of w(v,u) over v, less p0(u) D; never 0. Where d0
 *       divides it, the quotient is by how much the w onto u are too many. */
typedef struct zolkirta_answer {
    uint32_t number;       /* 0, or the number of the refusal */
    uint32_t file;         /* the file at fault: 1 model or text, 2 certificate, 3 the second model; 0 where none is */
    size_t place;          /* the byte of that file where the record or line at fault begins; for bytes left, the first; for 29, the
                              cost; for 31 where only the head's counts are wrong, the text's length */
    size_t stretch_start;  /* the stretch from that place to the file's end, or the run that was fetched: */
    size_t stretch_length; /* where it starts in its file and how long it is; both 0 where it is empty and has no file */
    size_t written;        /* bytes written into the lent buffer, of two the model's; 0 on refusal, and where none is lent */
    uint32_t state;        /* for 16, 20 and 21 the state whose condition or equation breaks; else 0 */
    int64_t remainder;     /* for 16, 20 and 21 its left side less its right one; else 0 */
} zolkirta_answer;

/* What zolkirta_alike answers. */
typedef struct zolkirta_alike_answer {
    zolkirta_answer answer;
    uint32_t alike; /* 1 for yes, 0 for no; 0 on refusal */
} zolkirta_alike_answer;

/* What zolkirta_rewrite, zolkirta_rewrite_costs and zolkirta_largest answer: 64 bytes, certificate_written at 56. */
typedef struct zolkirta_pair_answer {
    zolkirta_answer answer;     /* its `written` is of the model's buffer */
    size_t certificate_written; /* bytes written into the certificate's buffer; 0 on refusal */
} zolkirta_pair_answer;

/* The run of the model's bytes that holds the transitions that leave a state: number 0, with the run in stretch_start and
 * stretch_length, length 0 where none leave. Refusals 1 to 9 and 34 with file 1, and 24 where the state is not below the model's
 * state count. */
zolkirta_answer zolkirta_fetch(const uint8_t *model, size_t model_length, uint32_t state);

/* Judges a certificate for a model. Number 0: accepted, and the first `written` bytes of the block buffer, one a state, are the
 * blocks; its later bytes stay. Else a refusal, which writes nothing: 1 to 9 and 34 in the model (file 1), 10 where the block buffer is
 * shorter than the state count (no file, no place), 11 to 22 in the certificate (file 2). */
zolkirta_answer zolkirta_judge(const uint8_t *model, size_t model_length, const uint8_t *certificate, size_t certificate_length,
                               uint8_t *blocks, size_t blocks_length);

/* Judges a certificate for a cost model. Such a model has a cost from 0 to 63 for each transition: behind its transitions stands a
 * record of the mark 43 4F (hexadecimal) and one byte for each of them. Its certificate begins with 43 43 in place of 43 54. A flow of it
 * has one equation more: the sum of k times d times cost over all layers equals the challenger's cost times D. Each refutation ends with
 * one more price L, 4 bytes signed: in the conditions, L times cost times d of a transition is added to the side of its targets, and in
 * the last one L times the challenger's cost times d0 to the side of G. Number 0: accepted, and the first `written` bytes of the block
 * buffer, one a state, are the blocks, each of which lies inside a block of the same model without its costs; its later bytes stay. Else
 * a refusal, which writes nothing: 1 to 9, 29 and 34 in the model (file 1), 10 where the block buffer is shorter than the state count (no
 * file, no place), 11 to 22 and 30 in the certificate (file 2). The record of costs is read after the transitions: 1 and 2, then 29 at
 * the byte of the first cost above 63, then 9. 30 comes after 21, without a state and a remainder.
 *
 * No merged file is written for cost pairs, and no other call but zolkirta_rewrite_costs takes a cost model: it is refused with 9 where its
 * costs begin. */
zolkirta_answer zolkirta_judge_costs(const uint8_t *model, size_t model_length, const uint8_t *certificate, size_t certificate_length,
                                     uint8_t *blocks, size_t blocks_length);

/* Judges a certificate for a model by strong bisimulation, in which internal steps count as every other action does. It begins with 43 53
 * (hexadecimal) in place of 43 54. The defender t answers with its own transitions that have the challenger's action, internal or not: the k
 * entries of a flow have layer 1, and such a transition. D equals the sum of k times d; at each v the sum of k times p(v) equals the sum of
 * w(v,u) over u; the equations at u are as in zolkirta_judge. Each refutation has one price A, for t, then B and then G, one for each state, also
 * for an internal challenger: for each such transition d times A is at least the sum of p(v) B(v), B(v) is at least G(u) for related v and u,
 * and d0 times A is below the sum of p0(u) G(u). Number 0: accepted, and the first `written` bytes of the block buffer, one a state, are the
 * blocks, each of which lies inside a block that zolkirta_judge accepts for the same model; its later bytes stay. Else a refusal, which writes
 * nothing: those of zolkirta_judge, in its order.
 *
 * No merged file is written for strong pairs, and every other call that takes a certificate refuses theirs with 12, as this one does those of the
 * other kinds. */
zolkirta_answer zolkirta_judge_strong(const uint8_t *model, size_t model_length, const uint8_t *certificate, size_t certificate_length,
                                      uint8_t *blocks, size_t blocks_length);

/* Judges a certificate for a model and writes the model with each block merged into one state. Of the transitions of a block with one
 * action and the same probabilities the first is kept. Weights are added up by block, then divided: the file is in lowest terms. Number 0:
 * accepted, and the first `written` bytes of `out` are the merged model's file, which is no longer than the model's; its later bytes stay.
 * Else a refusal, which writes nothing: 1 to 9 and 34 in the model (file 1), 11 to 22 in the certificate (file 2), and 23 where the
 * certificate is accepted and `out` is shorter than the file (no file, no place).
 *
 * The merged model may be used for the model: each state behaves as the merged state that has its block's number. So where the two are
 * joined and certified, zolkirta_alike says yes of a state s and n + the block of s, n being the model's state count. */
zolkirta_answer zolkirta_reduce(const uint8_t *model, size_t model_length, const uint8_t *certificate, size_t certificate_length,
                                uint8_t *out, size_t out_length);

/* Judges a certificate for a model and writes its blocks as a sheet, text in ASCII to print. Each line has 72 characters and a newline:
 * block number in 4 columns, its size in 4, and up to 16 of its states in 4 each, all right-aligned; further lines of a block leave the
 * first 8 columns blank, and what is left of its last line is spaces. Blocks and their states ascend. Number 0: accepted, and the first
 * `written` bytes of `sheet` are the sheet; its later bytes stay, and no byte 0 follows. Else a refusal, which writes nothing: 1 to 9 and
 * 34 in the model (file 1), 11 to 22 in the certificate (file 2), and 28 where the certificate is accepted and `sheet` is shorter than the
 * sheet (no file, no place). */
zolkirta_answer zolkirta_sheet(const uint8_t *model, size_t model_length, const uint8_t *certificate, size_t certificate_length,
                               uint8_t *sheet, size_t sheet_length);

/* Writes two models as one: the second's states and transitions follow the first's, its state numbers raised by the first's state
 * count; labels are kept, and the action count is the larger one. Number 0: the first `written` bytes of `out` are the joined
 * model's file; its later bytes stay. Else a refusal, which writes nothing: 1 to 9 and 34 in the first model (file 1), then the
 * same in the second (file 3), then 25 where the joined model passes a limit and 26 where `out` is shorter than the file (no file, no place). */
zolkirta_answer zolkirta_join(const uint8_t *first, size_t first_length, const uint8_t *second, size_t second_length, uint8_t *out,
                              size_t out_length);

/* Judges a certificate for a joined model and says whether a state of the first part behaves as one of the second. `first_count` is
 * the state count of the first part; both states go by their numbers in the joined model. Number 0: accepted, and `alike` is 1 where
 * the two share a block, else 0. Other numbers refuse: 1 to 9 and 34 in the model (file 1), 11 to 22 in the certificate (file 2), and 27
 * where the certificate is accepted, but `first_count` is above the state count, `first_state` is not below `first_count`, or
 * `second_state` is below it or not below the state count (no file, no place). */
zolkirta_alike_answer zolkirta_alike(const uint8_t *model, size_t model_length, uint32_t first_count, const uint8_t *certificate,
                                     size_t certificate_length, uint32_t first_state, uint32_t second_state);

/* Reads PRISM's transition file of a decision process, and writes the model. The text is ASCII, each line ended by the byte 0A, also the
 * last one: a head, `states choices transitions`, then a line for each transition, `source choice target probability`, or these and a
 * name, all parted by single spaces. Numbers have no leading zeros. The head has 1 to 128 states, up to 256 choices, those of all sources
 * together, and up to 2,048 transitions; states lie below its count. Sources never descend, the choices of a source count up from 0, and
 * targets strictly ascend within a choice. A probability is 1, or 0, a point and one to four digits, not all 0; those of a choice add up
 * to 1. A name is one or more of the bytes 21 to 7E (hexadecimal), of any length; the lines of a choice have one name, or none of them has;
 * there are up to 31.
 *
 * Each choice becomes a transition, in the text's order and in lowest terms. Names become the actions 1, 2, .. by first sight, and a
 * choice without one is internal; the action count is one more than the names. All labels are 0: labels and rewards of the PRISM
 * model stand in other files.
 *
 * Number 0: the first `written` bytes of `out` are the model's file; its later bytes stay. Else a refusal, which writes nothing. 31 for a
 * line that breaks this form or a limit, at its first byte, or at the text's end where choices or transitions are not as many as the head
 * says. 32 for a choice that does not add up to 1, at its first line; it is judged at the text's end, and before each line that does not
 * begin with the choice's source, a space, its number and a space, and it comes ahead of 31 there. Both have file 1. Then 33, where `out`
 * is shorter than the file (no file, no place). */
zolkirta_answer zolkirta_read_prism(const uint8_t *text, size_t text_length, uint8_t *out, size_t out_length);

/* Judges a stored pair by the rules from before version 0.10.0, without 34, and writes it in lowest terms: the weights and d of each transition
 * are divided by their greatest common divisor g, and each k of a flow for that transition is multiplied by g; all else stays. Number 0:
 * accepted, and the first `answer.written` bytes of `model_out` and the first `certificate_written` bytes of `certificate_out` are the
 * rewritten files, each as long as the stored one; later bytes stay. The rewritten pair is accepted, with the same blocks, by zolkirta_judge
 * and every other call that takes a weak pair. Else a refusal, which writes nothing into either buffer: 1 to 9 in the model (file 1), 11 to 22
 * in the certificate (file 2); then, the certificate being accepted, 35 at the first flow record in which a k times g is above 4,294,967,295
 * (file 2); then 36 where a buffer is shorter than its file (no file, no place). */
zolkirta_pair_answer zolkirta_rewrite(const uint8_t *model, size_t model_length, const uint8_t *certificate, size_t certificate_length,
                                      uint8_t *model_out, size_t model_out_length, uint8_t *certificate_out,
                                      size_t certificate_out_length);

/* The same for a cost pair, judged by the rule with costs: 29 in the model and 30 in the certificate as well. Costs and L stay, and
 * zolkirta_judge_costs accepts the rewritten pair, with the same blocks. */
zolkirta_pair_answer zolkirta_rewrite_costs(const uint8_t *model, size_t model_length, const uint8_t *certificate,
                                            size_t certificate_length, uint8_t *model_out, size_t model_out_length,
                                            uint8_t *certificate_out, size_t certificate_out_length);

/* Writes the parallel composition of two models: both work side by side. An external action below both action counts is shared, whether a
 * transition has it or not: both do it together, or neither does. Every other action, internal ones among them, is done by one side alone
 * while the other stands still. State s of the left with state e of the right is state s times the right's state count, plus e; label l with
 * label r is l times (one more than the highest label of the right's states), plus r. The action count is the larger one. The transitions of a
 * state: the left's, in file order, a shared one once for each transition of e with its action, in file order; then those of the right that
 * are not shared. A shared one has the product of both d, and of the weights of both at each pair of their targets, so the file is in lowest
 * terms. Number 0: the first `written` bytes of `out` are the composition's file; its later bytes stay. Else a refusal, which writes nothing:
 * 1 to 9 and 34 in the left model (file 1), then the same in the right (file 3), then 37 where the composition passes a limit and 38 where
 * `out` is shorter than the file (no file, no place).
 *
 * States of the left model that behave alike do so beside every state of the right: for s and t of one block of an accepted certificate, s
 * with e and t with e are in one block of the composition's. This holds of weak certificates and of strong ones. */
zolkirta_answer zolkirta_compose(const uint8_t *left, size_t left_length, const uint8_t *right, size_t right_length, uint8_t *out,
                                 size_t out_length);

/* Writes a model with the external actions of a set made internal, action 0. The set is `actions`, one byte for each member, in any order and
 * as often as it likes; it may be empty. Members that are 0 or not below the action count change nothing, and the action count stays. Number
 * 0: the first `written` bytes of `out` are the file, which is as long as the model's; its later bytes stay. Else a refusal, which writes
 * nothing: 1 to 9 and 34 in the model (file 1), then 38 where `out` is shorter than the file (no file, no place).
 *
 * States that behave alike, weakly or strongly, do so with actions hidden. */
zolkirta_answer zolkirta_hide(const uint8_t *model, size_t model_length, const uint8_t *actions, size_t actions_length, uint8_t *out,
                              size_t out_length);

/* Composes the English sentence of an answer, for support staff and those who call them: its number, what that means, and its file, place, state
 * and remainder, all in decimal. `Answer 20: what comes to a state in a flow is not what leaves it (file 2, place 79, state 1, remainder 1).`
 * Each number has its words, and those that no call answers have the same; no two are alike. The five values are taken as they are, every one
 * of their widths. Number 0: the first `written` bytes of `out` are the sentence, in ASCII, without a newline and without a byte 0; its later
 * bytes stay. Else 39, where `out` is shorter than the sentence (no file, no place), which writes nothing.
 *
 * Answers that differ in any of the five never have the same sentence. */
zolkirta_answer zolkirta_sentence(uint32_t number, uint32_t file, size_t place, uint32_t state, int64_t remainder, uint8_t *out,
                                  size_t out_length);

/* Writes a model of so many states and transitions, and for it an accepted certificate with as many flow records as any has, ZOLKIRTA_FLOWS: for
 * hosts that try how large it gets. All labels are 0, the action count is 1, and every transition is internal, from state 0 to itself with
 * 1/1. The certificate has no refutations, one block, and for each state t from 1 on a flow for each transition, 16 bytes each: D 1, no k, and
 * w(t,0) = 1. Number 0: the first `answer.written` bytes of `model_out` and the first `certificate_written` bytes of `certificate_out` are the
 * two files, of ZOLKIRTA_LARGEST_MODEL and ZOLKIRTA_LARGEST_CERTIFICATE bytes; later bytes stay. Else a refusal, which writes nothing into
 * either buffer: 40 where `states` is not 1 to 128 or `transitions` is above 256, then 41 where a buffer is shorter than its file (no file, no
 * place). */
zolkirta_pair_answer zolkirta_largest(uint32_t states, uint32_t transitions, uint8_t *model_out, size_t model_out_length,
                                      uint8_t *certificate_out, size_t certificate_out_length);

#ifdef __cplusplus
}
#endif

#endif
