/* The multicast router of a tree of cards, for a host in C, C++ or Fortran. docs/c.md says what each call does and what the caller owes.
   The functions stand in libcapi.a, which tools/host builds. None of them allocates, blocks or keeps a pointer. */
#ifndef ZELATIGBO_H
#define ZELATIGBO_H

#include <stddef.h>
#include <stdint.h>

#ifdef __cplusplus
extern "C" {
#endif

/* A tree. It lies in memory of the caller: zel_bytes() bytes, aligned to 8, as malloc gives them. No two calls may be on one tree at a
   time, not even such as only read it: those that take a const zel_tree *. */
typedef struct zel_tree zel_tree;

/* What zel_bytes() answers in this version of the library, for memory of a fixed size. It belongs to this header and the library built
   with it; zel_begin checks it: given fewer bytes than its own trees take, it is refused by ZEL_NO_ROOM. */
#define ZEL_BYTES 19512

/* A rule: floods with a key from low_key to high_key are kept with this class at the cards from low_card to high_card. */
typedef struct zel_rule {
    uint16_t low_card;
    uint16_t high_card;
    uint8_t low_key;
    uint8_t high_key;
    uint8_t verdict; /* a class, 0 to 3, or ZEL_REFUSE */
} zel_rule;

/* The library reads a rule as these eight bytes. */
#if defined(__cplusplus) && __cplusplus >= 201103L
static_assert(sizeof(zel_rule) == 8, "a zel_rule has eight bytes");
#elif defined(__STDC_VERSION__) && __STDC_VERSION__ >= 201112L
_Static_assert(sizeof(zel_rule) == 8, "a zel_rule has eight bytes");
#endif

#define ZEL_REFUSE 255

/* Stations, and their inputs. */
enum { ZEL_UP = 0, ZEL_DOWN = 1 };
enum { ZEL_LEFT = 0, ZEL_RIGHT = 1, ZEL_QUEUE = 2, ZEL_PARENT = 3, ZEL_TURN = 4 };

/* An answer has 64 bits: 31 to 0 hold what is granted, or the place of a refusal; 39 to 32 the number of the refusal, 0 where the
   call is granted; 40 is set where the refusal has a place. The others are 0. */
typedef uint64_t zel_answer;

/* The refusals from 1 to 20 stand in docs/refusals.md. These are for mistakes that only a caller by numbers can make. */
enum { ZEL_NO_STATION = 101, ZEL_NO_INPUT = 102, ZEL_NO_ROOM = 103, ZEL_NO_TREE = 104 };

static inline unsigned zel_refusal(zel_answer answer) { return (unsigned)(answer >> 32) & 255; }
static inline int zel_has_place(zel_answer answer) { return (int)(answer >> 40) & 1; }
static inline uint32_t zel_value(zel_answer answer) { return (uint32_t)answer; }

/* How many bytes a tree takes. */
size_t zel_bytes(void);

/* Makes a tree of one card and no rules in this room of so many bytes. Refused by ZEL_NO_ROOM if they are fewer than zel_bytes(), and by
   ZEL_NO_TREE if the pointer is null; then nothing is written. Each call below wants a tree that this call has made in the place where it
   lies now, and is refused by ZEL_NO_TREE if the pointer to it is null. */
zel_answer zel_begin(void *room, size_t bytes);

/* A new full tree of 1 to 5 levels, or the tree that a table lists (two entries for each card in turn, its left and its right daughter,
   255 for none), with these rules. What the tree held before is gone. Refused by 1, 2, 3 or 4; then the tree is as it was. */
zel_answer zel_full(zel_tree *tree, uint16_t levels, const zel_rule *rules, size_t rule_count);
zel_answer zel_wired(zel_tree *tree, const uint8_t *table, size_t entries, const zel_rule *rules, size_t rule_count);

/* Queues a whole packet at a card. */
zel_answer zel_send(zel_tree *tree, uint16_t card, const uint32_t *words, size_t word_count);

/* Moves one word through one station. Grants the sum of the outputs written: 1 up link, 2 turn link, 4 left, 8 right, 16 inbox. */
zel_answer zel_fire(zel_tree *tree, uint16_t card, uint8_t station, uint8_t input);

/* Removes the oldest word of a card's inbox, and grants it. */
zel_answer zel_take(zel_tree *tree, uint16_t card);

/* The hops owed. Refused only by ZEL_NO_TREE. Like zel_order it only reads, but no other call may be on the same tree meanwhile. */
zel_answer zel_owed(const zel_tree *tree);

/* The head word of a packet from the sender to these cards, by the tree's wiring. No other call may be on the same tree meanwhile. */
zel_answer zel_order(const zel_tree *tree, uint16_t sender, const uint16_t *cards, size_t card_count);

#ifdef __cplusplus
}
#endif

#endif
