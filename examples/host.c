/* A host: it plays the worked example of docs/calls.md and stops at the first answer that is another. tools/host builds and runs it. */
#include <inttypes.h>
#include <stdio.h>
#include <stdlib.h>

#include "zelatigbo.h"

static int wrong = 0;

/* Prints an answer, and whether it is the one that is wanted. */
static void told(const char *call, zel_answer answer, unsigned refusal, int has_place, uint32_t value)
{
    int same = zel_refusal(answer) == refusal && zel_has_place(answer) == has_place && zel_value(answer) == value;
    if (zel_refusal(answer) == 0)
        printf("%-28s %08" PRIx32, call, zel_value(answer));
    else if (zel_has_place(answer))
        printf("%-28s no %u %" PRIu32, call, zel_refusal(answer), zel_value(answer));
    else
        printf("%-28s no %u", call, zel_refusal(answer));
    printf("%s\n", same ? "" : "   WRONG");
    wrong += !same;
}

static void granted(const char *call, zel_answer answer, uint32_t value) { told(call, answer, 0, 0, value); }
static void refused(const char *call, zel_answer answer, unsigned number) { told(call, answer, number, 0, 0); }

int main(void)
{
    const zel_rule rules[] = {{1, 2, 0x11, 0x11, 2}};
    /* A head by route 0x080, a body with key 0x11, a tail of 5. */
    const uint32_t packet[] = {0x80000080u, 0x00000011u, 0x40000005u};
    const uint32_t headless[] = {0x00000011u, 0x40000005u};
    const uint16_t both[] = {1, 2};
    const uint8_t table[] = {1, 2, 255, 255, 255, 255};
    const uint8_t broken[] = {1, 1, 255, 255, 255, 255};
    enum { MANY = 66 };
    zel_rule many[MANY];

    zel_tree *tree = malloc(ZEL_BYTES);

    granted("bytes", zel_bytes(), ZEL_BYTES);
    refused("begin, too small", zel_begin(tree, ZEL_BYTES - 1), ZEL_NO_ROOM);
    refused("begin, no room", zel_begin(NULL, ZEL_BYTES), ZEL_NO_TREE);
    granted("begin", zel_begin(tree, ZEL_BYTES), 0);
    if (wrong != 0)
        return 1;
    refused("full 0", zel_full(tree, 0, rules, 1), 1);
    for (int line = 0; line < MANY; line++)
        many[line] = rules[0];
    refused("full 2, 66 rules", zel_full(tree, 2, many, MANY), 4);
    many[MANY - 1].high_card = 0;
    refused("full 2, the 66th is none", zel_full(tree, 2, many, MANY), 3);
    granted("full 2, 64 rules", zel_full(tree, 2, many, 64), 0);
    granted("full 2", zel_full(tree, 2, rules, 1), 0);

    granted("order 1 to 1", zel_order(tree, 1, both, 1), 0x80000080u);
    granted("send 1", zel_send(tree, 1, packet, 3), 0);
    granted("owed", zel_owed(tree), 6);
    granted("fire 1 up queue", zel_fire(tree, 1, ZEL_UP, ZEL_QUEUE), 2);
    granted("fire 1 down turn", zel_fire(tree, 1, ZEL_DOWN, ZEL_TURN), 0);
    granted("fire 1 up queue", zel_fire(tree, 1, ZEL_UP, ZEL_QUEUE), 2);
    granted("fire 1 down turn", zel_fire(tree, 1, ZEL_DOWN, ZEL_TURN), 16);
    granted("take 1", zel_take(tree, 1), 0x11);
    refused("fire 1 down turn", zel_fire(tree, 1, ZEL_DOWN, ZEL_TURN), 14);
    granted("owed", zel_owed(tree), 2);

    /* What is refused changes nothing. */
    told("send 1, no head", zel_send(tree, 1, headless, 2), 7, 1, 0);
    refused("send 3", zel_send(tree, 3, packet, 3), 5);
    refused("send 1, one word", zel_send(tree, 1, packet, 1), 6);
    refused("fire 1, station 2", zel_fire(tree, 1, 2, ZEL_QUEUE), ZEL_NO_STATION);
    refused("fire 1, input 5", zel_fire(tree, 1, ZEL_UP, 5), ZEL_NO_INPUT);
    refused("fire 1 up turn", zel_fire(tree, 1, ZEL_UP, ZEL_TURN), 13);
    refused("take, no tree", zel_take(NULL, 1), ZEL_NO_TREE);
    refused("owed, no tree", zel_owed(NULL), ZEL_NO_TREE);
    refused("take 1", zel_take(tree, 1), 18);
    refused("order 1 to none", zel_order(tree, 1, both, 0), 19);
    granted("owed", zel_owed(tree), 2);

    /* The same tree by its table, and a flood to cards 1 and 2 from card 0. */
    refused("wired, broken", zel_wired(tree, broken, sizeof broken, rules, 1), 2);
    granted("owed", zel_owed(tree), 2);
    granted("wired", zel_wired(tree, table, sizeof table, rules, 1), 0);
    granted("owed", zel_owed(tree), 0);
    zel_answer head = zel_order(tree, 0, both, 2);
    const uint32_t flood[] = {zel_value(head), 0x00000011u, 0x40000007u};
    granted("order 0 to 1 and 2", head, 0xa0000080u);
    granted("send 0", zel_send(tree, 0, flood, 3), 0);
    granted("owed", zel_owed(tree), 12);
    for (int word = 0; word < 3; word++) {
        granted("fire 0 up queue", zel_fire(tree, 0, ZEL_UP, ZEL_QUEUE), 2);
        granted("fire 0 down turn", zel_fire(tree, 0, ZEL_DOWN, ZEL_TURN), 12);
        granted("fire 1 down parent", zel_fire(tree, 1, ZEL_DOWN, ZEL_PARENT), word == 0 ? 0 : 16);
        granted("fire 2 down parent", zel_fire(tree, 2, ZEL_DOWN, ZEL_PARENT), word == 0 ? 0 : 16);
    }
    granted("owed", zel_owed(tree), 0);
    granted("take 2", zel_take(tree, 2), 0x20000011u);
    granted("take 2", zel_take(tree, 2), 0x40000007u);
    refused("take 0", zel_take(tree, 0), 18);

    free(tree);
    printf(wrong == 0 ? "every answer is the one that is wanted\n" : "%d answers are wrong\n", wrong);
    return wrong != 0;
}
