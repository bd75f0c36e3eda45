/* What the engine's numbers mean, in words, for a host's log or screen.
 *
 * Refusals, 17 to 31, 35 and 36, mean the same in every call; rejections, 1 to 16, are those of catalogue_apply and
 * catalogue_apply_words. Other answers are a call's own and stand at the call in catalogue.h. Each function answers
 * NULL for a number that is not its own. These words are no text of catalogue_apply_words: they name no node, key or
 * number.
 */
#ifndef CATALOGUE_WORDS_H
#define CATALOGUE_WORDS_H

#include "catalogue.h"

/* Why the map rejected a command, 1 to 16. */
static inline const char *catalogue_rejection(uint32_t number)
{
    static const char *const words[] = {"an older command of this client",
                                        "the collection exists",
                                        "a zero among the collection's numbers",
                                        "the lists do not match the collection's numbers",
                                        "a node is not alive",
                                        "no such collection",
                                        "the node is known under this incarnation or a later one",
                                        "the node is unknown, or known under another incarnation",
                                        "no such shard",
                                        "the shard has another epoch",
                                        "the node holds the shard already",
                                        "the primary cannot be removed",
                                        "the node does not hold the shard",
                                        "the node is not in sync",
                                        "the primary stays in sync",
                                        "the node is in sync already"};
    if (number < CATALOGUE_REJECTED_OLDER || number > CATALOGUE_REJECTED_ALREADY_IN_SYNC)
        return NULL;
    return words[number - CATALOGUE_REJECTED_OLDER];
}

/* Why a call was refused, 17 to 31, 35, 36. */
static inline const char *catalogue_refusal(uint32_t number)
{
    static const char *const words[] = {"the node does not hold the shard",
                                        "not the primary under that epoch",
                                        "no lease holds",
                                        "fewer in sync than asked for",
                                        "bytes that are no such message, or a time above 2^62",
                                        "a component outside the domain",
                                        "a limit is reached, or an output is too short",
                                        "an image that is too short or malformed",
                                        "the epoch cannot rise",
                                        "an ack for a peer without a worker"};
    if (number == CATALOGUE_SHORT_TEXT)
        return "a buffer shorter than the words of a rejection";
    if (number == CATALOGUE_OUT_OF_ORDER)
        return "answers that are out of order";
    if (number == CATALOGUE_WRONG_SHARD)
        return "an id of another shard";
    if (number == CATALOGUE_OUT_OF_RANGE)
        return "a position out of range";
    if (number == CATALOGUE_NO_THOUSANDTH)
        return "a right ascension with no whole thousandth of a second";
    if (number == CATALOGUE_TOO_MANY)
        return "more placements than 64 bits count";
    if (number == CATALOGUE_TOO_WIDE)
        return "more than 4 ids, an id given twice, above 16 lists or 8 nodes";
    if (number < CATALOGUE_UNKNOWN_SHARD || number > CATALOGUE_NO_WORKER)
        return NULL;
    return words[number - CATALOGUE_UNKNOWN_SHARD];
}

#endif
