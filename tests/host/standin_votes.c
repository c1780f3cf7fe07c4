/* The library's name for votes over the optimised C. It stands apart from the
 * others, so that a planted fault can have its place. */
#include "optimised.h"

ospreyscreen_reply ospreyscreen_votes(const uint8_t *votes, size_t votes_len, uint64_t read,
                                      uint64_t write, uint8_t *out, size_t out_len)
{
    return opt_votes(votes, votes_len, read, write, out, out_len);
}
