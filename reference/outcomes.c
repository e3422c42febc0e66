/* How many switch words a cut order can leave, bit by bit. */
#include "reference.h"

enum { BITS = 32 };

static const uint32_t on_word = 0xAA995566u;

/* A bit that an obeying chip would change can end either way; any other is the old one, also in a word that is ON. */
static ReferenceCounts count_words(uint32_t old_word, uint32_t obeyed_word)
{
    ReferenceCounts counts = {1, 1};
    for (int i = 0; i < BITS; i++) {
        uint32_t old = old_word >> i & 1, obeyed = obeyed_word >> i & 1, on = on_word >> i & 1;
        if (old != obeyed)
            counts.words *= 2;
        else if (old != on)
            counts.on = 0;
    }
    return counts;
}

/* A program clears the bits that are 0 in the word ordered. */
ReferenceCounts reference_after_program(uint32_t old_word, uint32_t ordered_word)
{
    return count_words(old_word, old_word & ordered_word);
}

/* An erase sets all. */
ReferenceCounts reference_after_erase(uint32_t old_word)
{
    return count_words(old_word, UINT32_MAX);
}
