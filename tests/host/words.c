/* tealsettle_refusal_words: every refusal and stop has words of its own, and so have 0, the numbers of tealsettle_update alone,
 * and numbers that are none. */
#include "../../include/tealsettle.h"

#include <stdio.h>
#include <string.h>

enum { NUMBERS = TEALSETTLE_REFUSED_NO_ROOM + 2 }; /* 0, the refusals and stops up to a gap, and one in the gap, which is none */

/* Whether a number has no words, or the words of a smaller one. */
static int wrong(uint32_t number)
{
    const char *words = tealsettle_refusal_words(number);
    int same = words[0] == '\0';
    for (uint32_t other = 0; other < number; other++)
        same |= strcmp(words, tealsettle_refusal_words(other)) == 0;
    return same;
}

int main(void)
{
    for (uint32_t number = 0; number < NUMBERS; number++)
        if (wrong(number))
            return printf("%u has no words of its own\n", (unsigned)number), 1;
    if (wrong(TEALSETTLE_REFUSED_BAD_HEAVIEST_LENGTH))
        return printf("the refusal after those has no words of its own\n"), 1;
    if (wrong(TEALSETTLE_ABANDONED) || wrong(TEALSETTLE_OTHER_PLACE))
        return printf("a number of tealsettle_update has no words of its own\n"), 1;
    if (strcmp(tealsettle_refusal_words(UINT32_MAX), tealsettle_refusal_words(NUMBERS)) != 0)
        return printf("numbers that are none have different words\n"), 1;
    printf("host test: %d numbers, each with words of its own\n", NUMBERS + 3);
    return 0;
}
