/* What is said on standard error. */
#include "tool.h"

#include <errno.h>
#include <stdlib.h>
#include <string.h>

_Noreturn void trouble(const char *what, const char *why)
{
    end_progress();
    fprintf(stderr, "tealsettle: %s: %s\n", *what ? what : "''", why);
    exit(TROUBLE);
}

_Noreturn void system_trouble(const char *what)
{
    trouble(what, strerror(errno));
}

void *held(void *memory)
{
    if (!memory)
        trouble("memory", "there is not enough");
    return memory;
}

char *joined(const char *first, const char *second)
{
    size_t length = strlen(first);
    char *both = held(malloc(length + strlen(second) + 1));
    strcpy(both, first);
    strcpy(both + length, second);
    return both;
}

int refused_in_words(const char *what, const char *why)
{
    fprintf(stderr, "tealsettle: %s: refused: %s\n", what, why);
    return ANSWER_NO;
}

int refused_because(const char *what, uint32_t number, size_t place, const char *why)
{
    fprintf(stderr, "tealsettle: %s: refused %u at %zu: %s\n", what, (unsigned)number, place, why);
    return ANSWER_NO;
}

int refused(const char *what, uint32_t number, size_t place)
{
    return refused_because(what, number, place, tealsettle_refusal_words(number));
}

int refused_text(const File *text, uint32_t number, size_t place)
{
    size_t line = 1, column = 1;
    for (size_t i = 0; i < place; i++) {
        column++;
        if (text->bytes[i] == '\n') {
            line++;
            column = 1;
        }
    }
    fprintf(stderr, "tealsettle: %s: refused %u at %zu (line %zu, column %zu): %s\n", text->name, (unsigned)number, place,
            line, column, tealsettle_refusal_words(number));
    return ANSWER_NO;
}

int stopped(const char *what, uint32_t number, size_t place)
{
    fprintf(stderr, "tealsettle: %s: stopped %u at %zu: %s; run it again\n", what, (unsigned)number, place,
            tealsettle_refusal_words(number));
    return ANSWER_NO;
}
