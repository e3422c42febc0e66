/* The words of a command line. */
#include "tool.h"

#include <stdlib.h>
#include <string.h>

static _Noreturn void wrong_use(const Command *command, const char *what, const char *why)
{
    fprintf(stderr, "tealsettle %s: %s: %s\nusage: tealsettle %s %s\n", command->name, *what ? what : "''", why, command->name,
            command->usage);
    exit(TROUBLE);
}

static _Noreturn void show_help(const Command *command)
{
    printf("usage: tealsettle %s %s\n\n%s.\n\n%s", command->name, command->usage, command->purpose, command->help);
    exit(end_output(DONE));
}

/* A digit's value; 16 if it is none of the base. */
static unsigned digit(char c, unsigned base)
{
    static const char digits[] = "0123456789abcdef";
    const char *found = c ? strchr(digits, c >= 'A' && c <= 'F' ? c - 'A' + 'a' : c) : NULL;
    unsigned value = found ? (unsigned)(found - digits) : base;
    return value < base ? value : 16;
}

static bool begins_with_0x(const char *word)
{
    return word[0] == '0' && (word[1] == 'x' || word[1] == 'X');
}

static Number read_number(const Command *command, const char *option, const char *word)
{
    bool hexadecimal = begins_with_0x(word);
    unsigned base = hexadecimal ? 16 : 10;
    const char *at = hexadecimal ? word + 2 : word;
    Number number = {.given = true};
    do {
        unsigned value = digit(*at, base);
        if (value == 16)
            wrong_use(command, option, "takes a number, decimal or after 0x hexadecimal");
        if (number.value > (SIZE_MAX - value) / base)
            wrong_use(command, option, "the number is too large");
        number.value = number.value * base + value;
    } while (*++at);
    return number;
}

/* A switch word has eight digits. Fewer are not filled up: where one was forgotten, that would be another word. */
static Number read_switch_word(const Command *command, const char *word)
{
    const char *digits = begins_with_0x(word) ? word + 2 : word;
    Number number = {.given = true};
    bool good = strlen(digits) == 8;
    for (; good && *digits; digits++) {
        unsigned value = digit(*digits, 16);
        good = value != 16;
        number.value = number.value * 16 + value;
    }
    if (!good)
        wrong_use(command, word, "is no switch word: one has eight hexadecimal digits, such as AA995566");
    return number;
}

static void take_option(const Command *command, Arguments *arguments, char letter, const char *value)
{
    const char option[] = {'-', letter, '\0'};
    switch (letter) {
    case 'o':
        arguments->output = value;
        return;
    case 'w':
        arguments->writes = true;
        return;
    case 'b':
        arguments->plain = true;
        return;
    case 'F':
        arguments->length = read_number(command, option, value);
        return;
    case 'U':
        arguments->update = read_number(command, option, value);
        return;
    case 'A':
        arguments->area = read_number(command, option, value);
        return;
    case 'k':
        arguments->orders = read_number(command, option, value);
        return;
    }
}

/* Whether an option stands by itself. */
static bool is_flag(char letter)
{
    return letter == 'w' || letter == 'b';
}

/* The option in a word, with its value there or in the next word; the last word that it takes. */
static char **read_option(const Command *command, Arguments *arguments, char **word)
{
    char letter = word[0][1];
    char *value = word[0] + 2;
    if (strcmp(word[0], "--help") == 0)
        show_help(command);
    if (!strchr(command->options, letter) || (is_flag(letter) && *value))
        wrong_use(command, word[0], "is no option of this command");
    if (!is_flag(letter) && !*value)
        value = *++word;
    if (!value)
        wrong_use(command, word[-1], "its value is missing");
    take_option(command, arguments, letter, value);
    return word;
}

static bool is_given(const Arguments *arguments, char letter)
{
    switch (letter) {
    case 'o':
        return arguments->output;
    case 'F':
        return arguments->length.given;
    case 'U':
        return arguments->update.given;
    default:
        return arguments->orders.given;
    }
}

/* The operand that comes after `count` others. */
static void take_operand(const Command *command, Arguments *arguments, int count, const char *operand)
{
    if (count == command->files + command->words)
        wrong_use(command, operand, command->words ? "is a word too many" : "is a file too many");
    if (command->numbers)
        arguments->words[count] = read_number(command, "N", operand);
    else if (command->words)
        arguments->words[count] = read_switch_word(command, operand);
    else
        arguments->files[count] = operand;
}

static void check_needed(const Command *command, const Arguments *arguments, int operands)
{
    for (const char *letter = command->needed; *letter; letter++) {
        const char option[] = {'-', *letter, '\0'};
        if (!is_given(arguments, *letter))
            wrong_use(command, option, "is missing");
    }
    if (operands < command->files)
        wrong_use(command, "files", "a name is missing");
    if (operands < command->words - command->optional)
        wrong_use(command, command->numbers ? "N" : "switch word", "is missing");
}

/* Standard input can be read once. */
static void check_input(const Command *command, const Arguments *arguments)
{
    int count = 0;
    for (int i = 0; i < command->files; i++)
        count += strcmp(arguments->files[i], "-") == 0;
    if (count > 1)
        wrong_use(command, "-", "only one file can be standard input");
}

Arguments read_arguments(const Command *command, char **words)
{
    Arguments arguments = {.output = NULL};
    bool options = true;
    int operands = 0;
    for (; *words; words++) {
        if (options && strcmp(*words, "--") == 0)
            options = false;
        else if (options && words[0][0] == '-' && words[0][1])
            words = read_option(command, &arguments, words);
        else
            take_operand(command, &arguments, operands++, *words);
    }
    check_needed(command, &arguments, operands);
    check_input(command, &arguments);
    return arguments;
}
