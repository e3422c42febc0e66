/* tealsettle: what a label printer's chip loads, and how it is updated, at a terminal. All that matters is a call of the
 * proved library (include/tealsettle.h); here files are read, answers said and bytes written. */
#include "tool.h"

#include <stdlib.h>
#include <string.h>

static const Command *const commands[] = {
    &report_command, &switch_command, &check_command, &image_command, &mcs_command, &is_mcs_command, &build_command,
    &update_command, &cut_command, &outcomes_command, &heaviest_command,
};
enum { COMMANDS = sizeof commands / sizeof *commands };

static void print_commands(FILE *to)
{
    for (size_t i = 0; i < COMMANDS; i++)
        fprintf(to, "  tealsettle %s %s\n      %s.\n", commands[i]->name, commands[i]->usage, commands[i]->purpose);
}

static void print_help(void)
{
    printf("tealsettle: what the flash chip of a label printer loads, and its updates\n\n");
    print_commands(stdout);
    printf("\n`tealsettle COMMAND --help` says more, `tealsettle --version` which version this is.\n"
           "A refusal is said on standard error, in words, and with its number and place where it has them.\n"
           "Exit status: 0 done; 1 the answer is no; 2 wrong use, or trouble with a file.\n");
}

static const Command *find_command(const char *name)
{
    for (size_t i = 0; i < COMMANDS; i++)
        if (strcmp(commands[i]->name, name) == 0)
            return commands[i];
    return NULL;
}

int main(int count, char **words)
{
    prepare_files();
    const char *name = count > 1 ? words[1] : "";
    if (strcmp(name, "--help") == 0 || strcmp(name, "--version") == 0) {
        if (strcmp(name, "--help") == 0)
            print_help();
        else
            printf("tealsettle %s\n", TEALSETTLE_VERSION);
        return end_output(DONE);
    }
    const Command *command = find_command(name);
    if (!command) {
        fprintf(stderr, "tealsettle: %s%s; there are\n", name, *name ? ": no such command" : "no command is named");
        print_commands(stderr);
        return TROUBLE;
    }
    Arguments arguments = read_arguments(command, words + 2);
    return end_output(command->run(&arguments));
}
