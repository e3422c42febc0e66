/* Another program, or this one again, as a job: its run from file to file. */
#include "bench.h"

#include <spawn.h>
#include <stdio.h>
#include <stdlib.h>
#include <sys/wait.h>

extern char **environ;

static int run_process(void *context)
{
    Process *p = context;
    pid_t pid;
    int status;
    if (posix_spawnp(&pid, p->command[0], NULL, NULL, p->command, environ) != 0)
        return 0;
    if (waitpid(pid, &status, 0) < 0 || !WIFEXITED(status))
        fail(p->command[0]);
    if (WEXITSTATUS(status) == 127) /* where a spawn cannot say so itself */
        return 0;
    if (WEXITSTATUS(status) != 0) {
        printf("%s ended with %d\n", p->command[0], WEXITSTATUS(status));
        exit(1);
    }
    return 1;
}

static Answer process_answer(void *context)
{
    Process *p = context;
    size_t length;
    uint8_t *bytes = load(p->out, &length);
    int right = p->is_right(p->made, bytes, length);
    unload(bytes, length);
    if (!right) {
        printf("%s gave another file than it must\n", p->command[0]);
        exit(1);
    }
    return (Answer){{"the file is the one that it must be"}, {1}};
}

void process_row(const char *job, size_t bytes, Process *ours, Process *peer)
{
    Row row = {job, bytes, {"tealsettle", run_process, process_answer, ours}, {peer->command[0], run_process, process_answer, peer}};
    table_row(&row);
}
