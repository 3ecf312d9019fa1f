/* runs.c - runs of programs: the processor time that they take, and the least stack limit with which they print what they should. */
#define _GNU_SOURCE            /* for personality and wait4 */
#include "runs.h"
#include "jobs.h"

#include <fcntl.h>
#include <spawn.h>
#include <stdlib.h>
#include <string.h>
#include <sys/personality.h>
#include <sys/resource.h>
#include <sys/wait.h>
#include <unistd.h>

enum { STEP = 4096, TRIES = 8 };

static char *const no_environment[] = {NULL};

void must(int good, const char *what)
{
    if (good)
        return;
    fprintf(stderr, "bench: %s\n", what);
    exit(2);
}

FILE *ticket_file(const struct ref_job *job)
{
    static uint8_t ticket[REF_TICKET];
    size_t n = job == NULL ? 0 : ref_write_ticket(job, ticket, sizeof ticket);
    FILE *file = tmpfile();

    must(file != NULL && fwrite(ticket, 1, n, file) == n && fflush(file) == 0, "no file for a ticket");
    return file;
}

/* ---- Time ---- */

/* Processor time of one run, in microseconds. */
static double time_of(const struct command *command, FILE *ticket)
{
    posix_spawn_file_actions_t actions;
    struct rusage used;
    int status;
    pid_t child;

    must(lseek(fileno(ticket), 0, SEEK_SET) == 0, "a ticket cannot be read again");
    must(posix_spawn_file_actions_init(&actions) == 0 && posix_spawn_file_actions_adddup2(&actions, fileno(ticket), 0) == 0 &&
         posix_spawn_file_actions_addopen(&actions, 1, "/dev/null", O_WRONLY, 0) == 0, "no file actions");
    must(posix_spawn(&child, command->path, &actions, NULL, (char *const *)command->argument, no_environment) == 0, "a program cannot be run");
    posix_spawn_file_actions_destroy(&actions);
    must(wait4(child, &status, 0, &used) == child && status == 0, "a program does not end as it should");
    return 1e6 * (double)(used.ru_utime.tv_sec + used.ru_stime.tv_sec) + (double)(used.ru_utime.tv_usec + used.ru_stime.tv_usec);
}

/* Each run that counts comes after one on the empty ticket: a run after one of some milliseconds takes longer. */
void measure(const struct command *command, unsigned how_many, FILE *ticket, FILE *empty, unsigned repeats, double *took)
{
    static double with[MOST_COMMANDS][MOST_REPEATS], without[MOST_COMMANDS][MOST_REPEATS];

    for (unsigned r = 0; r < repeats; r++)
        for (unsigned k = 0; k < how_many; k++) {
            time_of(&command[k], empty);
            without[k][r] = time_of(&command[k], empty);
            with[k][r] = time_of(&command[k], ticket);
        }
    for (unsigned k = 0; k < how_many; k++)
        took[k] = median_of(with[k], repeats) - median_of(without[k], repeats);
}

/* ---- Stack ---- */

/* Where the stack begins is not left to chance, if the system allows that. */
size_t output_of(const struct command *command, FILE *ticket, size_t stack, uint8_t *text)
{
    const struct rlimit limit = {stack, stack};
    size_t len = 0;
    ssize_t got;
    int from[2], status;
    pid_t child;

    must(pipe(from) == 0 && lseek(fileno(ticket), 0, SEEK_SET) == 0, "no pipe");
    fflush(NULL);
    child = fork();
    must(child >= 0, "no process");
    if (child == 0) {
        personality(ADDR_NO_RANDOMIZE);
        if (dup2(fileno(ticket), 0) == 0 && dup2(from[1], 1) == 1 && close(from[0]) == 0 && setrlimit(RLIMIT_STACK, &limit) == 0)
            execve(command->path, (char *const *)command->argument, no_environment);
        _exit(127);
    }
    close(from[1]);
    while (len < MOST_TEXT && (got = read(from[0], text + len, MOST_TEXT - len)) > 0)
        len += (size_t)got;
    close(from[0]);
    must(waitpid(child, &status, 0) == child, "no end");
    return status == 0 ? len : 0;
}

/* Whether it prints what is wanted, each time. */
static int enough(const struct command *command, FILE *ticket, size_t stack, const uint8_t *want, size_t n)
{
    static uint8_t have[MOST_TEXT];

    for (unsigned k = 0; k < TRIES; k++)
        if (output_of(command, ticket, stack, have) != n || memcmp(have, want, n) != 0)
            return 0;
    return 1;
}

size_t least_stack(const struct command *command, FILE *ticket)
{
    static uint8_t want[MOST_TEXT];
    size_t low = 0, high = LARGEST_STACK, n = output_of(command, ticket, high, want);

    while (high - low > STEP) {
        size_t middle = low + (high - low) / 2 / STEP * STEP;

        if (enough(command, ticket, middle, want, n))
            high = middle;
        else
            low = middle;
    }
    return high;
}
