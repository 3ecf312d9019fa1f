/* running.c - the programs that a test runs. */
#define _POSIX_C_SOURCE 200809L
#include "running.h"
#include "reference/answer.h"

#include <errno.h>
#include <inttypes.h>
#include <signal.h>
#include <stdlib.h>
#include <string.h>
#include <sys/ioctl.h>
#include <sys/wait.h>
#include <time.h>
#include <unistd.h>

struct runs runs;

static pid_t program;          /* the one that is running, or 0 */
static FILE *errors;           /* what the programs write to standard error, which must be nothing */
static size_t taken;           /* bytes of its input that the last one read from a file */

static void say_replay(void)
{
    printf("replay: %s %s %s %" PRIu64, runs.test, runs.cases, runs.program, runs.seed);
    if (runs.draw == NO_DRAW)
        printf(" 0\n");
    else
        printf(" 1 %" PRId64 "\n", runs.draw);
}

/* What the programs have written to standard error, if there is something. */
static bool say_errors(void)
{
    uint8_t text[201];
    ssize_t len = pread(fileno(errors), text, sizeof text, 0);

    if (len > 0)
        print_text("errors", text, (size_t)len);
    return len > 0;
}

void fail(void)
{
    say_errors();
    say_replay();
    fflush(stdout);
    if (program > 0)
        kill(program, SIGKILL);
    _exit(1);
}

static void too_late(int cause)
{
    (void)cause;
    printf("STOPPED: no answer in %d seconds\n", WAIT_SECONDS);
    fail();
}

void begin_running(const char *test, int argc, char **argv)
{
    if (argc < 3) {
        fprintf(stderr, "usage: %s CASES PROGRAM [SEED [COUNT [FIRST]]]\n", test);
        exit(2);
    }
    runs.test = test;
    runs.cases = argv[1];
    runs.program = argv[2];
    runs.seed = argc > 3 ? strtoull(argv[3], NULL, 10) : 1;
    runs.count = argc > 4 ? strtoull(argv[4], NULL, 10) : 500;
    runs.first = argc > 5 ? strtoull(argv[5], NULL, 10) : 0;
    runs.draw = NO_DRAW;
    errors = tmpfile();
    must(errors != NULL, "the file of errors");
    signal(SIGALRM, too_late);
}

int end_running(const char *drawn, bool (*all_met)(void), const char *kinds)
{
    bool all;

    printf("%" PRIu64 " %s agree (seed %" PRIu64 "); numbers met:\n", runs.count, drawn, runs.seed);
    all = all_met() || runs.first != 0 || runs.count == 0;
    if (!all)
        printf("FAIL: %s was never met\n", kinds);
    return all ? 0 : 1;
}

void must(bool good, const char *what)
{
    if (good)
        return;
    perror(what);
    exit(2);
}

/* Starts a program with these as its standard input and output, and the file of errors; it gets none of
 * the pipes' ends beside. */
static pid_t start(const char *const *command, int in, int out, const int *ends, unsigned how_many)
{
    pid_t child;

    fflush(NULL);
    child = fork();
    must(child >= 0, "fork");
    if (child > 0)
        return child;
    if (dup2(in, 0) < 0 || dup2(out, 1) < 0 || dup2(fileno(errors), 2) < 0)
        _exit(126);
    for (unsigned k = 0; k < how_many; k++)
        close(ends[k]);
    execv(command[0], (char *const *)command);
    perror(command[0]);
    _exit(127);
}

/* Waits for a program, which must end by itself and with status 0, and write nothing to standard error. */
static void end(pid_t child, const char *name)
{
    int status;

    alarm(WAIT_SECONDS);
    must(waitpid(child, &status, 0) == child, "waitpid");
    if (status != 0) {
        printf("DISAGREE: %s ends %s %d\n", name, WIFSIGNALED(status) ? "by signal" : "with status",
               WIFSIGNALED(status) ? WTERMSIG(status) : WEXITSTATUS(status));
        fail();
    }
    if (lseek(fileno(errors), 0, SEEK_END) != 0) {
        printf("DISAGREE: %s writes to standard error\n", name);
        fail();
    }
    alarm(0);
}

void try_lines(void (*write_lines)(FILE *), void (*read_answers)(FILE *))
{
    const char *const command[] = {runs.cases, NULL};
    int ends[4], *to = ends, *from = ends + 2;
    pid_t writer;
    FILE *file;

    must(pipe(to) == 0 && pipe(from) == 0, "pipe");
    program = start(command, to[0], from[1], ends, 4);
    writer = fork();
    must(writer >= 0, "fork");
    close(to[0]);
    close(from[1]);
    if (writer == 0) {
        close(from[0]);
        file = fdopen(to[1], "w");
        must(file != NULL, "fdopen");
        write_lines(file);
        _exit(fclose(file) != 0);
    }
    close(to[1]);
    file = fdopen(from[0], "r");
    must(file != NULL, "fdopen");
    read_answers(file);
    if (fgetc(file) != EOF) {
        printf("DISAGREE: cases writes more than was asked\n");
        fail();
    }
    fclose(file);
    end(program, "cases");
    end(writer, "the writer of the lines");
    program = 0;
}

/* What stands after " = " in the next line, which must repeat the call. */
static const char *next_answer(FILE *file, const char *call)
{
    static char have[ANSWER_LINE];
    size_t n = strlen(call);

    alarm(WAIT_SECONDS);
    if (fgets(have, sizeof have, file) == NULL) {
        printf("DISAGREE: cases ends without an answer\n  %s\n", call);
        fail();
    }
    have[strcspn(have, "\n")] = '\0';
    if (strncmp(have, call, n) != 0 || strncmp(have + n, " = ", 3) != 0) {
        printf("DISAGREE: cases does not repeat the call\n  %s\n  cases: %.200s\n", call, have);
        fail();
    }
    return have + n + 3;
}

void print_text(const char *who, const uint8_t *text, size_t len)
{
    printf("  %-9s \"", who);
    for (size_t k = 0; k < len && k < 200; k++)
        printf(text[k] >= ' ' && text[k] < 127 ? "%c" : "\\x%02x", text[k]);
    printf("\"%s\n", len > 200 ? ".." : "");
}

void print_words(const char *have, const char *want)
{
    size_t at = 0;

    while (have[at] != '\0' && have[at] == want[at])
        at++;
    while (at > 0 && want[at - 1] != ' ')
        at--;
    printf("  %-9s %.80s\n  %-9s %.80s\n", "cases", have + at, "reference", want + at);
}

const char *same_answer(FILE *file, const char *call, void (*say)(const char *have, const char *want))
{
    static char parts[ANSWER_LINE], want[ANSWER_LINE];
    const char *have = next_answer(file, call);

    strcpy(parts, call);
    if (!answer(parts, want))
        exit(2);
    if (strcmp(have, want) != 0) {
        printf("DISAGREE: cases gives another answer\n");
        say(have, want);
        printf("  %s\n", call);
        fail();
    }
    return want;
}

/* The whole output of the program that is running, as far as there is room; waits for its end. */
static size_t read_output(int from, const char *name, uint8_t *text, size_t room)
{
    size_t len = 0;
    ssize_t got;

    while (len < room && (got = read(from, text + len, room - len)) > 0)
        len += (size_t)got;
    close(from);
    end(program, name);
    program = 0;
    return len;
}

size_t output_of(const char *const *command, const char *name, const uint8_t *input, size_t length,
                 uint8_t *text, size_t room)
{
    FILE *file = tmpfile();
    off_t place;
    size_t len;
    int from[2];

    must(file != NULL && fwrite(input, 1, length, file) == length, "an input's file");
    must(fflush(file) == 0 && lseek(fileno(file), 0, SEEK_SET) == 0, "an input's file");
    must(pipe(from) == 0, "pipe");
    alarm(WAIT_SECONDS);
    program = start(command, fileno(file), from[1], from, 2);
    close(from[1]);
    len = read_output(from[0], name, text, room);
    place = lseek(fileno(file), 0, SEEK_CUR);
    must(place >= 0, "an input's file");
    taken = (size_t)place;
    fclose(file);
    return len;
}

/* Writes into a pipe, and waits until that is read, for ten seconds at most; the reader may have ended. */
static void write_part(int to, const uint8_t *part, size_t length)
{
    const struct timespec millisecond = {0, 1000000};
    int left = 1;

    must(write(to, part, length) == (ssize_t)length || errno == EPIPE, "write");
    for (unsigned k = 0; k < 10000 && left > 0; k++) {
        must(ioctl(to, FIONREAD, &left) == 0, "a pipe");
        if (left > 0)
            nanosleep(&millisecond, NULL);
    }
}

size_t output_in_two(const char *const *command, const char *name, const uint8_t *input, size_t length,
                     uint8_t *text, size_t room)
{
    int ends[4], *to = ends, *from = ends + 2;

    must(pipe(to) == 0 && pipe(from) == 0, "pipe");
    alarm(WAIT_SECONDS);
    program = start(command, to[0], from[1], ends, 4);
    close(to[0]);
    close(from[1]);
    signal(SIGPIPE, SIG_IGN);
    write_part(to[1], input, length / 2);
    write_part(to[1], input + length / 2, length - length / 2);
    signal(SIGPIPE, SIG_DFL);
    close(to[1]);
    taken = 0;
    return read_output(from[0], name, text, room);
}

size_t input_taken(void)
{
    return taken;
}
