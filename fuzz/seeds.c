/* seeds.c - the vectors of tests/vectors as inputs of the fuzz targets.
 *
 * usage: seeds FOLDER NOTES FILE...
 * Each vector gives inputs, with its ticket and its stop: a check with its sheet twice, a choice with both sheets, a plan that is not refused with
 * the two sheets that it ends in, in both orders, and a refused plan with two empty sheets. A page and a slot count, which C programs cannot ask for,
 * give none. They go to FOLDER. A note gives its text, which goes to NOTES. */
#include "input.h"

#include <stdio.h>
#include <stdlib.h>
#include <string.h>

enum { LINE = 400000 };

static unsigned written, notes;

/* Puts hexadecimal text, "-" for no bytes, at the end of an input; gives the new size. */
static size_t put_hex(uint8_t *data, size_t size, const char *text)
{
    unsigned value;

    for (; sscanf(text, "%2x", &value) == 1 && strcmp(text, "-") != 0; text += 2)
        data[size++] = (uint8_t)value;
    return size;
}

/* What a vector asks about. */
struct part {
    const char *ticket, *stop;
};

static void write_file(const char *folder, unsigned number, const uint8_t *data, size_t size)
{
    char path[4096];
    FILE *file;

    snprintf(path, sizeof path, "%s/%03u", folder, number);
    file = fopen(path, "wb");
    if (file == NULL || fwrite(data, 1, size, file) != size || fclose(file) != 0)
        exit(2);
}

static void write_input(const char *folder, struct part part, const char *first, const char *second)
{
    static uint8_t data[LINE];
    size_t ticket_end = put_hex(data, HEAD, part.ticket), first_end = put_hex(data, ticket_end, first), size = put_hex(data, first_end, second);

    data[0] = (uint8_t)written;
    data[1] = (uint8_t)(written / 3);
    data[2] = (uint8_t)((ticket_end - HEAD) >> 8);
    data[3] = (uint8_t)(ticket_end - HEAD);
    data[4] = (uint8_t)((first_end - ticket_end) >> 8);
    data[5] = (uint8_t)(first_end - ticket_end);
    put_stop(data, strtoull(part.stop, NULL, 10));
    write_file(folder, written++, data, size);
}

static void write_note(const char *folder, const char *text)
{
    static uint8_t data[LINE];

    write_file(folder, notes++, data, put_hex(data, 0, text));
}

/* plan TICKET STOP .. | SHEET | SHEET, plan TICKET STOP .. = NUMBER, check TICKET STOP SHEET .., choose TICKET STOP SHEET SHEET .., or
 * note TEXT .. */
static void take_line(const char *folder, const char *notes_folder, char *line)
{
    char *call = strtok(line, " \n"), *ticket = strtok(NULL, " \n"), *stop = strtok(NULL, " \n"), *sheet = strtok(NULL, " \n"), *word;
    const char *last[4] = {"-", "-", "-", "-"};
    struct part part = {ticket, stop};

    if (call == NULL || call[0] == '#' || sheet == NULL || strcmp(call, "page") == 0 || strcmp(call, "slots") == 0)
        return;
    if (strcmp(call, "note") == 0) {
        write_note(notes_folder, ticket);
        return;
    }
    if (strcmp(call, "check") == 0) {
        write_input(folder, part, sheet, sheet);
        return;
    }
    if (strcmp(call, "choose") == 0 && (word = strtok(NULL, " \n")) != NULL) {
        write_input(folder, part, sheet, word);
        return;
    }
    while ((word = strtok(NULL, " \n")) != NULL) {
        memmove(last, last + 1, 3 * sizeof last[0]);
        last[3] = word;
    }
    if (strcmp(last[2], "|") == 0) {
        write_input(folder, part, last[3], last[1]);
        write_input(folder, part, last[1], last[3]);
    } else {
        write_input(folder, part, "-", "-");
    }
}

int main(int argc, char **argv)
{
    static char line[LINE];

    for (int k = 3; k < argc; k++) {
        FILE *file = fopen(argv[k], "r");

        if (file == NULL)
            return 2;
        while (fgets(line, sizeof line, file) != NULL)
            take_line(argv[1], argv[2], line);
        fclose(file);
    }
    printf("%u inputs, %u notes\n", written, notes);
    return written == 0 || notes == 0;
}
