/* choose_sheet.c - reads a ticket and two sheets for it from files, and writes the sheet that is handed back to standard output.
 *
 * usage: choose_sheet TICKET FIRST SECOND
 * A line on standard error says which sheet it is. Exit 1 if the call is refused, and the line then says why; 2 for bad usage, or if reading or
 * writing fails. */
#include <planner.h>

#include <stdio.h>
#include <stdlib.h>

/* Reads a file, or as much of it as there is room for; gives the length. */
static size_t read_file(const char *name, uint8_t *bytes, size_t room)
{
    FILE *file = fopen(name, "rb");
    size_t length = file == NULL ? 0 : fread(bytes, 1, room, file);

    if (file == NULL || ferror(file)) {
        perror(name);
        exit(2);
    }
    fclose(file);
    return length;
}

int main(int argc, char **argv)
{
    /* One byte more than the longest of each: a longer file is refused as it would be as a whole. */
    static uint8_t ticket[PLANNER_LONGEST_TICKET + 1], sheets[2][PLANNER_LONGEST_SHEET + 1];
    uint8_t counts[PLANNER_CHOOSE_COUNTS];

    if (argc != 4) {
        fprintf(stderr, "usage: choose_sheet TICKET FIRST SECOND\n");
        return 2;
    }
    size_t n = read_file(argv[1], ticket, sizeof ticket);
    size_t first = read_file(argv[2], sheets[0], sizeof sheets[0]);
    size_t second = read_file(argv[3], sheets[1], sizeof sheets[1]);
    size_t stop = planner_references(ticket, n);              /* the whole job */
    uint32_t number = planner_choose(ticket, n, stop, sheets[0], first, sheets[1], second, counts, sizeof counts);

    if (number != PLANNER_OK) {
        fprintf(stderr, "refused %u: %s\n", (unsigned)number, planner_why(number));
        return 1;
    }
    unsigned which = (unsigned)counts[0] << 8 | counts[1];    /* 0: the first sheet, 1: the second */
    size_t length = (size_t)counts[2] << 8 | counts[3];

    fprintf(stderr, "%s sheet, %zu bytes\n", which == 1 ? "second" : "first", length);
    if (fwrite(sheets[which], 1, length, stdout) != length || fflush(stdout) != 0) {
        perror("writing the sheet");
        return 2;
    }
    return 0;
}
