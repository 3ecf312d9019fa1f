/* vectors.c - the vectors against the reference.
 *
 * usage: vectors FILE
 * Each line's answer is written out again and compared as text; ../README.md has the form. */
#include "answer.h"

#include <stdio.h>
#include <string.h>

int main(int argc, char **argv)
{
    static char line[ANSWER_LINE], have[ANSWER_LINE];
    unsigned at = 0, asked = 0, wrong = 0;
    FILE *file = argc == 2 ? fopen(argv[1], "r") : NULL;

    if (file == NULL) {
        fprintf(stderr, "usage: vectors FILE\n");
        return 2;
    }
    while (fgets(line, sizeof line, file) != NULL) {
        char *want = strstr(line, " = ");

        at++;
        line[strcspn(line, "\r\n")] = '\0';
        if (line[0] == '#' || line[0] == '\0')
            continue;
        asked++;
        if (want != NULL)
            *want = '\0';
        if (want == NULL || !answer(line, have)) {
            printf("line %u: not understood\n", at);
            wrong++;
        } else if (strcmp(have, want + 3) != 0) {
            printf("line %u disagrees\n  vector    %s\n  reference %s\n", at, want + 3, have);
            wrong++;
        }
    }
    fclose(file);
    printf("%u vectors, %u disagree\n", asked, wrong);
    return wrong != 0 || asked == 0;
}
