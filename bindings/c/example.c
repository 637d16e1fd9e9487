/* Compares two terms and prints the verdict, and on "different" the formula's lines.
 *
 *     (cd crates/embed && rt lib)
 *     cc -o example bindings/c/example.c crates/embed/out/libembed.a
 *     ./example 'a.(b+c)+a.b' 'a.(b+c)'
 */
#include <stdio.h>
#include <string.h>

#include "nabrotzu.h"

enum { STATES = 256, LINES = 4 * STATES - 3 };

static void print_action(unsigned action)
{
    static const char characters[] = "abcdefghijklmnopqrstuvwxyzABCDEFGHIJKLMNOPQRSTUVWXYZ0123456789";
    if (action < 62)
        printf("%c", characters[action]);
    else
        printf("#%u", action);
}

int main(int argc, char **argv)
{
    static uint16_t lines[3 * LINES], classes[STATES];
    const char *left = argc == 3 ? argv[1] : "a.(b+c)+a.b";
    const char *right = argc == 3 ? argv[2] : "a.(b+c)";
    nabrotzu_comparison answer;

    nabrotzu_compare(NABROTZU_TERM, (const uint8_t *)left, strlen(left),
                     NABROTZU_TERM, (const uint8_t *)right, strlen(right),
                     lines, sizeof lines / sizeof *lines,
                     classes, sizeof classes / sizeof *classes, &answer);
    if (answer.number != 0) {
        if (answer.side != 0)
            printf("%s ", answer.side == 1 ? "left" : "right");
        printf("refused %u", answer.number);
        if (answer.placed)
            printf(" at %llu", (unsigned long long)answer.place);
        printf("\n");
        return 1;
    }
    printf("%s, %u classes, %u rounds\n", answer.same ? "same" : "different", answer.classes, answer.rounds);
    if (answer.same)
        return 0;
    for (unsigned i = 0; i < answer.lines; i++) {
        const uint16_t *line = lines + 3 * i;
        printf("%u: %c", i, line[0]);
        switch (line[0]) {
        case 'N':
            printf(" %u", line[1]);
            break;
        case 'A':
            printf(" %u %u", line[1], line[2]);
            break;
        case 'D':
            printf(" ");
            print_action(line[1]);
            printf(" %u", line[2]);
            break;
        }
        printf("\n");
    }
    printf("line %u holds at the left start and fails at the right one, depth %u\n", answer.line, answer.depth);
    return 0;
}
