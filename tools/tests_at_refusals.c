/* A stand-in for a crate's tests in the self-test of tools/refusals. It has one test, LISTED, which is grows_again: it
 * takes a refused growth; gives_up_at_two: its fixture gives up; gives_up_always: so does all of it; or fails. */
#include <stdio.h>
#include <stdlib.h>
#include <string.h>

/* Asks for four growths, and once more for each that was refused. Returns how many of the latter were refused too. */
static int grows_again(void) {
    int lost = 0;
    for (int at = 0; at < 4; at++) {
        void *memory = malloc(100 + at);
        if (!memory && !malloc(100 + at)) lost++;
    }
    return lost;
}

static int gives_up(int fixture) {
    for (int at = 0; at < fixture; at++) {
        if (!malloc(100 + at)) {
            fputs("gave up: no memory for the fixture\n", stderr);
            return 0;
        }
    }
    return fixture < 4 ? grows_again() : 0;
}

static int fails(void) {
    for (int at = 0; at < 4; at++) {
        if (!malloc(100 + at)) return 1;
    }
    return 0;
}

int main(int words, char **word) {
    static char errors[256];
    setvbuf(stderr, errors, _IOLBF, sizeof errors);
    if (words == 2 && !strcmp(word[1], "--list")) return puts(LISTED ": test\ntests: 1") < 0;
    if (words != 2 || strcmp(word[1], LISTED)) return 2;
    if (!strcmp(LISTED, "grows_again")) return grows_again();
    if (!strcmp(LISTED, "gives_up_at_two")) return gives_up(2);
    if (!strcmp(LISTED, "gives_up_always")) return gives_up(4);
    return fails();
}
