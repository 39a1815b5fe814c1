// Prints the plan of a ring, a walk over it, and what a script makes of a link that fails.
// Made and run by:  cc -I library -o example library/example.c site/out/libbentzolu.a && ./example
#include "bentzolu.h"

#include <stdio.h>
#include <stdlib.h>
#include <string.h>

static const char *const RING = "a b\nb c\nc d\nd a\n";
static const char *const SCRIPT = "inject a c\ntake a inbox\nact a\ndown b c\ninstall shortest a\nlearn 2\ninject a c\ndrain\n";

// Answers words over the two texts on standard output and standard error, with rooms as large as they need to be.
static uint32_t answered(const char *words, const char *topology, const char *script) {
    static uint8_t faults[4096];
    struct bentzolu_lengths lengths = {64, 0};
    uint8_t *output = NULL;
    uint32_t status;
    size_t room;
    do {
        room = lengths.output;
        output = realloc(output, room + 1);
        if (output == NULL) return 3;
        status = bentzolu_run((const uint8_t *)words, strlen(words), (const uint8_t *)topology, strlen(topology),
                              (const uint8_t *)script, strlen(script), (const uint8_t *)"", 0, output, room, faults,
                              sizeof faults, &lengths);
    } while (lengths.output > room);
    fwrite(output, 1, lengths.output, stdout);
    fwrite(faults, 1, lengths.faults < sizeof faults ? lengths.faults : sizeof faults, stderr);
    free(output);
    return status;
}

int main(void) {
    uint32_t status = answered("plan\ntopology\n", RING, "");
    if (status == 0) status = answered("walk\n--from\na\n--to\nc\ntopology\n", RING, "");
    if (status == 0) status = answered("sim\n--explain\ntopology\nscript\n", RING, SCRIPT);
    return (int)status;
}
