/* What the program `bentzolu` answers, as a call: see bentzolu(3). */
#ifndef BENTZOLU_H
#define BENTZOLU_H

#include <stddef.h>
#include <stdint.h>

#ifdef __cplusplus
extern "C" {
#endif

/* How many bytes there are of the output and of the faults, whether there was room for them or not. */
struct bentzolu_lengths {
    size_t output, faults;
};

/* Does what words ask for over texts in memory, and answers the status of `bentzolu`: 0 done; 1 an input is refused, or there
   is a finding; 2 the words are refused; 3 out of memory, or the words are those of `live`.

   Each word ends in a line feed: "plan\n--kind\ntree\ntopology\n". The second text is the script, the new topology of `diff`, or
   the order of nodes that the words name. What there is room for of the output and of the faults is put into the rooms, and `lengths` has the
   lengths of both. Where one is longer than its room, call again with a larger one.

   No pointer may be null, not even one of length 0; the rooms and `lengths` overlap nothing else. */
uint32_t bentzolu_run(const uint8_t *words, size_t words_length, const uint8_t *topology, size_t topology_length,
                      const uint8_t *script, size_t script_length, const uint8_t *trace, size_t trace_length, uint8_t *output,
                      size_t output_room, uint8_t *faults, size_t faults_room, struct bentzolu_lengths *lengths);

#ifdef __cplusplus
}
#endif
#endif
