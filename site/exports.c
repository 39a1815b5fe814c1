// The export of the WebAssembly module, behind the kit's guard: a call after a trap traps at once.
typedef unsigned long long u64;
_Bool __rattle_enter(void);
void __rattle_leave(void);
void __rattle_trap(void);
unsigned bentzolu_run(u64 words, u64 words_length, u64 topology, u64 topology_length, u64 script, u64 script_length, u64 trace,
                      u64 trace_length, u64 output, u64 output_room, u64 faults, u64 faults_room, u64 lengths);

__attribute__((export_name("bentzolu_run"))) unsigned call(u64 words, u64 words_length, u64 topology, u64 topology_length,
                                                           u64 script, u64 script_length, u64 trace, u64 trace_length,
                                                           u64 output, u64 output_room, u64 faults, u64 faults_room,
                                                           u64 lengths) {
    if (__rattle_enter()) __rattle_trap();
    unsigned status = bentzolu_run(words, words_length, topology, topology_length, script, script_length, trace,
                                   trace_length, output, output_room, faults, faults_room, lengths);
    __rattle_leave();
    return status;
}
