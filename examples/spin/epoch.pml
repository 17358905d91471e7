/*
 * A program that takes and frees memory, and beside it a second process that begins an epoch and ends it, again and again. Asked is
 * whether each epoch that is open is closed at some time. Where the second process may be left waiting for ever, SPIN finds a cycle
 * in which it isn't (`pan -a`); where each process that can go on does at some time, it is (`pan -a -f`).
 */
c_decl {
\#include "heap.h"
}

c_state "unsigned char heap[HEAP_KEPT]" "Global"

bit ok = 1;
bit ready;
bit open;

ltl closed { [] (open -> <> !open) }

#define COMMAND(kind, first, second, number) \
    d_step { c_code { now.ok = heap_do(now.heap, kind, first, second, number); now.open = heap_is_open(now.heap); }; assert(ok) }

init {
    d_step { c_code { now.ok = heap_first(now.heap); }; assert(ok) };
    ready = 1
}

active proctype program() {
    ready;
    do
    :: COMMAND(KERNELSTINT_COMMAND_MALLOC, 1, 0, 2048)
    :: COMMAND(KERNELSTINT_COMMAND_FREE, 1, 0, 0)
    od
}

active proctype epochs() {
    ready;
    do
    :: COMMAND(KERNELSTINT_COMMAND_BEGIN, 0, 0, 0);
       COMMAND(KERNELSTINT_COMMAND_END, 0, 0, 0)
    od
}
