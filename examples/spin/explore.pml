/*
 * What the commands of an alphabet can do to a heap of one page: SPIN chooses each next command, the proved library does it, and
 * safe reuse is asserted of every block that is handed out. How deep, `pan -m` says. ALPHABET is one of 1 to 8; 7 is 4 with blocks
 * of which two fill the heap, so that memory runs out, and 8 has a revoker's own steps in place of the sweep.
 */
#ifndef ALPHABET
#define ALPHABET 1
#endif
#if ALPHABET == 7
#define SIZE 2048
#else
#define SIZE 16
#endif

c_decl {
\#include "heap.h"
}

c_state "unsigned char heap[HEAP_KEPT]" "Global"

bit ok = 1;

#define COMMAND(kind, first, second, number) \
    d_step { c_code { now.ok = heap_do(now.heap, kind, first, second, number); }; assert(ok) }

active proctype program() {
    d_step { c_code { now.ok = heap_first(now.heap); }; assert(ok) };
    do
    :: COMMAND(KERNELSTINT_COMMAND_MALLOC, 1, 0, SIZE)
    :: COMMAND(KERNELSTINT_COMMAND_FREE, 1, 0, 0)
#if ALPHABET == 8
    :: COMMAND(KERNELSTINT_COMMAND_PAINT, 0, 0, 0)
    :: COMMAND(KERNELSTINT_COMMAND_VISIT, 0, 0, 0)
    :: COMMAND(KERNELSTINT_COMMAND_UNTAG_REGISTER, 1, 0, 0)
    :: COMMAND(KERNELSTINT_COMMAND_RELEASE, 0, 0, 0)
#else
    :: COMMAND(KERNELSTINT_COMMAND_SWEEP, 0, 0, 0)
#endif
#if ALPHABET == 2 || ALPHABET >= 4
    :: COMMAND(KERNELSTINT_COMMAND_COPY, 2, 1, 0)
#endif
#if ALPHABET >= 3
    :: COMMAND(KERNELSTINT_COMMAND_STORECAP, 1, 1, 0)
    :: COMMAND(KERNELSTINT_COMMAND_LOADCAP, 2, 1, 0)
#endif
#if ALPHABET >= 4
    :: COMMAND(KERNELSTINT_COMMAND_FREE, 2, 0, 0)
#endif
#if ALPHABET == 5 || ALPHABET == 6
    :: COMMAND(KERNELSTINT_COMMAND_BEGIN, 0, 0, 0)
    :: COMMAND(KERNELSTINT_COMMAND_END, 0, 0, 0)
#endif
#if ALPHABET == 6
    :: COMMAND(KERNELSTINT_COMMAND_MALLOC, 2, 0, 32)
    :: COMMAND(KERNELSTINT_COMMAND_STORECAP, 1, 2, 0)
    :: COMMAND(KERNELSTINT_COMMAND_STORECAP, 2, 1, 0)
    :: COMMAND(KERNELSTINT_COMMAND_LOADCAP, 1, 2, 0)
#endif
    od
}
