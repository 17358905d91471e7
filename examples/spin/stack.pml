/*
 * A stack in the heap that two processes share without a lock: each takes the first node, reads what follows it, makes that the
 * first, and frees the node. Register 1 holds the capability of the head's granule, in which the first node's capability lies; a
 * node's granule holds that of the next. SPIN finds the order in which one process frees the node that the other is about to
 * read: `pan -r` prints it as a trace.
 */
c_decl {
\#include "heap.h"
}

c_state "unsigned char heap[HEAP_KEPT]" "Global"

bit ok = 1;
bit ready;

#define COMMAND(kind, first, second, number) \
    d_step { c_code { now.ok = heap_step(now.heap, kind, first, second, number); }; assert(ok) }

/* A load by way of a register, asserted to be of a node that isn't freed. */
#define READ(to, by) \
    d_step { c_code { now.ok = heap_read(now.heap, to, by); }; assert(ok) }

/* Puts a node, made in register 2, before the others. */
#define PUSH() \
    COMMAND(KERNELSTINT_COMMAND_MALLOC, 2, 0, 16); \
    COMMAND(KERNELSTINT_COMMAND_LOADCAP, 3, 1, 0); \
    COMMAND(KERNELSTINT_COMMAND_STORECAP, 2, 3, 0); \
    COMMAND(KERNELSTINT_COMMAND_STORECAP, 1, 2, 0)

/* Takes the first node: its capability goes to register `node`, that of the next to register `next`. */
#define POP(node, next) \
    COMMAND(KERNELSTINT_COMMAND_LOADCAP, node, 1, 0); \
    READ(next, node); \
    COMMAND(KERNELSTINT_COMMAND_STORECAP, 1, next, 0); \
    COMMAND(KERNELSTINT_COMMAND_FREE, node, 0, 0)

init {
    d_step { c_code { now.ok = heap_first(now.heap); }; assert(ok) };
    COMMAND(KERNELSTINT_COMMAND_MALLOC, 1, 0, 16);
    PUSH();
    PUSH();
    PUSH();
    /* The capability in register 2 is forgotten, so only the stack has the nodes. */
    COMMAND(KERNELSTINT_COMMAND_COPY, 2, 0, 0);
    ready = 1
}

active proctype first() {
    ready;
    POP(4, 5)
}

active proctype second() {
    ready;
    POP(6, 7)
}
