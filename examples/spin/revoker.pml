/*
 * A program, and a revoker that works while it runs. The program has freed a block (register 1) whose capability lies in registers and on
 * both pages, and stores and loads it on. Register 2 points into page 0, register 3 into page 1, by the same capability.
 *
 * -DREVOKER=1, as Cornucopia: it looks at the pages that are dirty, in any order, each made clean first; then, while the
 * program stands still, at the registers and at what is dirty again. -DREVOKER=2, as Cornucopia Reloaded: registers first, while the
 * program stands still; from then on a load from a page that wasn't seen looks at it before it loads. -DGRANULES: a page
 * granule by granule, with commands of the program between. -DWRONG=N, a revoker that is wrong:
 * 1 a page is made clean after it was looked at; 2 registers are taken first and never again; 3 the page is looked at after the load;
 * 4 the page of the capability's base is looked at, and not the one that is read; 5 a page into which nothing was stored is forgotten.
 * Asserted is that the release is done, and of Reloaded that no register is tagged with its base in a painted block.
 */
c_decl {
\#include "revoker.h"
}

c_state "unsigned char heap[HEAP_KEPT]" "Global"

#ifndef WRONG
#define WRONG 0
#endif

bit ok = 1;
bit ready;
bit open;
bit dirty[2];
bit seen[2];

#define COMMAND(kind, first, second, number) \
    d_step { c_code { now.ok = heap_step(now.heap, kind, first, second, number); }; assert(ok) }

/* Of Reloaded this holds all through an epoch. */
#if REVOKER == 2
#define REGISTERS_ARE_CLEAN c_code { now.ok = !now.open || revoker_has_registers(now.heap); }; assert(ok)
#define BARRIER(page) if :: open && !seen[page] -> c_code { revoker_visit(now.heap, page); }; seen[page] = 1 :: else fi
#else
#define REGISTERS_ARE_CLEAN skip
#define BARRIER(page) skip
#endif

/* A store, to this page. A tagged word makes it dirty. */
#define STORE(by, what, page) d_step { \
    c_code { now.ok = heap_step(now.heap, KERNELSTINT_COMMAND_STORECAP, by, what, 0); now.dirty[page] |= revoker_is_tagged(now.heap, what); }; assert(ok) }

/* A load, from this page. Both registers have their base on page 0. */
#if WRONG == 3
#define LOAD(to, by, page) d_step { \
    c_code { now.ok = heap_step(now.heap, KERNELSTINT_COMMAND_LOADCAP, to, by, 0); }; assert(ok); BARRIER(page); REGISTERS_ARE_CLEAN }
#elif WRONG == 4
#define LOAD(to, by, page) d_step { \
    BARRIER(0); c_code { now.ok = heap_step(now.heap, KERNELSTINT_COMMAND_LOADCAP, to, by, 0); }; assert(ok); REGISTERS_ARE_CLEAN }
#else
#define LOAD(to, by, page) d_step { \
    BARRIER(page); c_code { now.ok = heap_step(now.heap, KERNELSTINT_COMMAND_LOADCAP, to, by, 0); }; assert(ok); REGISTERS_ARE_CLEAN }
#endif

/* A page is looked at: at once, or its granules one by one, of which the others are never written. */
#ifdef GRANULES
#define LOOK(page) \
    if \
    :: page == 0 -> d_step { c_code { revoker_untag(now.heap, 0); } }; d_step { c_code { revoker_untag(now.heap, 1); } } \
    :: else -> d_step { c_code { revoker_untag(now.heap, 256); } }; d_step { c_code { revoker_untag(now.heap, 257); } } \
    fi
#else
#define LOOK(page) d_step { c_code { revoker_visit(now.heap, page); } }
#endif

init {
    d_step { c_code { now.ok = heap_first(now.heap); }; assert(ok) };
    COMMAND(KERNELSTINT_COMMAND_MALLOC, 1, 0, 16);
    COMMAND(KERNELSTINT_COMMAND_MALLOC, 2, 0, 4096);
    COMMAND(KERNELSTINT_COMMAND_SETADDR, 3, 2, 0x40001000);
    COMMAND(KERNELSTINT_COMMAND_STORECAP, 2, 1, 0);
    COMMAND(KERNELSTINT_COMMAND_STORECAP, 3, 1, 0);
    COMMAND(KERNELSTINT_COMMAND_FREE, 1, 0, 0);
    ready = 1
}

active proctype program() {
    ready;
    do
    :: STORE(2, 1, 0)
    :: STORE(3, 1, 1)
    :: STORE(2, 4, 0)
    :: STORE(3, 4, 1)
    :: LOAD(4, 2, 0)
    :: LOAD(4, 3, 1)
    :: COMMAND(KERNELSTINT_COMMAND_COPY, 4, 0, 0)
    od
}

active proctype revoker() {
    ready;
#if REVOKER == 2
    d_step { c_code { revoker_paint(now.heap); revoker_untag_registers(now.heap); }; open = 1; dirty[0] = 0; dirty[1] = 0 };
    do
    :: !seen[0] -> LOOK(0); seen[0] = 1
#if WRONG == 5
    :: !seen[1] && dirty[1] -> LOOK(1); seen[1] = 1
    :: seen[0] && (seen[1] || !dirty[1]) -> break
#else
    :: !seen[1] -> LOOK(1); seen[1] = 1
    :: seen[0] && seen[1] -> break
#endif
    od;
    skip;
    d_step { c_code { now.ok = revoker_release(now.heap); }; open = 0; assert(ok) }
#else
    d_step { c_code { revoker_paint(now.heap); }; open = 1; dirty[0] = 1; dirty[1] = 1 };
#if WRONG == 2
    d_step { c_code { revoker_untag_registers(now.heap); } };
#endif
    do
#if WRONG == 1
    :: dirty[0] -> LOOK(0); dirty[0] = 0
    :: dirty[1] -> LOOK(1); dirty[1] = 0
#else
    :: d_step { dirty[0] -> dirty[0] = 0 }; LOOK(0)
    :: d_step { dirty[1] -> dirty[1] = 0 }; LOOK(1)
#endif
    :: break
    od;
    skip; /* the program stands still from here on */
    d_step {
#if WRONG != 2
        c_code { revoker_untag_registers(now.heap); };
#endif
        if :: dirty[0] -> c_code { revoker_visit(now.heap, 0); } :: else fi;
        if :: dirty[1] -> c_code { revoker_visit(now.heap, 1); } :: else fi;
        c_code { now.ok = revoker_release(now.heap); };
        open = 0;
        assert(ok)
    }
#endif
}
