/*
 * Kernelstint for C11 and C++: capability words of 64-bit CHERI-RISC-V (CHERI Concentrate), and a machine whose heap is safe
 * in time, as calls on the bytes of its states.
 *
 * What is proved: each function below answers as its comment says, for every argument that C can pass by value, and
 * returns. The functions are the exports of the crate kernelstint of the repository, whose contracts say it in full.
 * What is trusted: that this header declares them as they are, which tests try; the compilers; bindings/c/pointers.c, which
 * tests pointers before it calls an export; and, for the functions of the machine, which take memory, the ten lines of
 * bindings/c/allocator.c and the program's malloc, realloc and free. The library as C (kernelstint.c) is made of the same proved
 * sources, and more is trusted of it: docs/C_LIBRARY.md says what, and how it takes memory.
 *
 * No function waits or prints, and none but those of kernelstint_machine keeps anything. Each may be called by any thread at
 * any time, those on one machine by one thread at a time.
 *
 * A code is 0 (KERNELSTINT_CODE_DONE) where a function did what it was asked, and else says why it did not. Where several would
 * be true, it is the first of these: KERNELSTINT_CODE_NULL, KERNELSTINT_CODE_OVERLAP, KERNELSTINT_CODE_NO_MACHINE,
 * KERNELSTINT_CODE_IS_OPEN, KERNELSTINT_CODE_SHORT_TEXT of kernelstint_step_line, those of a number, a record or a line (in the
 * order of the function's comment), KERNELSTINT_CODE_BAD_ROOM, KERNELSTINT_CODE_NO_MEMORY, KERNELSTINT_CODE_BAD_STATE or
 * KERNELSTINT_CODE_BAD_TRACE, and then what only a state or a trace can be asked: KERNELSTINT_CODE_BAD_ADDRESS,
 * KERNELSTINT_CODE_DIFFERS and KERNELSTINT_CODE_SHORT_TEXT.
 */
#ifndef KERNELSTINT_H
#define KERNELSTINT_H

#include <stdbool.h>
#include <stddef.h>
#include <stdint.h>

#ifdef __cplusplus
extern "C" {
#endif

/* ---- The version ---- */

#define KERNELSTINT_VERSION_MAJOR 0
#define KERNELSTINT_VERSION_MINOR 1
#define KERNELSTINT_VERSION_PATCH 0

/* The version as one number, 8 bits for each part. */
#define KERNELSTINT_VERSION \
    (KERNELSTINT_VERSION_MAJOR * 0x10000u + KERNELSTINT_VERSION_MINOR * 0x100u + KERNELSTINT_VERSION_PATCH)

/*
 * The version of the library that is linked or loaded: KERNELSTINT_VERSION of its own header. A program that loads a
 * shared library compares the two. While the major version is 0, another minor version may have other functions.
 */
uint32_t kernelstint_version(void);

/* ---- Codes ---- */

#define KERNELSTINT_CODE_DONE 0u
/* The bytes are not 16. */
#define KERNELSTINT_CODE_BAD_LENGTH 1u
/* A field is past its width. */
#define KERNELSTINT_CODE_BAD_FIELDS 2u
/* The bounds end before they begin, or past 2^64. */
#define KERNELSTINT_CODE_BAD_BOUNDS 3u
/* A pointer is null. */
#define KERNELSTINT_CODE_NULL 4u
/* The room for a state is not as long as that state. */
#define KERNELSTINT_CODE_BAD_ROOM 5u
/* The bytes are no state's. */
#define KERNELSTINT_CODE_BAD_STATE 6u
/* No heap has so many pages: 1 to 1,024. */
#define KERNELSTINT_CODE_BAD_SIZE 7u
/* The base is no multiple of 4,096, or the end of the heap is past 2^64. */
#define KERNELSTINT_CODE_BAD_BASE 8u
/* A register of 32 or more. */
#define KERNELSTINT_CODE_BAD_REGISTER 9u
/* No granule starts at the address. */
#define KERNELSTINT_CODE_BAD_ADDRESS 10u
/* The room for a text is too short. */
#define KERNELSTINT_CODE_SHORT_TEXT 11u
/* The line has no word, or is a comment. */
#define KERNELSTINT_CODE_PASSED_OVER 12u
/* The line is no command. */
#define KERNELSTINT_CODE_BAD_LINE 13u
/* malloc answered null. */
#define KERNELSTINT_CODE_NO_MEMORY 14u
/* No kind of command has this number, a register is 32 or more, a mask has more than 16 bits, or a page more than 32. */
#define KERNELSTINT_CODE_BAD_COMMAND 15u
/* No kind of a command's reply and no trap of one has this number, or a tag that is shown is above 1. */
#define KERNELSTINT_CODE_BAD_REPLY 16u
/* The answer is not allowed. */
#define KERNELSTINT_CODE_DIFFERS 17u
/* The text is no trace. */
#define KERNELSTINT_CODE_BAD_TRACE 18u
/* Two places lie over one another, of which one is written. */
#define KERNELSTINT_CODE_OVERLAP 19u
/* No machine is held there. */
#define KERNELSTINT_CODE_NO_MACHINE 20u
/* A machine is held there already. */
#define KERNELSTINT_CODE_IS_OPEN 21u

/* ---- Permissions, each by its bit ---- */

/* May be stored by way of any capability that may store capabilities. */
#define KERNELSTINT_PERM_GLOBAL 0x1u
/* May load data. */
#define KERNELSTINT_PERM_LOAD 0x4u
/* May store data. */
#define KERNELSTINT_PERM_STORE 0x8u
/* May load capabilities with their tags. */
#define KERNELSTINT_PERM_LOAD_CAPABILITY 0x10u
/* May store capabilities with their tags. */
#define KERNELSTINT_PERM_STORE_CAPABILITY 0x20u

/* ---- What is passed ---- */

/*
 * The 128 bits of a capability word, without its tag, in two halves: the order in which 16 bytes of memory hold them,
 * each half little endian. The metadata is in memory form, in which the null capability is all zeros.
 */
typedef struct kernelstint_word {
    uint64_t address;  /* the lower half: the address, or cursor */
    uint64_t metadata; /* the upper half */
} kernelstint_word;

/* The fields of a word, in register form. */
typedef struct kernelstint_fields {
    uint64_t address;
    uint32_t otype;   /* the object type, 18 bits: all ones where the word is not sealed */
    uint16_t perms;   /* permissions, 16 bits: KERNELSTINT_PERM_GLOBAL and others */
    uint16_t top12;   /* the top field, 12 bits */
    uint16_t base14;  /* the base field, 14 bits */
    uint8_t reserved; /* 2 bits */
    uint8_t flag;     /* the capability mode flag, 1 or 0 */
    uint8_t internal; /* 1 where the low 3 bits of top12 and of base14 hold the exponent, else 0 */
} kernelstint_fields;

/* The bytes from `base` on, before the top, which is top + 2^64 * top_high. */
typedef struct kernelstint_bounds {
    uint64_t base;
    uint64_t top;      /* the top's lower 64 bits */
    uint64_t top_high; /* what is above: the top 2^64 is 0 and 1 */
} kernelstint_bounds;

/* A length in bytes: length + 2^64 * length_high. */
typedef struct kernelstint_length {
    uint64_t length;      /* the lower 64 bits */
    uint64_t length_high; /* what is above: the length 2^64 is 0 and 1 */
} kernelstint_length;

/* By how many windows base and top lie apart from what the address's upper bits say: -1, 0 or 1 each. */
typedef struct kernelstint_corrections {
    int8_t base;
    int8_t top;
} kernelstint_corrections;

/* A word with the code 0, or the null word with a code that says why there is none. */
typedef struct kernelstint_coded_word {
    kernelstint_word word;
    uint32_t code;
} kernelstint_coded_word;

/* The same of a word that was made for bounds, and whether its bounds are just these. */
typedef struct kernelstint_narrowed_word {
    kernelstint_word word;
    uint32_t code;
    bool exact; /* false where there is a code */
} kernelstint_narrowed_word;

/* ---- Words, bytes and fields ---- */

/* The null capability: 0 and 0. */
kernelstint_word kernelstint_null_word(void);

/*
 * The word that `length` bytes hold, as memory has them. KERNELSTINT_CODE_BAD_LENGTH where length is not 16,
 * KERNELSTINT_CODE_NULL where `bytes` is null. Condition: so many bytes can be read there, which nothing writes meanwhile.
 */
kernelstint_coded_word kernelstint_word_from_bytes(const uint8_t *bytes, size_t length);

/*
 * Writes the 16 bytes of a word, and answers 0. KERNELSTINT_CODE_BAD_LENGTH, and nothing is written, where length is not 16;
 * KERNELSTINT_CODE_NULL where `bytes` is null. Condition: so many bytes can be read and written there, which nothing else reads
 * or writes meanwhile.
 */
uint32_t kernelstint_word_to_bytes(kernelstint_word word, uint8_t *bytes, size_t length);

/* The fields of a word. They are within their widths, and kernelstint_word_of_fields makes the same word of them. */
kernelstint_fields kernelstint_fields_of(kernelstint_word word);

/* The one word that has these fields. KERNELSTINT_CODE_BAD_FIELDS where a field is past its width, or a flag above 1. */
kernelstint_coded_word kernelstint_word_of_fields(kernelstint_fields fields);

/* ---- What a word says, whatever its 128 bits are ---- */

/* The exponent: by how many bits the mantissas of base and top are shifted, 0 to 52. */
uint8_t kernelstint_exponent_of(kernelstint_word word);

/*
 * The bounds that the word decodes to. Of a word that was made for bounds they begin at or before their end, which is
 * 2^64 at most; of other bits the top may be any number below 2^65, also one below the base. top_high is 1 or 0.
 */
kernelstint_bounds kernelstint_bounds_of(kernelstint_word word);

/* The corrections of the address's upper bits by which those bounds are decoded. */
kernelstint_corrections kernelstint_corrections_of(kernelstint_word word);

/* Whether the word with this address has the bounds that it has with its own. */
bool kernelstint_representable(kernelstint_word word, uint64_t address);

/* Whether the word has this permission; of several bits, any of them. */
bool kernelstint_is_allowed(kernelstint_word word, uint16_t permission);

/* ---- Words that are made ---- */

/*
 * The word with these bounds, and its address at their base; all else stays. Bounds that no word can hold as they are
 * become the least ones around them that the encoding has for their exponent, and then `exact` is false. Bounds shorter
 * than 4,096 bytes are always exact, and others where base and top are multiples of 2^(exponent + 3).
 * KERNELSTINT_CODE_BAD_BOUNDS where the top is below the base or above 2^64. It does not ask whether the bounds lie within
 * those of the word: compare first where that matters.
 */
kernelstint_narrowed_word kernelstint_with_bounds(kernelstint_word word, kernelstint_bounds bounds);

/*
 * The capability of a block of memory with these bounds: not sealed, its address their base, and with GLOBAL, LOAD,
 * STORE, LOAD_CAPABILITY and STORE_CAPABILITY. Bounds are rounded as by kernelstint_with_bounds.
 * KERNELSTINT_CODE_BAD_BOUNDS where the top is below the base or above 2^64.
 */
kernelstint_coded_word kernelstint_block_capability(kernelstint_bounds bounds);

/* The word with this address; the metadata stays. Its bounds stay where kernelstint_representable says so. */
kernelstint_word kernelstint_set_address(kernelstint_word word, uint64_t address);

/* The word with those of its permissions that the mask has too; all else stays. */
kernelstint_word kernelstint_and_perms(kernelstint_word word, uint16_t mask);

/* ---- Lengths that a word can hold ---- */

/* The least length from `length` on that a word can hold from address 0: `length` itself below 4,096, 2^64 at most. */
kernelstint_length kernelstint_representable_length(uint64_t length);

/*
 * The mask of the addresses from which a word can hold that length: those for which (address & ~mask) is 0. All ones
 * below 4,096.
 */
uint64_t kernelstint_alignment_mask(uint64_t length);

/* ---- The machine: states as bytes ---- */

/*
 * A state is plain bytes: a heap of 1 to 1,024 pages of 4,096 bytes, its blocks, 32 registers and its dirty pages. It holds no
 * pointer, is written by these functions alone, and two states are the same exactly where their bytes are. A heap of so many
 * pages has states of one length, KERNELSTINT_STATE_LENGTH(pages).
 *
 *     at                          bytes  what
 *     0                           8      the base of the heap, as all numbers here little endian
 *     8                           4      how many pages it has
 *     12                          1      1 where an epoch is open, else 0
 *     KERNELSTINT_GRANULE_AT(i)   21     granule i, at base + 16 * i: its 16 bytes, its tag (0 or 1), and a number of 4 bytes, which
 *                                        is 0 where no block starts there, else the block's length plus 1 (live), 2 (freed, and
 *                                        not yet painted) or 3 (freed and painted)
 *     KERNELSTINT_REGISTER_AT     17     register r: its 16 bytes, and its tag (0 or 1); register 0 is null
 *     KERNELSTINT_PAGE_AT         1      page p: 1 where it is dirty, else 0
 *
 * A heap of n pages has the granules 0 to 256 * n - 1. These functions take any bytes, and answer KERNELSTINT_CODE_BAD_STATE
 * for those that are no state's. Bytes of the length and form above are a state's where all of this holds, and only there:
 *
 * - there are 1 to 1,024 pages, the base is a multiple of 4,096, and the heap ends at 2^64 at most
 * - register 0 is zero and untagged
 * - each block is one granule or more, ends within the heap, and has bounds that a capability can hold as they are; no two
 *   blocks, live or freed, share a byte; and none is painted unless an epoch is open
 * - the bounds of each tagged word, in a register or a granule, have a byte or more, and lie in one block, live or freed: so no
 *   tagged word points to free bytes
 * - each tagged granule whose word has its base in a painted block stands in a dirty page
 *
 * Conditions, where a function is given pointers: at each can be read, or written where the function writes, as many bytes as
 * the length beside it says, or one struct, and nothing else writes or reads there meanwhile. A null pointer is answered by
 * KERNELSTINT_CODE_NULL, also beside a length of 0, and places that lie over one another, of which one is written, by
 * KERNELSTINT_CODE_OVERLAP; a place of no bytes lies over none. States and texts may begin at any address: no alignment is
 * asked. Where the code is not 0, nothing is written but what the function's comment names. Each function takes memory from
 * malloc while it runs, and answers KERNELSTINT_CODE_NO_MEMORY where it gets none; a step on a heap of one page makes 12 to 14
 * allocations. No function takes more than 20 KB of the stack. The library as C keeps what it takes for later calls, 79 MiB at most.
 *
 * Each function that is given a state reads and tests all of it, kernelstint_counts, kernelstint_register and
 * kernelstint_granule too, which take more than half as long as a step: what is asked often is read where it stands.
 */
#define KERNELSTINT_GRANULES(pages) ((size_t)256 * (pages))
#define KERNELSTINT_GRANULE_AT(i) ((size_t)13 + (size_t)21 * (i))
#define KERNELSTINT_REGISTER_AT(pages, r) (KERNELSTINT_GRANULE_AT(KERNELSTINT_GRANULES(pages)) + (size_t)17 * (r))
#define KERNELSTINT_PAGE_AT(pages, p) (KERNELSTINT_REGISTER_AT(pages, 32) + (p))
/* kernelstint_state_length of 1 to 1,024 pages, for the size of an array. */
#define KERNELSTINT_STATE_LENGTH(pages) KERNELSTINT_PAGE_AT(pages, pages)
/* Where in a granule or a register its tag is, and in a granule the number of the block that starts there. */
#define KERNELSTINT_TAG_IN 16
#define KERNELSTINT_BLOCK_IN 17

/* The kinds of commands, with what each uses. */
#define KERNELSTINT_COMMAND_MALLOC 0 /* malloc first, number: a block of `number` bytes, its capability to register `first` */
#define KERNELSTINT_COMMAND_FREE 1 /* free first */
#define KERNELSTINT_COMMAND_COPY 2 /* copy first, second: register `second` to register `first` */
#define KERNELSTINT_COMMAND_SETADDR 3 /* setaddr first, second, number: an address */
#define KERNELSTINT_COMMAND_NARROW 4 /* narrow first, second, number: a length */
#define KERNELSTINT_COMMAND_ANDPERM 5 /* andperm first, second, number: a mask of 16 bits */
#define KERNELSTINT_COMMAND_STORECAP 6 /* storecap first, second: register `second` to where `first` points */
#define KERNELSTINT_COMMAND_LOADCAP 7 /* loadcap first, second: what lies where `second` points to register `first` */
#define KERNELSTINT_COMMAND_WRITE 8 /* write first: the 16 bytes of low and high to where `first` points */
#define KERNELSTINT_COMMAND_SHOW 9 /* show first */
#define KERNELSTINT_COMMAND_SWEEP 10 /* sweep */
#define KERNELSTINT_COMMAND_BEGIN 11 /* begin */
#define KERNELSTINT_COMMAND_END 12 /* end */
/* The kinds of a revoker's own steps, which kernelstint_step and kernelstint_machine_step make beside commands. */
#define KERNELSTINT_COMMAND_PAINT 13 /* paint: an epoch is open, and the blocks that waited are painted */
#define KERNELSTINT_COMMAND_VISIT 14 /* visit number: a page, from 0, loses the tags of words whose base lies in a painted block */
#define KERNELSTINT_COMMAND_UNTAG 15 /* untag number: the same of the granule at this address */
#define KERNELSTINT_COMMAND_UNTAG_REGISTER 16 /* untag first: the same of a register */
#define KERNELSTINT_COMMAND_RELEASE 17 /* release: the epoch is over, and the painted blocks are free */

/* A command. The registers stand in the order of a trace's line; what a kind does not use is not looked at. */
typedef struct kernelstint_command {
    uint8_t kind;
    uint8_t first;   /* a register */
    uint8_t second;  /* a register */
    uint64_t number; /* a size, an address, a length, a mask or a page */
    uint64_t low;    /* the first eight bytes of a write, little endian */
    uint64_t high;   /* the last eight */
} kernelstint_command;

/* The kinds of replies, with what each tells. */
#define KERNELSTINT_REPLY_BLOCK 0 /* a block: base, top */
#define KERNELSTINT_REPLY_BLOCK_AFTER 1 /* the same after a sweep: base, top, cleared */
#define KERNELSTINT_REPLY_NO_SPACE 2 /* no space */
#define KERNELSTINT_REPLY_NO_SPACE_AFTER 3 /* no space after a sweep: cleared */
#define KERNELSTINT_REPLY_HELD 4 /* a block is held: bytes, how many went into quarantine by this free */
#define KERNELSTINT_REPLY_DONE 5 /* done */
#define KERNELSTINT_REPLY_CLEARED 6 /* done, and the tag was cleared, since this address would change the bounds */
#define KERNELSTINT_REPLY_SWEPT 7 /* a sweep, or the end of an epoch: cleared, and bytes, how many were released by it */
#define KERNELSTINT_REPLY_BEGUN 8 /* an epoch is open, or a page, a granule or a register was looked at: cleared */
#define KERNELSTINT_REPLY_SHOWN 9 /* a register: base, top, address, otype, perms, tag, exponent */
#define KERNELSTINT_REPLY_TRAP 10 /* a trap: trap */
#define KERNELSTINT_REPLY_RELEASED 11 /* a release: bytes, how many are free again */

/* The traps. */
#define KERNELSTINT_TRAP_TAG 0
#define KERNELSTINT_TRAP_PERM 1
#define KERNELSTINT_TRAP_BOUNDS 2
#define KERNELSTINT_TRAP_ALIGN 3
#define KERNELSTINT_TRAP_EMPTY 4
#define KERNELSTINT_TRAP_INEXACT 5
#define KERNELSTINT_TRAP_FREED 6
#define KERNELSTINT_TRAP_NOT_BLOCK 7
#define KERNELSTINT_TRAP_OPEN 8
#define KERNELSTINT_TRAP_NOT_OPEN 9
#define KERNELSTINT_TRAP_LEFT 10 /* of a release: a tagged word has its base in a painted block */

/* A reply; what its kind does not tell is 0. */
typedef struct kernelstint_reply {
    uint8_t kind;
    uint8_t trap;
    uint8_t tag; /* 1 or 0 */
    uint8_t exponent;
    uint16_t perms;
    uint32_t cleared; /* how many tags the sweep, or the pass of an epoch, cleared */
    uint32_t otype;
    uint64_t base;
    uint64_t top;      /* the top's lower 64 bits */
    uint64_t top_high; /* what is above: the top is top + 2^64 * top_high */
    uint64_t address;
    uint64_t bytes; /* how many this free put into quarantine, or this pass released */
} kernelstint_reply;

/* Why an answer is not allowed, with what each tells. */
#define KERNELSTINT_WHY_MUST_BE 0 /* the answer must be `reply` */
#define KERNELSTINT_WHY_NOT_OF_MALLOC 1 /* no malloc is answered so */
#define KERNELSTINT_WHY_TOO_SHORT 2 /* the block is shorter than asked */
#define KERNELSTINT_WHY_MAY_NOT_SWEEP 3 /* no sweep may come first: an epoch is open, or no block waits */
#define KERNELSTINT_WHY_TAKES 4 /* the sweep of the malloc takes `count` tags */
#define KERNELSTINT_WHY_REFUSED 5 /* the block's place is refused, for the reason `claim` */

/* Why a block's place is refused: for the last two, with the bounds of the block that is in the way. */
#define KERNELSTINT_CLAIM_UNEVEN 1
#define KERNELSTINT_CLAIM_EMPTY 2
#define KERNELSTINT_CLAIM_OUTSIDE 3
#define KERNELSTINT_CLAIM_INEXACT 4
#define KERNELSTINT_CLAIM_OVER_LIVE 5
#define KERNELSTINT_CLAIM_OVER_HELD 6

typedef struct kernelstint_why {
    uint8_t kind;
    uint8_t claim;
    uint32_t count;
    uint64_t base; /* the block in the way */
    uint64_t top;
    uint64_t top_high;
    kernelstint_reply reply;
} kernelstint_why;

/* How many bytes lie in live blocks, in freed ones that are held, and in none; and 1 where an epoch is open, else 0. */
typedef struct kernelstint_counts_of {
    uint64_t live;
    uint64_t held;
    uint64_t free;
    uint8_t is_open;
} kernelstint_counts_of;

/* 16 bytes with a tag, as register and granule tell them: the numbers of the first eight and the last eight. */
typedef struct kernelstint_tagged_word {
    uint64_t low;
    uint64_t high;
    uint8_t tag;
} kernelstint_tagged_word;

/* How many bytes a state of so many pages has: 5,377 a page and 557. 0 where no heap has so many pages. */
size_t kernelstint_state_length(uint32_t pages);

/*
 * Writes the first state of a heap of so many pages at `base`: zero, untagged, without a block. KERNELSTINT_CODE_BAD_SIZE,
 * KERNELSTINT_CODE_BAD_BASE or KERNELSTINT_CODE_BAD_ROOM where it can't.
 */
uint32_t kernelstint_first(uint64_t base, uint32_t pages, uint8_t *out, size_t out_length);

/*
 * Does a command in a state, or makes a revoker's step, and writes the state that it leaves to `out`, which is as long, and the
 * reply. A trap is a reply.
 * KERNELSTINT_CODE_BAD_COMMAND, KERNELSTINT_CODE_BAD_ROOM or KERNELSTINT_CODE_BAD_STATE.
 */
uint32_t kernelstint_step(const uint8_t *state, size_t length, kernelstint_command command, uint8_t *out, size_t out_length,
                          kernelstint_reply *reply);

/*
 * Judges what an allocator answered to a command, which may place blocks as it likes. Where that is allowed, the state that it
 * leaves is written to `out`, which is as long as the state; else the answer is KERNELSTINT_CODE_DIFFERS, and the reason is
 * written to `why` alone. KERNELSTINT_CODE_BAD_COMMAND, also for a revoker's step, KERNELSTINT_CODE_BAD_REPLY, KERNELSTINT_CODE_BAD_ROOM or
 * KERNELSTINT_CODE_BAD_STATE.
 */
uint32_t kernelstint_follow(const uint8_t *state, size_t length, kernelstint_command command, kernelstint_reply answer,
                            uint8_t *out, size_t out_length, kernelstint_why *why);

/* The most bytes that the text of a reply has, for which kernelstint_step_line wants room. */
#define KERNELSTINT_LONGEST_REPLY 200

/*
 * Does the command of a line of a trace, without its line feed, as kernelstint_step does; writes the text of the reply, as a
 * report has it, without an end, where `text` begins, and its length to `count`. KERNELSTINT_CODE_SHORT_TEXT where text_length
 * is below KERNELSTINT_LONGEST_REPLY; KERNELSTINT_CODE_PASSED_OVER, KERNELSTINT_CODE_BAD_LINE, KERNELSTINT_CODE_BAD_ROOM or
 * KERNELSTINT_CODE_BAD_STATE.
 */
uint32_t kernelstint_step_line(const uint8_t *state, size_t length, const uint8_t *line, size_t line_length, uint8_t *out,
                               size_t out_length, uint8_t *text, size_t text_length, size_t *count);

/* Writes the counts of a state. KERNELSTINT_CODE_BAD_STATE. */
uint32_t kernelstint_counts(const uint8_t *state, size_t length, kernelstint_counts_of *counts);

/* Writes what register `number` of a state holds. KERNELSTINT_CODE_BAD_REGISTER or KERNELSTINT_CODE_BAD_STATE. */
uint32_t kernelstint_register(const uint8_t *state, size_t length, uint8_t number, kernelstint_tagged_word *word);

/*
 * Writes what the granule of a state holds that starts at this address. KERNELSTINT_CODE_BAD_STATE or, of a state, which says
 * where its granules start, KERNELSTINT_CODE_BAD_ADDRESS.
 */
uint32_t kernelstint_granule(const uint8_t *state, size_t length, uint64_t address, kernelstint_tagged_word *word);

/* ---- Whole traces ---- */

/*
 * Runs the trace that a text is, and writes its report where `out` begins and the report's length to `count`.
 * KERNELSTINT_CODE_SHORT_TEXT where out_length is below that length, which alone is written. KERNELSTINT_CODE_BAD_TRACE.
 */
uint32_t kernelstint_run(const uint8_t *trace, size_t length, uint8_t *out, size_t out_length, size_t *count);

/* The same of the states of a trace, as the JSON that heap_states prints. */
uint32_t kernelstint_states(const uint8_t *trace, size_t length, uint8_t *out, size_t out_length, size_t *count);

/* What can be wrong with a text or a line, with the names that a report has for it. */
#define KERNELSTINT_FAULT_TOO_LONG 1 /* too-long: the text has more than 4,194,304 bytes */
#define KERNELSTINT_FAULT_NO_HEAP 2 /* no-heap: the first line that counts is no heap line */
#define KERNELSTINT_FAULT_BAD_HEAP 3 /* bad-heap: the heap line is not of its form, or its numbers are out of their range */
#define KERNELSTINT_FAULT_BAD_COMMAND 4 /* bad-command: no command has this name */
#define KERNELSTINT_FAULT_BAD_COUNT 5 /* bad-count: the command has more or fewer words */
#define KERNELSTINT_FAULT_BAD_REGISTER 6 /* bad-register: a word should be a register */
#define KERNELSTINT_FAULT_BAD_NUMBER 7 /* bad-number: a word should be a number, or one in its range */
#define KERNELSTINT_FAULT_BAD_DATA 8 /* bad-data: a word should be 32 hexadecimal digits */

typedef struct kernelstint_fault {
    uint32_t line; /* the number of the faulty line, from 1; 0 where the text is too long */
    uint8_t kind;
} kernelstint_fault;

/*
 * Writes the first fault of a text that is no trace, and answers KERNELSTINT_CODE_BAD_TRACE. Where it is one the answer is
 * KERNELSTINT_CODE_DONE, and nothing is written. It runs nothing: it is for a text for which kernelstint_run or
 * kernelstint_states has answered KERNELSTINT_CODE_BAD_TRACE.
 */
uint32_t kernelstint_trace_fault(const uint8_t *trace, size_t length, kernelstint_fault *fault);

/*
 * The same of a line that is no command, which is line 1: KERNELSTINT_CODE_BAD_LINE. Where it is one the answer is
 * KERNELSTINT_CODE_DONE; KERNELSTINT_CODE_PASSED_OVER. It takes no memory; as C it does for a line of more than 16,000 bytes.
 */
uint32_t kernelstint_line_fault(const uint8_t *line, size_t length, kernelstint_fault *fault);

/* ---- Machines that are held: for long runs, in which no state is wanted after each command ---- */

/*
 * A machine that the library holds in memory from malloc. It begins as {NULL}, which holds none; what is put there by
 * kernelstint_machine_open or kernelstint_machine_copy stays until kernelstint_machine_close. Conditions: no other hand writes
 * it, and of a machine that is held no second one is made by an assignment.
 */
typedef struct kernelstint_machine {
    void *at; /* NULL where no machine is held */
} kernelstint_machine;

/* Opens a machine in a state, where none is held. KERNELSTINT_CODE_IS_OPEN or KERNELSTINT_CODE_BAD_STATE. */
uint32_t kernelstint_machine_open(const uint8_t *state, size_t length, kernelstint_machine *machine);

/*
 * Does a command, as kernelstint_step does, and writes the reply. KERNELSTINT_CODE_NO_MACHINE or KERNELSTINT_CODE_BAD_COMMAND.
 * Where the code is not 0, the machine is in the state before.
 */
uint32_t kernelstint_machine_step(kernelstint_machine *machine, kernelstint_command command, kernelstint_reply *reply);

/*
 * Opens another machine in the same state, where none is held. It copies the machine's parts, in less time than it takes to
 * open a state's bytes. KERNELSTINT_CODE_NO_MACHINE or KERNELSTINT_CODE_IS_OPEN.
 */
uint32_t kernelstint_machine_copy(const kernelstint_machine *machine, kernelstint_machine *copy);

/* Writes the machine's state to `out`, which is as long. KERNELSTINT_CODE_NO_MACHINE or KERNELSTINT_CODE_BAD_ROOM. */
uint32_t kernelstint_machine_bytes(const kernelstint_machine *machine, uint8_t *out, size_t out_length);

/* Gives the machine's memory back; none is held then. KERNELSTINT_CODE_NO_MACHINE. */
uint32_t kernelstint_machine_close(kernelstint_machine *machine);

#ifdef __cplusplus
}
#endif

#endif
