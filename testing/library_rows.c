/*
 * Answers the calls of testing/library_rows, which it reads from standard input, by the library, in the form of that file:
 * so what it writes is what it reads, where each answer is the one that stands there. First it tries what no row says: what
 * the library writes where a length is wrong. C11 and C++17.
 */
#include "kernelstint.h"

#include <inttypes.h>
#include <stdio.h>
#include <stdlib.h>
#include <string.h>

enum { MOST_WORDS = 16, MOST_BYTES = 256 };

static void fail(const char *what) {
    fprintf(stderr, "%s\n", what);
    exit(1);
}

/* A number of up to 128 bits. */
static void read_halves(const char *digits, uint64_t *high, uint64_t *low) {
    size_t length = strlen(digits);
    char upper[17] = "0";
    *low = strtoull(length > 16 ? digits + length - 16 : digits, NULL, 16);
    if (length > 32) fail("a number has more than 128 bits");
    if (length > 16) {
        memcpy(upper, digits, length - 16);
        upper[length - 16] = '\0';
    }
    *high = strtoull(upper, NULL, 16);
}

static uint64_t number(const char *digits) { return strtoull(digits, NULL, 16); }

static kernelstint_word word(const char *digits) {
    kernelstint_word read;
    read_halves(digits, &read.metadata, &read.address);
    return read;
}

static kernelstint_bounds bounds(char **words) {
    kernelstint_bounds read;
    read_halves(words[1], &read.top_high, &read.top);
    read.base = number(words[0]);
    return read;
}

static kernelstint_fields fields(char **words) {
    kernelstint_fields read;
    read.perms = (uint16_t)number(words[0]);
    read.reserved = (uint8_t)number(words[1]);
    read.flag = (uint8_t)number(words[2]);
    read.otype = (uint32_t)number(words[3]);
    read.internal = (uint8_t)number(words[4]);
    read.top12 = (uint16_t)number(words[5]);
    read.base14 = (uint16_t)number(words[6]);
    read.address = number(words[7]);
    return read;
}

static size_t read_bytes(const char *digits, uint8_t *bytes) {
    size_t count = strcmp(digits, "-") == 0 ? 0 : strlen(digits) / 2;
    for (size_t i = 0; i < count; i++) {
        char two[3] = {digits[2 * i], digits[2 * i + 1], '\0'};
        bytes[i] = (uint8_t)strtoul(two, NULL, 16);
    }
    return count;
}

static void tell(uint64_t high, uint64_t low) {
    if (high != 0) {
        printf(" %" PRIx64 "%016" PRIx64, high, low);
    } else {
        printf(" %" PRIx64, low);
    }
}

static void tell_word(kernelstint_word told) { tell(told.metadata, told.address); }

static void tell_coded(kernelstint_coded_word told) {
    tell(0, told.code);
    tell_word(told.word);
}

static void tell_fields(kernelstint_fields told) {
    tell(0, told.perms);
    tell(0, told.reserved);
    tell(0, told.flag);
    tell(0, told.otype);
    tell(0, told.internal);
    tell(0, told.top12);
    tell(0, told.base14);
    tell(0, told.address);
}

static void tell_bounds(kernelstint_bounds told) {
    tell(0, told.base);
    tell(told.top_high, told.top);
}

static void tell_narrowed(kernelstint_narrowed_word told) {
    tell(0, told.code);
    tell_word(told.word);
    tell(0, told.exact);
}

static void tell_bytes(kernelstint_word told) {
    uint8_t bytes[16];
    if (kernelstint_word_to_bytes(told, bytes, sizeof bytes) != KERNELSTINT_CODE_DONE) fail("16 bytes are refused");
    printf(" ");
    for (size_t i = 0; i < sizeof bytes; i++) printf("%02x", bytes[i]);
}

static void answer_bytes(const char *digits) {
    uint8_t bytes[MOST_BYTES];
    size_t length = read_bytes(digits, bytes);
    tell_coded(kernelstint_word_from_bytes(bytes, length));
}

static void answer_corrections(kernelstint_word asked) {
    kernelstint_corrections told = kernelstint_corrections_of(asked);
    printf(" %d %d", told.base, told.top);
}

static void answer_length(uint64_t length) {
    kernelstint_length told = kernelstint_representable_length(length);
    tell(told.length_high, told.length);
}

/* Writes what a call of some words answers; false where there is no such call. */
static bool answer(const char *call, char **words, int count) {
    if (strcmp(call, "version") == 0 && count == 0) {
        tell(0, kernelstint_version());
    } else if (strcmp(call, "null") == 0 && count == 0) {
        tell_word(kernelstint_null_word());
    } else if (strcmp(call, "from_bytes") == 0 && count == 1) {
        answer_bytes(words[0]);
    } else if (strcmp(call, "to_bytes") == 0 && count == 1) {
        tell_bytes(word(words[0]));
    } else if (strcmp(call, "fields") == 0 && count == 1) {
        tell_fields(kernelstint_fields_of(word(words[0])));
    } else if (strcmp(call, "word_of") == 0 && count == 8) {
        tell_coded(kernelstint_word_of_fields(fields(words)));
    } else if (strcmp(call, "exponent") == 0 && count == 1) {
        tell(0, kernelstint_exponent_of(word(words[0])));
    } else if (strcmp(call, "bounds") == 0 && count == 1) {
        tell_bounds(kernelstint_bounds_of(word(words[0])));
    } else if (strcmp(call, "corrections") == 0 && count == 1) {
        answer_corrections(word(words[0]));
    } else if (strcmp(call, "representable") == 0 && count == 2) {
        tell(0, kernelstint_representable(word(words[0]), number(words[1])));
    } else if (strcmp(call, "allowed") == 0 && count == 2) {
        tell(0, kernelstint_is_allowed(word(words[0]), (uint16_t)number(words[1])));
    } else if (strcmp(call, "with_bounds") == 0 && count == 3) {
        tell_narrowed(kernelstint_with_bounds(word(words[0]), bounds(words + 1)));
    } else if (strcmp(call, "capability") == 0 && count == 2) {
        tell_coded(kernelstint_block_capability(bounds(words)));
    } else if (strcmp(call, "set_address") == 0 && count == 2) {
        tell_word(kernelstint_set_address(word(words[0]), number(words[1])));
    } else if (strcmp(call, "and_perms") == 0 && count == 2) {
        tell_word(kernelstint_and_perms(word(words[0]), (uint16_t)number(words[1])));
    } else if (strcmp(call, "length") == 0 && count == 1) {
        answer_length(number(words[0]));
    } else if (strcmp(call, "mask") == 0 && count == 1) {
        tell(0, kernelstint_alignment_mask(number(words[0])));
    } else {
        return false;
    }
    return true;
}

/* Writes a row as it is read up to its `=`, and then what is answered. */
static void answer_row(char *row) {
    char *words[MOST_WORDS];
    int count = 0;
    char *end = strchr(row, '=');
    if (end == NULL) fail("a row has no =");
    *end = '\0';
    printf("%s=", row);
    for (char *at = strtok(row, " "); at != NULL && count < MOST_WORDS; at = strtok(NULL, " ")) words[count++] = at;
    if (count == 0 || !answer(words[0], words + 1, count - 1)) fail("a row has no such call");
    printf("\n");
}

/* Nothing is written where a length is wrong. */
static void try_lengths(void) {
    for (size_t length = 0; length <= 40; length++) {
        uint8_t bytes[40];
        memset(bytes, 0xa5, sizeof bytes);
        uint32_t code = kernelstint_word_to_bytes(kernelstint_null_word(), bytes, length);
        if (code != (length == 16 ? KERNELSTINT_CODE_DONE : KERNELSTINT_CODE_BAD_LENGTH)) fail("a length has another code");
        for (size_t i = 0; i < sizeof bytes; i++) {
            if (bytes[i] != (length == 16 && i < 16 ? 0 : 0xa5)) fail("a byte is written that should not be, or is not");
        }
    }
}

int main(void) {
    char row[512];
    if (kernelstint_version() != KERNELSTINT_VERSION) fail("the header has another version");
    if (sizeof(kernelstint_word) != 16) fail("a word has another size");
    try_lengths();
    while (fgets(row, sizeof row, stdin) != NULL) {
        row[strcspn(row, "\n")] = '\0';
        if (row[0] == '#' || row[0] == '\0') {
            printf("%s\n", row);
        } else {
            answer_row(row);
        }
    }
    return 0;
}
