/* What the words of a command line ask for: those of heap_tool; heap_states and heap_check have those of `run` but for --image, and
 * heap_revoker too, behind the word that says who does the revoker's steps. */
#include <stdbool.h>
#include <string.h>

enum asked { REFUSED, RUN, WORD };

/* Digits with a plus before them or without: 1 to `most`. */
static bool is_number(const char *text, unsigned most) {
    unsigned number = 0;
    if (*text == '+') text++;
    if (*text == 0) return false;
    for (; *text; text++) {
        if (*text < '0' || *text > '9') return false;
        number = number * 10 + (unsigned)(*text - '0');
        if (number > most) number = most + 1;
    }
    return number >= 1 && number <= most;
}

/* An option with its value, behind = or as the next word; each may stand once. How the work is cut changes no byte of an answer, so
 * the values are judged alone. The answer is how many words it takes, and 0 where it is none. */
static int option_at(char **words, const char *name, unsigned most, bool *had) {
    size_t length = strlen(name);
    if (strncmp(words[0], name, length) != 0 || *had) return 0;
    *had = true;
    if (words[0][length] == '=') return is_number(words[0] + length + 1, most);
    return words[0][length] == 0 && words[1] && is_number(words[1], most) ? 2 : 0;
}

/* The words behind `run`, or those of a program that has no other command. */
static enum asked read_options(char **words, bool *image) {
    bool had_workers = false, had_cut = false;
    for (int count; *words; words += count) {
        if (strcmp(*words, "--") == 0) return words[1] ? REFUSED : RUN;
        if (image && strcmp(*words, "--image") == 0 && !*image) { *image = true; count = 1; continue; }
        count = option_at(words, "--workers", 64, &had_workers);
        if (count == 0) count = option_at(words, "--cut", 256, &had_cut);
        if (count == 0) return REFUSED;
    }
    return RUN;
}

/* Who does the steps of a plan's revoker, by the number that the module has for it. */
static enum asked read_way(char **words, u64 *way) {
    static const char *const names[] = {"by-hand", "cornucopia", "reloaded"};
    for (*way = 0; *words && *way < 3; ++*way)
        if (strcmp(*words, names[*way]) == 0) return read_options(words + 1, NULL);
    return REFUSED;
}

static enum asked read_words(char **words, bool *image, const char **hex) {
    bool only_values = false;
    *hex = NULL;
    if (!*words) return REFUSED;
    if (strcmp(*words, "run") == 0) return read_options(words + 1, image);
    if (strcmp(*words, "word") != 0) return REFUSED;
    for (words++; *words; words++) {
        if (!only_values && strcmp(*words, "--") == 0) { only_values = true; continue; }
        if (*hex) return REFUSED;
        *hex = *words;
    }
    return *hex && strlen(*hex) == 32 && strspn(*hex, "0123456789abcdefABCDEF") == 32 ? WORD : REFUSED;
}
