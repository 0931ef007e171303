/* The options of a command line, as GNU's getopt reads them: words are permuted, long names may be shortened. */
#include <getopt.h>
#include <stdio.h>
#include <stdlib.h>
#include <string.h>
#include <unistd.h>

char *optarg;
int optind = 1, opterr = 1, optopt = '?';

enum order { PERMUTED, POSIX, AS_GIVEN };

/* What the calls for one command line keep: the rest of the word of short options, and the words [first, last) that were skipped. */
static struct {
    char *rest;
    int first, last, has_begun;
} state;

/* What one call is given. */
struct call {
    int count;
    char **words;
    const char *options;
    const struct option *names;
    int *index;
    int is_only, is_told;
};

static int is_option(const char *word)
{
    return word[0] == '-' && word[1];
}

static void reverse(char **words, int from, int to)
{
    while (from < --to) {
        char *word = words[from];
        words[from++] = words[to];
        words[to] = word;
    }
}

/* Moves the skipped words behind the options [last, optind). */
static void move_skipped(char **words)
{
    reverse(words, state.first, state.last);
    reverse(words, state.last, optind);
    reverse(words, state.first, optind);
    state.first += optind - state.last;
    state.last = optind;
}

static int missing(const struct call *call)
{
    return call->options[0] == ':' ? ':' : '?';
}

static int is_same(const struct option *one, const struct option *other)
{
    return one->has_arg == other->has_arg && one->flag == other->flag && one->val == other->val;
}

/* The option whose name begins with these bytes: the one of just that name, else the only one, else none. */
static const struct option *named(const struct call *call, const char *name, size_t size, int *is_ambiguous)
{
    const struct option *found = NULL;
    *is_ambiguous = 0;
    for (const struct option *each = call->names; each->name; each++) {
        if (strncmp(each->name, name, size) != 0)
            continue;
        if (strlen(each->name) == size) {
            *is_ambiguous = 0;
            return each;
        }
        if (!found)
            found = each;
        else if (call->is_only || !is_same(found, each))
            *is_ambiguous = 1;
    }
    return found;
}

static void tell_possible(const struct call *call, const char *dashes, const char *name, size_t size)
{
    fprintf(stderr, "%s: option '%s%s' is ambiguous; possibilities:", call->words[0], dashes, name);
    for (const struct option *each = call->names; each->name; each++)
        if (strncmp(each->name, name, size) == 0)
            fprintf(stderr, " '%s%s'", dashes, each->name);
    fprintf(stderr, "\n");
}

/* Takes a long option from behind the dashes of the word, or returns -1: the word is of short options. */
static int take_long(const struct call *call, const char *dashes)
{
    char *name = call->words[optind] + strlen(dashes);
    size_t size = strcspn(name, "=");
    int is_ambiguous;
    const struct option *found = named(call, name, size, &is_ambiguous);
    if (!found && dashes[1] == 0 && strchr(call->options, name[0]))
        return -1;
    optind++;
    if (!found || is_ambiguous) {
        if (call->is_told && found)
            tell_possible(call, dashes, name, size);
        else if (call->is_told)
            fprintf(stderr, "%s: unrecognized option '%s%s'\n", call->words[0], dashes, name);
        optopt = 0;
        return '?';
    }
    if (name[size] && !found->has_arg) {
        if (call->is_told)
            fprintf(stderr, "%s: option '%s%s' doesn't allow an argument\n", call->words[0], dashes, found->name);
        optopt = found->val;
        return '?';
    }
    if (name[size])
        optarg = name + size + 1;
    else if (found->has_arg == required_argument && optind < call->count)
        optarg = call->words[optind++];
    else if (found->has_arg == required_argument) {
        if (call->is_told)
            fprintf(stderr, "%s: option '%s%s' requires an argument\n", call->words[0], dashes, found->name);
        optopt = found->val;
        return missing(call);
    }
    if (call->index)
        *call->index = found - call->names;
    if (!found->flag)
        return found->val;
    *found->flag = found->val;
    return 0;
}

/* Takes the next short option of the word. */
static int take_short(const struct call *call)
{
    char letter = *state.rest++;
    const char *found = strchr(call->options, letter);
    if (!*state.rest)
        optind++;
    if (!found || letter == ':' || letter == ';') {
        if (call->is_told)
            fprintf(stderr, "%s: invalid option -- '%c'\n", call->words[0], letter);
        optopt = letter;
        return '?';
    }
    if (found[1] != ':')
        return letter;
    if (*state.rest) {
        optarg = state.rest;
        optind++;
    } else if (found[2] != ':' && optind < call->count)
        optarg = call->words[optind++];
    else if (found[2] != ':') {
        if (call->is_told)
            fprintf(stderr, "%s: option requires an argument -- '%c'\n", call->words[0], letter);
        optopt = letter;
        letter = missing(call);
    }
    state.rest = NULL;
    return letter;
}

/* Skips words that are no options. Returns whether a word is left that may be one. */
static int find_option(const struct call *call, enum order order)
{
    if (state.last > optind)
        state.last = optind;
    if (state.first > optind)
        state.first = optind;
    if (order == PERMUTED) {
        if (state.first != state.last && state.last != optind)
            move_skipped(call->words);
        else if (state.last != optind)
            state.first = optind;
        while (optind < call->count && !is_option(call->words[optind]))
            optind++;
        state.last = optind;
    }
    if (optind < call->count && strcmp(call->words[optind], "--") == 0) {
        optind++;
        if (state.first != state.last && state.last != optind)
            move_skipped(call->words);
        else if (state.first == state.last)
            state.first = optind;
        state.last = optind = call->count;
    }
    if (optind < call->count)
        return 1;
    if (state.first != state.last)
        optind = state.first;
    return 0;
}

static int take(struct call call)
{
    if (call.count < 1)
        return -1;
    optarg = NULL;
    if (optind == 0 || !state.has_begun) {
        optind = optind ? optind : 1;
        state.first = state.last = optind;
        state.rest = NULL;
        state.has_begun = 1;
    }
    enum order order = call.options[0] == '-' ? AS_GIVEN : call.options[0] == '+' || getenv("POSIXLY_CORRECT") ? POSIX : PERMUTED;
    call.options += call.options[0] == '-' || call.options[0] == '+';
    call.is_told = opterr && call.options[0] != ':';
    if (!state.rest || !*state.rest) {
        if (!find_option(&call, order))
            return -1;
        char *word = call.words[optind];
        if (!is_option(word)) {
            if (order == POSIX)
                return -1;
            optarg = word;
            optind++;
            return 1;
        }
        if (call.names && word[1] == '-') {
            state.rest = NULL;
            return take_long(&call, "--");
        }
        if (call.names && call.is_only && (word[2] || !strchr(call.options, word[1]))) {
            state.rest = NULL;
            int taken = take_long(&call, "-");
            if (taken != -1)
                return taken;
        }
        state.rest = word + 1;
    }
    return take_short(&call);
}

int getopt(int count, char *const words[], const char *options)
{
    return take((struct call){count, (char **)words, options, NULL, NULL, 0, 0});
}

int getopt_long(int count, char *const words[], const char *options, const struct option *names, int *index)
{
    return take((struct call){count, (char **)words, options, names, index, 0, 0});
}

int getopt_long_only(int count, char *const words[], const char *options, const struct option *names, int *index)
{
    return take((struct call){count, (char **)words, options, names, index, 1, 0});
}
