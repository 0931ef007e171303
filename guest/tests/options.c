/* getopt and its long forms: the words after each command line, what is returned for each option, and the messages. */
#include <getopt.h>
#include <stdio.h>
#include <unistd.h>

static int flag;
static const struct option names[] = {
    {"alpha", no_argument, 0, 'A'}, {"alphabet", no_argument, 0, 'Z'}, {"beta", required_argument, 0, 'B'},
    {"flag", no_argument, &flag, 7}, {"gamma", optional_argument, 0, 'G'}, {"same", no_argument, 0, 's'},
    {"sames", no_argument, 0, 's'}, {0, 0, 0, 0}};

static int next(int kind, int count, char **words, const char *options, int *index)
{
    return kind == 0   ? getopt(count, words, options)
           : kind == 1 ? getopt_long(count, words, options, names, index)
                       : getopt_long_only(count, words, options, names, index);
}

static void take(int kind, const char *options, int count, char **words)
{
    int taken, index = -1;
    optind = 0;
    while ((taken = next(kind, count, words, options, &index)) != -1) {
        printf("<%d %s at %d, index %d", taken, optarg ? optarg : "none", optind, index);
        if (taken == '?' || taken == ':')
            printf(", option %d", optopt);
        printf("> ");
    }
    printf("end %d, flag %d:", optind, flag);
    for (int i = 0; i < count; i++)
        printf(" %s", words[i]);
    printf("\n");
}

#define TAKE(kind, options, ...) \
    do { \
        char *words[] = {"program", __VA_ARGS__, NULL}; \
        take(kind, options, sizeof words / sizeof words[0] - 1, words); \
    } while (0)

int main(void)
{
    setvbuf(stdout, NULL, _IONBF, 0);
    TAKE(0, "ab:", "one", "-a", "two", "-b", "three", "four");
    TAKE(0, "ab:", "one", "-a", "two", "--", "-b", "x");
    TAKE(0, "ab:", "-", "-a", "-", "-b", "-", "-ab-");
    TAKE(0, "ab::", "x", "-b", "y", "-bz", "-");
    TAKE(0, "+ab:", "-a", "one", "-a");
    TAKE(0, "-ab:", "one", "-a", "two", "-bq", "--", "-a");
    TAKE(0, "ab:", "-q", "-a:", "-aab");
    TAKE(0, ":ab:", "-q", "x", "-b");
    TAKE(0, "", "", "--", "x");
    TAKE(1, "ab:", "--alp", "--alpha", "--alphab", "--beta=1", "w", "--beta", "2", "--gamma", "--gamma=", "--gam=3", "--nope", "--be");
    TAKE(1, "ab:", "x", "--alpha=3", "--flag", "--sam", "-ab", "-", "-a", "--", "--flag");
    TAKE(1, "+:ab:", "--nope", "--beta", "x", "--beta");
    TAKE(1, ":ab:", "--beta");
    TAKE(1, "-ab:", "x", "--beta", "y", "z");
    TAKE(2, "ab:", "-alpha", "-a", "-ab", "-beta", "1", "w", "-beta=2", "-nope", "-gam", "-b", "-sam", "-alph");
    opterr = 0;
    TAKE(1, "ab:", "-q", "--nope", "-b");
    return 0;
}
