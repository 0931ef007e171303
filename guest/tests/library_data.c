/* Data that threads share in the C library alone: each function here is safe in several threads at once, so no handler is lost, each
 * thread gets its own results, and no race is in a list. */
#include <math.h>
#include <pthread.h>
#include <regex.h>
#include <stdio.h>
#include <stdlib.h>
#include <string.h>
#include <time.h>

enum {
    THREADS = 4,
    ROUNDS = 5
};

static char texts[THREADS][200];

#define HANDLER(number) \
    static void handler_##number(void) \
    { \
        puts("handler " #number); \
    }

HANDLER(0)
HANDLER(1)
HANDLER(2)
HANDLER(3)

static void (*const handlers[THREADS])(void) = {handler_0, handler_1, handler_2, handler_3};

static void times(char *text, long number)
{
    time_t seconds = 1796060700 + number * 86400, back;
    struct tm local, universal;
    char shown[26];
    tzset();
    localtime_r(&seconds, &local);
    gmtime_r(&seconds, &universal);
    back = mktime(&local);
    text += strftime(text, 100, "%Y-%m-%d %H:%M %Z ", &local);
    strcpy(text, asctime_r(&universal, shown));
    if (back != seconds)
        strcpy(text, "another time\n");
}

static void *works(void *place)
{
    long number = (long)place;
    char name[16], *text = texts[number];
    regex_t expression;
    atexit(handlers[number]);
    for (int i = 0; i < ROUNDS; i++) {
        times(text, number);
        long double value = tgammal(2 + number);
        snprintf(name, sizeof name, "NAME_%ld", number);
        setenv(name, name, 1);
        if (value != tgammal(1 + number) * (1 + number) || strcmp(getenv(name), name) != 0)
            strcpy(text, "wrong\n");
        if (regcomp(&expression, "^NAME_[0-3]$", REG_EXTENDED) == 0) {
            if (regexec(&expression, name, 0, NULL, 0) != 0)
                strcpy(text, "no match\n");
            regfree(&expression);
        }
    }
    return NULL;
}

int main(void)
{
    pthread_t threads[THREADS];
    setenv("TZ", "CET-1CEST,M3.5.0,M10.5.0/3", 1);
    for (long i = 0; i < THREADS; i++)
        pthread_create(&threads[i], NULL, works, (void *)i);
    for (int i = 0; i < THREADS; i++) {
        pthread_join(threads[i], NULL);
        fputs(texts[i], stdout);
    }
}
