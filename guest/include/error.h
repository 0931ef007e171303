/* Messages on the standard error stream, as of GNU. */
#ifndef _ERROR_H
#define _ERROR_H

#ifdef __cplusplus
extern "C" {
#endif

void error(int, int, const char *, ...) __attribute__((format(printf, 3, 4)));
void error_at_line(int, int, const char *, unsigned, const char *, ...) __attribute__((format(printf, 5, 6)));
/* What begins a line in place of the program's name, if it isn't NULL. */
extern void (*error_print_progname)(void);
/* How many messages there were. */
extern unsigned error_message_count;
/* If it isn't 0, error_at_line tells of each line of a file once in a row. */
extern int error_one_per_line;

#ifdef __cplusplus
}
#endif
#endif
