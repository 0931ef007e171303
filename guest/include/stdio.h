/* The C library's page, and what it lacks. */
#ifndef DTHREADS_STDIO_H
#define DTHREADS_STDIO_H

#include_next <stdio.h>
#include <sys/types.h>

#ifdef __cplusplus
extern "C" {
#endif

#undef L_tmpnam
#define L_tmpnam 20
#undef P_tmpdir
#define P_tmpdir "/tmp"
#undef TMP_MAX
#define TMP_MAX 238328
#ifndef FILENAME_MAX
#define FILENAME_MAX 4096
#endif
#ifndef FOPEN_MAX
#define FOPEN_MAX 256
#endif

ssize_t getline(char **__restrict, size_t *__restrict, FILE *__restrict);
ssize_t getdelim(char **__restrict, size_t *__restrict, int, FILE *__restrict);
FILE *open_memstream(char **, size_t *);
int dprintf(int, const char *__restrict, ...) __attribute__((format(printf, 2, 3)));
int vdprintf(int, const char *__restrict, __builtin_va_list) __attribute__((format(printf, 2, 0)));
char *ctermid(char *);
FILE *popen(const char *, const char *);
int pclose(FILE *);
int fclose(FILE *);
char *tempnam(const char *, const char *);
void flockfile(FILE *);
int ftrylockfile(FILE *);
void funlockfile(FILE *);

int getc_unlocked(FILE *);
int getchar_unlocked(void);
int putc_unlocked(int, FILE *);
int putchar_unlocked(int);
int fgetc_unlocked(FILE *);
int fputc_unlocked(int, FILE *);
int fputs_unlocked(const char *__restrict, FILE *__restrict);
char *fgets_unlocked(char *__restrict, int, FILE *__restrict);
size_t fread_unlocked(void *__restrict, size_t, size_t, FILE *__restrict);
size_t fwrite_unlocked(const void *__restrict, size_t, size_t, FILE *__restrict);
int fflush_unlocked(FILE *);
int feof_unlocked(FILE *);
int ferror_unlocked(FILE *);
void clearerr_unlocked(FILE *);
int fileno_unlocked(FILE *);
int renameat(int, const char *, int, const char *);

#ifdef __cplusplus
}
#endif
#endif
