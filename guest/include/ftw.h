/* Walks through a tree of directories. */
#ifndef _FTW_H
#define _FTW_H

#include <sys/types.h>
#include <sys/stat.h>

#ifdef __cplusplus
extern "C" {
#endif

/* What a path is. */
enum {
    FTW_F,
    FTW_D,
    FTW_DNR,
    FTW_NS,
    FTW_SL,
    FTW_DP,
    FTW_SLN
};

enum {
    FTW_PHYS = 1,
    FTW_MOUNT = 2,
    FTW_CHDIR = 4,
    FTW_DEPTH = 8,
    FTW_ACTIONRETVAL = 16
};

/* What a function answers if FTW_ACTIONRETVAL is wanted. */
enum {
    FTW_CONTINUE,
    FTW_STOP,
    FTW_SKIP_SUBTREE,
    FTW_SKIP_SIBLINGS
};

/* Where a path's last name begins, and how deep it lies below the first. */
struct FTW {
    int base;
    int level;
};

typedef int (*__ftw_func_t)(const char *, const struct stat *, int);
typedef int (*__nftw_func_t)(const char *, const struct stat *, int, struct FTW *);

int ftw(const char *, __ftw_func_t, int);
int nftw(const char *, __nftw_func_t, int, int);

#ifdef __cplusplus
}
#endif
#endif
