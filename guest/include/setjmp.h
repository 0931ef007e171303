/* The C library's page, and jumps that restore the mask of signals. */
#ifndef DTHREADS_SETJMP_H
#define DTHREADS_SETJMP_H

#include_next <setjmp.h>
#include <sys/_sigset.h>

#ifdef __cplusplus
extern "C" {
#endif

struct dthreads_jump {
    jmp_buf registers;
    int has_mask;
    __sigset_t mask;
};

/* Keeps the mask where `save` isn't 0. */
void dthreads_keep_mask(struct dthreads_jump *, int);

#undef sigsetjmp
#undef siglongjmp
#undef _setjmp
#undef _longjmp
typedef struct dthreads_jump sigjmp_buf[1];
void siglongjmp(struct dthreads_jump *, int) __attribute__((noreturn));
#define sigsetjmp(place, save) (dthreads_keep_mask((place), (save)), setjmp((place)->registers))
#define _setjmp(place) setjmp(place)
#define _longjmp(place, value) longjmp((place), (value))

#ifdef __cplusplus
}
#endif
#endif
