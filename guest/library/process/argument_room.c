/* The arguments of main with room for more, which the links of Rust take in place of arguments.c: the copy of a test program that is
 * debugged has the name of its test there. */
enum {
    ROOM = 16
};

static char program[] = "program";

char *dthreads_argument_room[ROOM] = {program};
