/* A program's modes, of which its first word names one. */
#ifndef MODES_H
#define MODES_H

#include <stddef.h>
#include <string.h>

struct mode {
    const char *name;
    void (*run)(void);
};

/* Runs the mode of the program's word. */
static inline int run_mode(const struct mode *modes, size_t count, int argc, char **argv)
{
    for (size_t i = 0; argc > 1 && i < count; i++)
        if (strcmp(argv[1], modes[i].name) == 0) {
            modes[i].run();
            return 0;
        }
    return 2;
}

#endif
