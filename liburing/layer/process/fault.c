/* Ending the program with a message. */
#include "process/fault.h"

#include <stdio.h>
#include <stdlib.h>

_Noreturn void stop_program(const char *message)
{
    fprintf(stderr, "wulgach: %s\n", message);
    abort();
}

void *need_room(unsigned long count, unsigned long size)
{
    void *at = calloc(count, size);
    demand(at != NULL, "out of memory");
    return at;
}
