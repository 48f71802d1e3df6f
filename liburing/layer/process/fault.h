/* Ending the program: the application broke the protocol, or the core answered what the layer
 * doesn't expect. */
#ifndef FAULT_H
#define FAULT_H

#include <stdbool.h>

/* Prints the message, and ends the program by abort. */
_Noreturn void stop_program(const char *message);

/* Ends the program unless it is so. */
static inline void demand(bool is_so, const char *message)
{
    if (!is_so)
        stop_program(message);
}

/* Room for this many bytes, all zero; ends the program if there is none. For what is small, and
 * asked for once. */
void *need_room(unsigned long count, unsigned long size);

#endif
