/* The processors of this machine. */
#ifndef PROCESSORS_H
#define PROCESSORS_H

#include <stdbool.h>
#include <stdint.h>

/* Whether the processor of this number is online, or is taken to be so, as the library says, where
 * that isn't known. */
bool is_online(uint32_t number);

#endif
