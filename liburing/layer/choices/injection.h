/* Faults that the layer injects into operations, as WULGACH_FAULTS and WULGACH_FAULT_RATE say. */
#ifndef INJECTION_H
#define INJECTION_H

#include "requests/requests.h"

enum injection { NO_FAULT, FAULT_EIO, FAULT_ENOSPC, FAULT_SHORT };

/* Reads the environment, once. */
void read_injection(void);

/* Whether any request may have a listed fault. */
bool has_listed_faults(void);

struct ring;

/* The fault of a request that is about to be carried out. */
enum injection injected(struct ring *ring, const struct request *request);

#endif
