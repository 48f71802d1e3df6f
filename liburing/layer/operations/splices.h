/* Splices and tees. */
#ifndef SPLICES_H
#define SPLICES_H

#include "requests/requests.h"

#include <poll.h>

struct pollfd poll_of_splice(const struct request *request);

/* What one comes to whose call came to this. */
int32_t result_of_splice(const struct request *request, int32_t came_to);

/* Whether one that would have to wait isn't to. */
bool is_unwilling_splice(const struct request *request);

#endif
