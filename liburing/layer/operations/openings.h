/* Opens of paths: each is asked not to wait. Where one of a named pipe is to wait for the other
 * end, it is made again. */
#ifndef OPENINGS_H
#define OPENINGS_H

#include "requests/requests.h"

/* The flags of the struct open_how that a request has, or 0. */
uint64_t how_flags(const struct request *request);

/* Looks the path of a request up, and notes whether that names a pipe: then the request may have to
 * wait until its other end is open. */
void look_for_pipe(struct request *request);

/* Opens its path by this call, in the way that the library said, but a plain one (enum
 * wulgach_opening). Returns its descriptor, the negative of an error number, or WOULD_WAIT. */
int32_t open_by(struct request *request, const struct wulgach_system_call *call, uint32_t way);

#endif
