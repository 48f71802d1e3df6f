/* Carries out what the library says that an operation is carried out by: a system call, or what the
 * layer does itself. */
#ifndef MEANS_H
#define MEANS_H

#include "requests/requests.h"

struct ring;

/* Makes a system call. Returns its result, or the negative of an error number; by `pass`, past the
 * filters of `uring-run`. */
int32_t make_call(const struct wulgach_system_call *call);
int32_t make_passing_call(const struct wulgach_system_call *call);

/* Carries out all but transfers, polls and no-ops. Of what may have to wait, one call. */
int32_t carry_out_by_means(struct ring *ring, struct request *request);

#endif
