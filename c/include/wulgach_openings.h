/* Wulgach: how the path of an operation is opened that may name a pipe, as decisions, for whoever
 * keeps a ring as the kernel does. The functions are in the library of wulgach.h, and proved as
 * those are. The layer under liburing calls them.
 */
#ifndef WULGACH_OPENINGS_H
#define WULGACH_OPENINGS_H

#include "wulgach_calls.h"

#ifdef __cplusplus
extern "C" {
#endif

/* How a path is opened: the fields of struct open_how (openat2(2)). */
struct wulgach_how {
    uint64_t flags, mode, resolve;
};

/* Writes how the path of an entry is looked up as its request starts, where `how` is its struct
 * open_how, or zeros: for itself alone (O_PATH), followed as its open follows it (O_NOFOLLOW), and
 * resolved so. And how the pipe is opened that was found by that, through its link in /proc: with
 * its open's flags but O_NOFOLLOW and O_DIRECT, with O_NONBLOCK, its mode, and no way to resolve
 * it. */
void wulgach_looking_how(const struct wulgach_submission *entry, const struct wulgach_how *how,
    struct wulgach_how *looking);
void wulgach_found_how(const struct wulgach_submission *entry, const struct wulgach_how *how,
    struct wulgach_how *found);

/* A request stands so whose path was looked up as it starts, and names a pipe or doesn't: if it
 * does, it may have to wait for its descriptor, though it has none. Returns the descriptor that is
 * polled for it, where this is its entry's: none (-1) of a pipe, since nothing tells that its other
 * end is open. Our own rule. */
int32_t wulgach_standing_after_path(struct wulgach_standing *standing, int32_t fd, bool names_pipe);

/* How the call of an operation is made that may open a path. */
enum wulgach_opening {
    WULGACH_OPENS_PLAINLY = 0, /* as it stands */
    WULGACH_OPENS_AT_ONCE =
        1, /* asked not to wait (O_NONBLOCK), which is taken back from the file */
    WULGACH_OPENS_PIPE =
        2 /* the pipe that was found is opened so, and its other end is waited for */
};

/* Returns how the call of an entry is made (enum wulgach_opening), whose path was found to name a
 * pipe, or wasn't: a pipe that was looked up is opened so. Else OPENAT and OPENAT2 are asked not to
 * wait, but of a path alone and of a folder, and where the flags say so themselves. */
uint32_t wulgach_opening_of(const struct wulgach_submission *entry, uint64_t how, bool names_pipe);

/* Returns with which flags a path is opened that is asked not to wait, whose open has these:
 * O_NONBLOCK besides. Of its file that is taken back as wulgach_flags_after has it. */
uint64_t wulgach_unwilling_flags(uint64_t flags);

/* Whether an open that was asked not to wait, and came to this, is made once more without that:
 * after -11 (EWOULDBLOCK), which a lease is waited for (open(2)). */
bool wulgach_opens_again(int32_t res);

/* Whether someone has a pipe open to write that was opened to read, or has had since: poll(2) shows
 * something of it; or a tee(2) of a byte that isn't to wait, if one can be made (`knows`), came to
 * this, bytes or an error number's negative, and not to 0. */
bool wulgach_has_writer(bool shows, bool knows, int32_t teed);

/* What is done for the open of a pipe that was found. */
enum wulgach_opening_step {
    WULGACH_OPENING_ENDS =
        0, /* it ends with what is written: a descriptor, or the negative of an error number */
    WULGACH_OPENING_WAITS = 1, /* it waits for its other end */
    WULGACH_OPENING_BY_PATH = 2, /* its path is opened, and not to wait */
    WULGACH_OPENING_BY_LINK = 3, /* what was found is, as wulgach_found_how has it */
    WULGACH_OPENING_ASKS_WRITER = 4 /* it is asked if someone has it open to write, or has had
                                       (wulgach_has_writer): 0 if nobody has */
};

/* Returns what is next of it (enum wulgach_opening_step), after what was done last, which came to
 * `res`, and writes what it ends with, if it ends. `last` is 0 at first, and WULGACH_OPENING_WAITS
 * where it has waited; `opened` is the descriptor by which it is open, or negative. Its path is
 * opened first, and ends it with whatever that is refused with, but -6 (ENXIO) where it is to
 * write: then it waits, and what was found is opened from then on, whose path may name nothing by
 * then. To read it waits until someone has it open to write, or has had. With O_DIRECT, which no
 * pipe has, it waits as well, and ends with -22 (EINVAL) then: the caller closes what it has
 * opened. */
uint32_t wulgach_opening_next(const struct wulgach_submission *entry, uint64_t how, int32_t opened,
    uint32_t last, int32_t res, int32_t *end);

#ifdef __cplusplus
}
#endif

#endif
