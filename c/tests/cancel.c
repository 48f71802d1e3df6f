/* What a cancel finds: each call once, with what the manual page calls for, written by hand. */
#include "demand.h"
#include "wulgach_cancel.h"
#include "wulgach_form.h"
#include "wulgach_register.h"

#include <stdio.h>

/* Looks at three requests with user data 1, 1 and 2, of which the first is after a link. */
static int32_t look(const struct wulgach_sought *sought, const bool *wanted)
{
    static const struct wulgach_outstanding requests[] = {
        {.user_data = 1, .fd = 4, .needs_file = true, .is_assigned = true, .is_token = true},
        {.user_data = 1,
            .fd = 5,
            .needs_file = true,
            .is_assigned = true,
            .is_token = true,
            .runs = true,
            .is_stream = true},
        {.user_data = 2,
            .fd = 9,
            .needs_file = true,
            .is_registered = true,
            .is_assigned = true,
            .is_token = true,
            .may_start = true},
    };
    struct wulgach_cancel_look cancel;
    wulgach_cancel_begin(&cancel, sought);
    for (int i = 0; i < 3; i++)
        demand(
            wulgach_cancel_sees(&cancel, &requests[i]) == wanted[i], "which request is cancelled");
    return wulgach_cancel_result(&cancel);
}

/* What entries look for, and what isn't found. */
static void seek(void)
{
    enum { POLL_REMOVE = 7, TIMEOUT = 11, CANCEL = 14 };
    struct wulgach_sought sought;
    struct wulgach_cancel_look cancel;
    struct wulgach_outstanding read = {.user_data = 5,
                                   .is_token = true,
                                   .runs = true,
                                   .is_stream = true,
                                   .code = 22},
                               poll = read, other = read, timeout = {.code = TIMEOUT};
    poll.code = 6;
    other.code = CANCEL;
    wulgach_sought_of(
        &(struct wulgach_submission){.opcode = POLL_REMOVE, .addr = 5, .op_flags = 4}, &sought);
    demand(sought.user_data == 5 && sought.is_of_operation && sought.code == 6 && !sought.is_any &&
               wulgach_goes_by_user_data(&sought),
        "a removal looks by user data");
    wulgach_cancel_begin(&cancel, &sought);
    demand(!wulgach_cancel_sees(&cancel, &read) && wulgach_cancel_sees(&cancel, &poll),
        "and among requests of its operation");
    wulgach_sought_of(
        &(struct wulgach_submission){.opcode = CANCEL, .fd = 3, .op_flags = 11}, &sought);
    demand(sought.fd == 3 && sought.is_by_fd && sought.is_fixed && sought.is_all &&
               !sought.is_any && !sought.is_of_operation && !wulgach_goes_by_user_data(&sought),
        "all by a slot");
    demand(wulgach_seeking_fault(&sought, false) == -9 && wulgach_seeking_fault(&sought, true) == 0,
        "an empty slot");
    demand(wulgach_file_sought(&sought) == WULGACH_SEEKS_SLOT &&
               wulgach_file_sought(&(struct wulgach_sought){.is_by_fd = true, .is_any = true}) ==
                   WULGACH_SEEKS_NUMBER &&
               wulgach_file_sought(&(struct wulgach_sought){.is_fixed = true}) ==
                   WULGACH_SEEKS_NO_FILE,
        "where a file is looked for");
    wulgach_sought_of(&(struct wulgach_submission){.opcode = CANCEL, .op_flags = 4}, &sought);
    demand(wulgach_seeking_fault(&sought, false) == 0 && !wulgach_goes_by_user_data(&sought),
        "any needs no slot");
    wulgach_sought_by_call(
        &(struct wulgach_cancel_form){.addr = 5, .fd = 3, .flags = 11, .seconds = 4}, &sought);
    demand(sought.fd == 3 && sought.is_by_fd && sought.is_fixed && sought.is_all &&
               !sought.is_any && !sought.is_of_operation,
        "a call looks by a slot");
    wulgach_sought_by_call(&(struct wulgach_cancel_form){.addr = 5, .fd = -1}, &sought);
    demand(sought.user_data == 5 && wulgach_goes_by_user_data(&sought) && !sought.is_fixed &&
               !sought.is_all,
        "or by user data");
    wulgach_sought_of(&(struct wulgach_submission){.opcode = CANCEL, .op_flags = 4}, &sought);
    wulgach_cancel_begin(&cancel, &sought);
    demand(!wulgach_cancel_sees(&cancel, &other) && wulgach_cancel_sees(&cancel, &read) &&
               wulgach_cancel_result(&cancel) == 1,
        "a cancel finds none");
    demand(wulgach_is_waiting(&read) && wulgach_is_waiting(&timeout) &&
               !wulgach_is_waiting(&(struct wulgach_outstanding){0}),
        "what waits");
}

/* On which file a request is carried out. */
static void compare(void)
{
    struct wulgach_sought fd = {.fd = 5, .is_by_fd = true},
                          any = {.fd = 5, .is_by_fd = true, .is_any = true},
                          by_user_data = {.user_data = 1};
    struct wulgach_outstanding request = {.fd = 5,
        .needs_file = true,
        .is_assigned = true,
        .is_token = true,
        .runs = true,
        .is_stream = true};
    struct wulgach_cancel_look cancel;
    demand(wulgach_asks_file(&fd, &request) && !wulgach_asks_file(&any, &request) &&
               !wulgach_asks_file(&by_user_data, &request),
        "to whom a file matters");
    request.is_compared = true;
    wulgach_cancel_begin(&cancel, &fd);
    demand(!wulgach_cancel_sees(&cancel, &request), "a number that is another file's");
    request.fd = 7;
    request.is_same = true;
    demand(wulgach_cancel_sees(&cancel, &request), "a duplicate");
    request.is_assigned = false;
    demand(!wulgach_asks_file(&fd, &request), "a file that isn't known");
}

/* What a cancel comes before. */
static void order(void)
{
    demand(wulgach_is_taken_after(3, false, false, 4) &&
               !wulgach_is_taken_after(4, false, false, 3) &&
               !wulgach_is_taken_after(3, true, false, 4) &&
               !wulgach_is_taken_after(3, false, true, 4),
        "what is taken after a cancel");
    demand(wulgach_comes_late(14, true) && wulgach_comes_late(7, true) &&
               wulgach_comes_late(12, true) && !wulgach_comes_late(14, false) &&
               !wulgach_comes_late(22, true),
        "what comes late");
    demand(wulgach_is_issued_before(14, 3, true, true, 4) &&
               !wulgach_is_issued_before(14, 3, true, false, 4) &&
               !wulgach_is_issued_before(14, 4, true, true, 3),
        "what is issued before it");
}

/* Of what is issued before a cancel only what runs, and has to wait or goes on, is found; the rest
 * is to start, but what the core ends. */
static void issued_before(void)
{
    struct wulgach_sought sought = {.user_data = 1};
    for (int i = 0; i < 16; i++) {
        struct wulgach_cancel_look cancel;
        struct wulgach_search search;
        struct wulgach_outstanding seen = {.user_data = 1,
            .is_token = true,
            .is_stream = true,
            .may_start = true,
            .comes_first = true,
            .runs = i & 1,
            .goes_on = i & 2,
            .is_ready = i & 4,
            .is_cancelled = i & 8};
        bool has_ended = seen.is_ready && !seen.goes_on;
        struct wulgach_outstanding late = seen, core = seen;
        late.comes_first = core.is_token = false;
        demand(
            !wulgach_is_due_first(&late) && !wulgach_is_due_first(&core), "what has its own turn");
        wulgach_cancel_begin(&cancel, &sought);
        demand(!wulgach_cancel_asks(&cancel, &seen), "whether it could start doesn't matter");
        demand(wulgach_asks_wait(&seen) == (seen.runs && !seen.goes_on),
            "whether it has to wait matters");
        demand(wulgach_is_due_first(&seen) == !seen.runs, "what hasn't started is to start");
        demand(
            wulgach_cancel_sees(&cancel, &seen) == (seen.runs && !has_ended && !seen.is_cancelled),
            "what is issued before is found");
        wulgach_search_begin(&search, 1);
        demand(
            wulgach_search_sees(&search, &seen) == (seen.runs && !has_ended && !seen.is_cancelled),
            "and so where the core has found one");
        demand(wulgach_search_found_by_core(&search, -114, true) ==
                   (!seen.runs || has_ended ? -2 : -114),
            "what has ended isn't found");
    }
}

/* Which of several with one user data is looked at first. */
static void ranks(void)
{
    struct wulgach_sought one = {.user_data = 1}, all = {.user_data = 1, .is_all = true},
                          any = {.is_any = true}, fd = {.is_by_fd = true};
    demand(
        wulgach_first_rank(&one, true) == 0 && wulgach_first_rank(&one, false) == WULGACH_LAST_RANK,
        "one goes by ranks, by Linux's rules");
    demand(wulgach_first_rank(&all, true) == WULGACH_LAST_RANK &&
               wulgach_first_rank(&any, true) == WULGACH_LAST_RANK &&
               wulgach_first_rank(&fd, true) == WULGACH_LAST_RANK,
        "no others do");
    demand(wulgach_rank_from(0, 6, true, 0) == 0 && wulgach_rank_from(0, 11, false, 3) == 1,
        "what waits, and what counts");
    demand(wulgach_rank_from(0, 11, false, 0) == 2 && wulgach_rank_from(0, 22, false, 3) == 2 &&
               wulgach_rank_from(WULGACH_LAST_RANK, 6, true, 0) == WULGACH_LAST_RANK,
        "and all others");
    demand(wulgach_is_newest_first(0) && !wulgach_is_newest_first(1) && !wulgach_is_newest_first(2),
        "the newest of what waits");
}

int main(void)
{
    order();
    ranks();
    issued_before();
    struct wulgach_cancel_look cancel;
    struct wulgach_outstanding waits = {.user_data = 1, .is_token = true};
    struct wulgach_sought one = {.user_data = 1}, nobody = {.user_data = 3}, any = {.is_any = true},
                          all = {.user_data = 1, .is_all = true};
    struct wulgach_sought fd = {.fd = 5, .is_by_fd = true},
                          file = {.fd = 9, .is_by_fd = true, .is_fixed = true};
    demand(look(&one, (bool[]){false, true, false}) == 0, "one by its user data");
    demand(look(&nobody, (bool[]){false, false, false}) == -2, "nobody");
    demand(look(&any, (bool[]){false, true, true}) == 2, "any");
    demand(look(&all, (bool[]){false, true, false}) == 1, "all by their user data");
    demand(look(&fd, (bool[]){false, true, false}) == 0, "one by its descriptor");
    demand(look(&file, (bool[]){false, false, true}) == 0, "one by its file");
    wulgach_cancel_begin(&cancel, &one);
    demand(wulgach_cancel_asks(&cancel, &waits), "it matters whether one that fits could start");
    waits.may_start = true;
    demand(wulgach_cancel_sees(&cancel, &waits) && !wulgach_cancel_asks(&cancel, &waits),
        "once one is found, it doesn't");
    seek();
    compare();
    printf("cancel: as called for\n");
    return 0;
}
