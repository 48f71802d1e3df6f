/* Says a program in words, and tells the layer its policy and its faults. */
#define _GNU_SOURCE
#include "program.h"

#include <inttypes.h>
#include <linux/io_uring.h>
#include <stdlib.h>
#include <string.h>

static const char *code_name(uint8_t code)
{
    static const char *const names[] = {
        [IORING_OP_NOP] = "no-op",
        [IORING_OP_READV] = "readv",
        [IORING_OP_WRITEV] = "writev",
        [IORING_OP_FSYNC] = "fsync",
        [IORING_OP_SYNC_FILE_RANGE] = "sync_file_range",
        [IORING_OP_TIMEOUT] = "timeout",
        [IORING_OP_ASYNC_CANCEL] = "cancel",
        [IORING_OP_FALLOCATE] = "fallocate",
        [IORING_OP_CLOSE] = "close",
        [IORING_OP_READ] = "read",
        [IORING_OP_WRITE] = "write",
        [IORING_OP_FADVISE] = "fadvise",
        [IORING_OP_READ_FIXED] = "read_fixed",
        [IORING_OP_WRITE_FIXED] = "write_fixed",
        [IORING_OP_RECV] = "recv",
        [IORING_OP_SEND] = "send",
        [IORING_OP_POLL_ADD] = "poll",
        [IORING_OP_POLL_REMOVE] = "removal of a poll",
        [IORING_OP_TIMEOUT_REMOVE] = "removal of a timeout",
        [IORING_OP_LINK_TIMEOUT] = "linked timeout",
        [IORING_OP_MSG_RING] = "message",
    };
    return code < sizeof names / sizeof *names && names[code] ? names[code] : "operation";
}

static void print_transfer(FILE *out, const struct action *action)
{
    fprintf(out, " at %" PRId32, action->offset);
    if (action->object == CELLS)
        fprintf(out, " of cell %u", action->cell);
    if (action->is_impatient)
        fputs(" without waiting", out);
    if (is_in_registered_memory(action))
        fprintf(out, ", buffer %u", action->buffer);
    if (is_selecting(action))
        fputs(", into a provided buffer", out);
    for (int i = 0; i < action->vectors; i++)
        fprintf(out, "%s%u", i ? "+" : ", bytes ", action->sizes[i]);
}

static const char *const objects[] = {
    "log", "other log", "cells", "pipe", "pipe", "zeros", "no file"};

static void print_scope(FILE *out, const struct action *action)
{
    bool is_all = action->scope & IORING_ASYNC_CANCEL_ALL;
    if (action->scope & IORING_ASYNC_CANCEL_ANY)
        fputs(is_all ? " of all" : " of any", out);
    else if (action->scope & IORING_ASYNC_CANCEL_FD)
        fprintf(out, " of %s on %s %s", is_all ? "all" : "one", objects[action->object],
            action->object == PIPE_IN ? "to write" : "");
    else
        fprintf(out, "%s of %u", is_all ? " of all" : "", action->target);
}

static void print_entry(FILE *out, const struct action *action)
{
    static const char *const flaws[] = {"", ", bad code", ", bad flag", ", bad priority",
        ", bad pointer", ", bad time", ", bad data"};
    fprintf(out, "put %s", code_name(action->code));
    switch (action->code) {
    case IORING_OP_TIMEOUT:
    case IORING_OP_LINK_TIMEOUT:
        fprintf(out, " of %" PRId64 " ns%s", action->time, action->is_success ? ", a success" : "");
        if (action->tally)
            fprintf(out, ", or %u completions", action->tally);
        break;
    case IORING_OP_MSG_RING:
        fprintf(out, " to ring %u", action->target);
        break;
    case IORING_OP_ASYNC_CANCEL:
        print_scope(out, action);
        break;
    case IORING_OP_POLL_REMOVE:
    case IORING_OP_TIMEOUT_REMOVE:
        fprintf(out, " of %u", action->target);
        break;
    case IORING_OP_NOP:
        break;
    default:
        fprintf(out, " of %s", objects[action->object]);
    }
    if (is_read(action) || is_write(action))
        print_transfer(out, action);
    if (action->is_registered)
        fputs(", registered", out);
    fputs(flaws[action->flaw], out);
    static const char letters[] = "FDLHAB S";
    fputs(", flags ", out);
    for (int bit = 1; bit < 7; bit++)
        if (action->flags & 1 << bit)
            fputc(bit == 6 ? 'S' : letters[bit], out);
    if (action->turn)
        fprintf(out, ", slot +%u", action->turn);
}

static void print_action(FILE *out, const struct action *action)
{
    switch (action->kind) {
    case NOTHING:
        break;
    case PUT:
        print_entry(out, action);
        break;
    case PUT_WORD:
        fputs("put a word that names no slot", out);
        break;
    case ENTER:
        fprintf(out, "enter, all and %d", action->excess);
        if (action->is_getting)
            fprintf(out, ", for %u", action->min_complete);
        if (action->is_getting && action->limit >= 0)
            fprintf(out, ", at most %" PRId64 " ns", action->limit);
        if (action->has_mask)
            fputs(", with a mask", out);
        break;
    case REAP:
        fprintf(out, "reap %u", action->count);
        break;
    case FEED:
        fprintf(out, "feed %u bytes", action->count);
        break;
    case END_FEED:
        fputs("end the feed", out);
        break;
    case FORK:
        fputs("fork", out);
        break;
    case REOPEN:
        fputs("close, and open another", out);
        break;
    case PROVIDE:
        fprintf(out, "provide %u buffers again", action->count);
        break;
    case UPDATE:
        fputs("register the other log, or don't any more", out);
        break;
    case SIP:
        fprintf(out, "read %u bytes of the pipe", action->count * 8u);
        break;
    case SILENCE:
        fputs("tell the eventfd nothing, or again", out);
        break;
    }
}

void print_program(FILE *out, const struct program *program)
{
    static const char *const kinds[] = {"", "EIO", "ENOSPC", "SHORT"};
    fprintf(out, "seed %" PRIu64 ": policy %s, %s, by the %s rules", program->seed, program->policy,
        program->is_ends ? "ends" : "events", program->is_manual ? "manual pages'" : "kernel's");
    fprintf(out, "%s%s", program->is_plain ? ", plain" : "",
        program->is_threaded ? ", a thread for each ring" : "");
    if (program->fault_rate)
        fprintf(out, ", faults one in %u", program->fault_rate);
    if (program->timeout_rate)
        fprintf(out, ", time passes one in %u", program->timeout_rate);
    for (int i = 0; i < program->fault_count; i++)
        fprintf(out, ", fault %u:%u=%s", program->faults[i].ring, program->faults[i].number,
            kinds[program->faults[i].kind]);
    fputc('\n', out);
    for (int i = 0; i < program->ring_count; i++) {
        const struct ring_options *ring = &program->rings[i];
        static const char *const tellings[] = {
            "", ", an eventfd", ", an eventfd of what ends later"};
        fprintf(out, "  ring %d: %u entries, %u completions, flags %#x%s%s%s%s\n", i, ring->entries,
            ring->completions, ring->flags, ring->is_polled ? ", polls" : "",
            ring->has_registered ? ", with files and buffers" : "",
            ring->has_sockets ? ", sockets" : "", tellings[ring->telling]);
    }
    for (int i = 0; i < program->count; i++) {
        if (program->actions[i].kind == NOTHING)
            continue;
        fprintf(out, "  %3d ring %u: ", i, program->actions[i].ring);
        print_action(out, &program->actions[i]);
        fputc('\n', out);
    }
}

void set_environment(const struct program *program)
{
    static const char *const kinds[] = {"", "EIO", "ENOSPC", "SHORT"};
    char text[128] = "";
    setenv("WULGACH_POLICY", program->policy, 1);
    setenv("WULGACH_CHOOSE", program->is_ends ? "ends" : "events", 1);
    setenv("WULGACH_PROFILE", program->is_manual ? "manual" : "linux", 1);
    for (int i = 0; i < program->fault_count; i++) {
        const struct fault *fault = &program->faults[i];
        snprintf(text + strlen(text), sizeof text - strlen(text), "%s%u:%u=%s", i ? "," : "",
            fault->ring, fault->number, kinds[fault->kind]);
    }
    setenv("WULGACH_FAULTS", text, 1);
    snprintf(text, sizeof text, "%u", program->fault_rate);
    setenv("WULGACH_FAULT_RATE", program->fault_rate ? text : "", 1);
    snprintf(text, sizeof text, "%u", program->timeout_rate);
    setenv("WULGACH_TIMEOUTS", program->timeout_rate ? text : "", 1);
}
