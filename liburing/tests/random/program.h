/* A random program: what an application does on its rings, one action after the other. Each action
 * stands by itself, so a program from which some are left out is a program too.
 */
#ifndef PROGRAM_H
#define PROGRAM_H

#include <stdbool.h>
#include <stdint.h>
#include <stdio.h>

#include <linux/io_uring.h>

enum { MOST_ACTIONS = 160, MOST_RINGS = 3, MOST_FAULTS = 4, MOST_VECTORS = 4, CELL = 64 };

/* The buffers that are provided with a ring, and the bytes of each. */
enum { PROVIDED = 4, PROVIDED_SIZE = 24 };

enum action_kind {
    NOTHING, /* it was left out; the others keep their numbers */
    PUT, /* publishes an entry */
    PUT_WORD, /* publishes an index word that names no slot */
    ENTER, /* calls io_uring_enter */
    REAP, /* reaps at most `count` of the completions that are there */
    FEED, /* writes `count` bytes to the pipe */
    END_FEED, /* closes the pipe's end for writing */
    FORK, /* has a child call on the ring, and then on one of its own */
    REOPEN, /* closes the ring, whatever is outstanding, and makes another */
    PROVIDE, /* provides at most `count` of the buffers again that were taken */
    UPDATE, /* takes OTHER_LOG out of the registered files, or puts it in again */
    SIP, /* reads at most `count` times 8 bytes of the pipe itself, if there are some */
    SILENCE /* says in the completion ring's flags that its eventfd is to be told nothing, or is
               again */
};

/* What an entry is about. Each ring has its own. */
enum object {
    LOG, /* a file that is read and written in the order of completions, and that grows */
    OTHER_LOG, /* another descriptor of the same file, which entries close */
    CELLS, /* a file of fixed length in which each entry has a part of its own, so that order
              doesn't matter */
    PIPE_OUT, /* the end of a pipe, or of a pair of sockets, that is read */
    PIPE_IN, /* and the one that is written */
    ZEROS, /* /dev/zero */
    NO_FILE, /* a descriptor that no file has */
    OBJECTS
};

/* What is wrong with an entry. The first five are faults, with which its request ends at once. */
enum flaw {
    NO_FLAW,
    BAD_CODE, /* an operation that isn't served */
    BAD_FLAG, /* a flag of the entry that isn't served */
    BAD_PRIORITY,
    BAD_POINTER, /* vectors or a time that can't be read */
    BAD_TIME, /* a negative one */
    BAD_DATA /* data that can't be read or written: found when the operation is carried out */
};

struct action {
    enum action_kind kind;
    uint8_t ring;
    /* An entry. */
    uint8_t code, flags; /* IORING_OP_.. and IOSQE_.. */
    enum object object;
    enum flaw flaw;
    uint8_t vectors; /* how many; of a plain read or write one */
    uint8_t sizes[MOST_VECTORS]; /* the bytes of each */
    bool is_impatient; /* a read of the pipe is asked not to wait */
    bool is_registered; /* its file is named by its number among the registered ones */
    uint8_t buffer; /* of READ_FIXED and WRITE_FIXED: the registered buffer that it names */
    int32_t offset; /* of LOG, -1 for the file's position; of CELLS, within the cell */
    uint16_t cell; /* the action whose cell it reads or writes */
    int64_t time; /* of a timeout, in nanoseconds */
    uint8_t tally; /* and how many completions end it too; 0: none do */
    bool is_success; /* it may end with success */
    uint8_t scope; /* of a cancel: IORING_ASYNC_CANCEL_ALL, FD and ANY; by its object, as a
                      registered file or not */
    uint16_t target; /* of a cancel or a removal: the action whose entry it is to find; of a
                        message: the ring */
    uint16_t
        turn; /* how far its slot is from the next in order, or of a word, from the last slot */
    /* A call. */
    int16_t excess; /* how many more it asks for than are published */
    uint16_t min_complete;
    bool is_getting, has_mask;
    int64_t limit; /* in nanoseconds, or negative */
    uint16_t count;
};

struct fault {
    uint8_t ring, number;
    uint8_t kind; /* one of FAULT_.. */
};

enum { NO_FAULT, FAULT_EIO, FAULT_ENOSPC, FAULT_SHORT };

/* The eventfd that is registered: it is told of all completions, or of what ends after the call
 * that submitted it. */
enum telling { NO_EVENTFD, OF_ALL, OF_LATER };

struct ring_options {
    uint16_t entries, completions; /* completions: 0 for twice the entries */
    uint32_t flags;
    bool is_polled;
    bool has_registered; /* files, buffers and provided buffers */
    bool has_sockets; /* in the pipe's place */
    enum telling telling;
};

struct program {
    uint64_t seed;
    char policy[32];
    bool is_ends; /* one choice for issuing and finishing */
    bool is_plain; /* it asks for no more than the kernel promises */
    bool is_manual; /* its rings go by the manual pages' rules, and not by Linux's */
    bool has_drains; /* by Linux's rules: drains that aren't refused */
    bool is_threaded; /* each ring is used by a thread of its own */
    bool has_messages; /* rings send messages to one another */
    bool has_scopes; /* cancels have flags: so each end is seen */
    uint16_t fault_rate;
    uint16_t timeout_rate; /* time passes by choice, before anything else goes on */
    uint8_t fault_count, ring_count;
    struct fault faults[MOST_FAULTS];
    struct ring_options rings[MOST_RINGS];
    uint16_t count;
    struct action actions[MOST_ACTIONS];
};

/* Whether an entry reads into memory, writes from it, or does either with several vectors. */
static inline bool is_read(const struct action *action)
{
    uint8_t code = action->code;
    return code == IORING_OP_READ || code == IORING_OP_READV || code == IORING_OP_READ_FIXED ||
           code == IORING_OP_RECV;
}

static inline bool is_write(const struct action *action)
{
    uint8_t code = action->code;
    return code == IORING_OP_WRITE || code == IORING_OP_WRITEV || code == IORING_OP_WRITE_FIXED ||
           code == IORING_OP_SEND;
}

static inline bool is_vectored(const struct action *action)
{
    return action->code == IORING_OP_READV || action->code == IORING_OP_WRITEV;
}

static inline bool is_in_registered_memory(const struct action *action)
{
    return action->code == IORING_OP_READ_FIXED || action->code == IORING_OP_WRITE_FIXED;
}

static inline bool is_of_sockets(const struct action *action)
{
    return action->code == IORING_OP_SEND || action->code == IORING_OP_RECV;
}

static inline bool is_selecting(const struct action *action)
{
    return action->flags & IOSQE_BUFFER_SELECT;
}

/* The registered buffer in which an action's memory lies: the first half of the actions have one,
 * the others the other. */
static inline uint8_t buffer_of(unsigned index)
{
    return index >= MOST_ACTIONS / 2;
}

/* ---- generate.c ---- */

/* Makes the program of a seed. */
void generate(struct program *program, uint64_t seed);

/* ---- print.c ---- */

void print_program(FILE *out, const struct program *program);

/* Puts policy and faults into the environment, as the layer reads them. */
void set_environment(const struct program *program);

static inline uint32_t length_of(const struct action *action)
{
    uint32_t length = 0;
    for (int i = 0; i < action->vectors; i++)
        length += action->sizes[i];
    return length;
}

#endif
