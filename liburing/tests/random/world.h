/* A ring of a program that runs, with the files, the pipe and the memory that its entries are
 * about. */
#ifndef WORLD_H
#define WORLD_H

#include "model.h"
#include "rings.h"
#include "run.h"

#include <sys/uio.h>

struct world {
    const struct program *program;
    unsigned index; /* the ring's in the program */
    bool is_kernel;
    struct outcome *outcome;
    struct ring ring;
    struct model model;
    struct things things;
    struct vectors data[MOST_ACTIONS];
    uint8_t provided[PROVIDED][PROVIDED_SIZE];
    struct io_uring_buf_ring *provided_ring; /* where they are provided */
    bool is_provided[PROVIDED];
    struct iovec vectors[MOST_ACTIONS][MOST_VECTORS];
    struct __kernel_timespec times[MOST_ACTIONS];
    int fds[OBJECTS];
    int feed; /* the pipe's end for the application, or negative */
    int telling; /* the eventfd, or 0 */
    bool is_silenced; /* it is to be told nothing */
    bool *is_used; /* slots that a published position names */
    int32_t slots[MOST_ACTIONS]; /* the slot of each position, or negative */
    uint32_t seen; /* completions that the model has seen */
    struct completion shown[2 * MOST_ACTIONS]; /* what they were, by position */
    struct world *others; /* all rings of the program */
};

/* Makes the files, the pipe and the ring, and looks at them at the end. */
void make_world(struct world *world);
void make_world_ring(struct world *world);
void judge_world(struct world *world);

/* Writes an entry of an action. */
void write_entry(struct world *world, struct io_uring_sqe *entry, unsigned index);

/* Carries an action out; and goes on until nothing is outstanding, after which a wait for one more
 * is in vain. */
void act(struct world *world, unsigned index);
void finish(struct world *world);

/* Spoils what the application may reuse once a position is taken. */
void spoil(struct world *world, uint32_t position);

/* Provides a buffer again, if the application has it. */
bool provide(struct world *world, unsigned buffer);

/* Takes OTHER_LOG out of the registered files, or puts it in again. */
void update_files(struct world *world);

/* How often the eventfd was told after a call; and has it told nothing, or again. */
void look_at_telling(struct world *world);
void silence(struct world *world);

/* Writes bytes to the pipe, if its end is open; reads some that are there; and closes that end. */
void feed(struct world *world, uint32_t count);
void sip(struct world *world, uint32_t count);
void end_feed(struct world *world);

#endif
