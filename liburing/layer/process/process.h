/* Which process and thread this is, and its signals. */
#ifndef PROCESS_H
#define PROCESS_H

#include <signal.h>
#include <stdbool.h>
#include <stdint.h>
#include <sys/types.h>

/* What stands on the page that the kernel empties, or 0: it isn't known; or NULL: there is no page.
 * The number of this process; and another that none has which it comes from by forks: of those in a
 * namespace of its own the first one has the number 1, as its parent may. */
struct kept_process {
    pid_t number;
    uint32_t image;
};
extern struct kept_process *kept_process;

/* Ask for these numbers, and keep them. */
pid_t ask_process(void);
uint32_t ask_image(void);

/* The number of this process, without a system call. In a child of vfork(), which has its parent's
 * memory, its parent's. */
static inline pid_t this_process(void)
{
    pid_t process = kept_process ? __atomic_load_n(&kept_process->number, __ATOMIC_RELAXED) : 0;
    return process ? process : ask_process();
}

/* By what this process is told from those that it comes from. */
static inline uint32_t this_image(void)
{
    uint32_t image = kept_process ? __atomic_load_n(&kept_process->image, __ATOMIC_RELAXED) : 0;
    return image ? image : ask_image();
}

/* Whether this is the process whose number was asked for so, and no child of its by vfork. */
bool is_known_process(void);

/* The number of this thread, asked for once. In a child of vfork(), its parent's. */
pid_t this_thread(void);

/* Blocks all signals, and lets those come again that came before. While a lock of the layer's is
 * held none may: whoever handles one may call too. */
void block_signals(sigset_t *before);
void allow_signals(const sigset_t *before);

#endif
