/* Which process and which thread this is, and its signals.
 *
 * The kernel empties a page of the layer's in each child, however that was forked: so a number that
 * stands in it is still this process's, and needn't be asked for at each call.
 */
#define _GNU_SOURCE
#include "process/process.h"

#include <sys/mman.h>
#include <unistd.h>

#ifndef MADV_WIPEONFORK
#define MADV_WIPEONFORK 18
#endif

struct kept_process *kept_process;

__attribute__((constructor)) static void make_page(void)
{
    size_t size = (size_t)sysconf(_SC_PAGESIZE);
    void *page = mmap(NULL, size, PROT_READ | PROT_WRITE, MAP_PRIVATE | MAP_ANONYMOUS, -1, 0);
    if (page == MAP_FAILED)
        return;
    if (madvise(page, size, MADV_WIPEONFORK) == 0)
        kept_process = page;
    else
        munmap(page, size);
}

__attribute__((noinline)) pid_t ask_process(void)
{
    pid_t process = getpid();
    if (kept_process)
        __atomic_store_n(&kept_process->number, process, __ATOMIC_RELAXED);
    return process;
}

/* (of threads that ask at once the first says which) */
__attribute__((noinline)) uint32_t ask_image(void)
{
    static uint32_t asked; /* how often, in this process and in those that it comes from */
    uint32_t none = 0, image = __atomic_add_fetch(&asked, 1, __ATOMIC_RELAXED);
    if (!kept_process)
        return (uint32_t)getpid();
    return __atomic_compare_exchange_n(
               &kept_process->image, &none, image, false, __ATOMIC_RELAXED, __ATOMIC_RELAXED)
               ? image
               : none;
}

/* A child of vfork has the very page of its parent, and leaves it as it is. */
bool is_known_process(void)
{
    return kept_process && __atomic_load_n(&kept_process->number, __ATOMIC_RELAXED) == getpid();
}

/* A forked child has the memory of the thread that forked it. */
pid_t this_thread(void)
{
    static __thread struct {
        uint32_t image;
        pid_t thread;
    } own;
    if (own.image != this_image()) {
        own.image = this_image();
        own.thread = gettid();
    }
    return own.thread;
}

void block_signals(sigset_t *before)
{
    sigset_t all;
    sigfillset(&all);
    pthread_sigmask(SIG_BLOCK, &all, before);
}

void allow_signals(const sigset_t *before)
{
    pthread_sigmask(SIG_SETMASK, before, NULL);
}
