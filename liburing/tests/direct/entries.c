/* Which entries Linux refuses, with which number, the layer refuses too: the same entry is given to
 * a real ring and to the layer, each operation as it should be and with one field changed, and then
 * with two, and what the call and the request end with is the same. What differs, and is known to,
 * stands in the table at the end, with the reason; docs/LIBURING.md tells of each.
 *
 *   entries [PAIRS]          with so many entries of two changes; status 1 if a difference isn't
 *                            known. Status 0 also where the kernel makes no rings, or isn't Linux
 *                            6.18, of which the table is: a line says so
 */
#define _GNU_SOURCE
#include <errno.h>
#include <fcntl.h>
#include <ftw.h>
#include <stdarg.h>
#include <stdbool.h>
#include <stdlib.h>
#include <string.h>
#include <sys/mman.h>
#include <sys/stat.h>
#include <sys/syscall.h>
#include <sys/utsname.h>
#include <sys/wait.h>
#include <unistd.h>

#include "real.h"
#include "entries.h"

/* ---- what is changed of it ---- */

enum field {
    NOTHING,
    FLAGS,
    SLOT_OF,
    PRIORITY,
    FD,
    OFF,
    OFF_OR,
    ADDR,
    LEN,
    OWN,
    BUFFER,
    PERSONALITY,
    SLOT,
    THIRD,
    THIRD_OR,
    PAD
};

static const char *const names[] = {"as it should be", "flags", "a slot", "ioprio", "fd", "off",
    "off with", "addr", "len", "its flags with", "buf_index", "personality", "file_index", "addr3",
    "addr3 with", "pad"};

struct change {
    enum field field;
    uint64_t value;
};

static void make_change(struct io_uring_sqe *entry, struct change change)
{
    switch (change.field) {
    case NOTHING:
        break;
    case FLAGS:
        entry->flags |= (uint8_t)change.value;
        break;
    case SLOT_OF:
        entry->flags |= IOSQE_FIXED_FILE;
        entry->fd = (int)change.value;
        break;
    case PRIORITY:
        entry->ioprio = (uint16_t)change.value;
        break;
    case FD:
        entry->fd = (int)change.value;
        break;
    case OFF:
        entry->off = change.value;
        break;
    case OFF_OR:
        entry->off |= change.value;
        break;
    case ADDR:
        entry->addr = change.value;
        break;
    case LEN:
        entry->len = (uint32_t)change.value;
        break;
    case OWN:
        entry->rw_flags |= (int)change.value;
        break;
    case BUFFER:
        entry->buf_index = (uint16_t)change.value;
        break;
    case PERSONALITY:
        entry->personality = (uint16_t)change.value;
        break;
    case SLOT:
        entry->file_index = (uint32_t)change.value;
        break;
    case THIRD:
        entry->addr3 = change.value;
        break;
    case THIRD_OR:
        entry->addr3 |= change.value;
        break;
    case PAD:
        entry->__pad2[0] = change.value;
        break;
    }
}

static const struct change changes[] = {
    {NOTHING, 0},
    {FLAGS, 1},
    {FLAGS, 16},
    {FLAGS, 32},
    {FLAGS, 64},
    {FLAGS, 128},
    {SLOT_OF, 0},
    {SLOT_OF, 1},
    {SLOT_OF, 5},
    {PRIORITY, 1},
    {PRIORITY, 2},
    {PRIORITY, 3},
    {PRIORITY, 4},
    {PRIORITY, 8},
    {PRIORITY, 16},
    {PRIORITY, 0x2000},
    {PRIORITY, 0x6000},
    {PRIORITY, 0x8000},
    {FD, UINT64_MAX},
    {FD, 9999},
    {FD, 0x7fffffff},
    {FD, (uint64_t)-100},
    {OFF, 0},
    {OFF, 1},
    {OFF, 4096},
    {OFF, 1ull << 31},
    {OFF, 1ull << 32},
    {OFF, 1ull << 63},
    {OFF, UINT64_MAX},
    {OFF_OR, 1ull << 32},
    {OFF_OR, 1ull << 40},
    {ADDR, 0},
    {ADDR, 1},
    {ADDR, 1ull << 47},
    {ADDR, (1ull << 47) - 4096 - 16},
    {ADDR, (1ull << 47) - 4096 - 15},
    {ADDR, 1ull << 63},
    {ADDR, UINT64_MAX},
    {LEN, 0},
    {LEN, 1},
    {LEN, 2},
    {LEN, 3},
    {LEN, 4},
    {LEN, 23},
    {LEN, 24},
    {LEN, 1025},
    {LEN, 65537},
    {LEN, 0x80000000},
    {LEN, 0xffffffff},
    {OWN, 1u << 0},
    {OWN, 1u << 1},
    {OWN, 1u << 2},
    {OWN, 1u << 3},
    {OWN, 1u << 4},
    {OWN, 1u << 5},
    {OWN, 1u << 6},
    {OWN, 1u << 7},
    {OWN, 1u << 8},
    {OWN, 1u << 9},
    {OWN, 1u << 10},
    {OWN, 1u << 11},
    {OWN, 1u << 12},
    {OWN, 1u << 15},
    {OWN, 1u << 16},
    {OWN, 1u << 19},
    {OWN, 1u << 20},
    {OWN, 1u << 24},
    {OWN, 1u << 30},
    {OWN, 1u << 31},
    {OWN, 3},
    {OWN, 6},
    {OWN, 12},
    {OWN, 18},
    {BUFFER, 1},
    {BUFFER, 65535},
    {PERSONALITY, 1},
    {SLOT, 1},
    {SLOT, 3},
    {SLOT, 9},
    {SLOT, 65536},
    {SLOT, 0x80000000},
    {SLOT, 0xffffffff},
    {THIRD, 1},
    {THIRD_OR, 1ull << 40},
    {PAD, 1},
    {PAD, 2},
};

enum { CHANGES = sizeof changes / sizeof *changes };

/* ---- both are asked ---- */

enum { MOST_ROWS = 4 };

struct answer {
    bool is_there;
    int32_t taken;
    uint32_t count;
    struct {
        uint64_t user_data;
        int32_t res;
    } rows[MOST_ROWS];
};

/* Shared with the process that asks. */
static struct answer *answer;

static bool gives_descriptor(uint8_t code)
{
    return code == IORING_OP_ACCEPT || code == IORING_OP_OPENAT || code == IORING_OP_OPENAT2 ||
           code == IORING_OP_SOCKET || code == FIXED_FD_INSTALL;
}

/* Puts a result after those of lower user data: which of a chain's members posts first isn't asked
 * here, nor what else a send without copies posts. */
static void insert(uint64_t user_data, int32_t res)
{
    uint32_t place = answer->count++;
    for (; place > 0 && answer->rows[place - 1].user_data > user_data; place--)
        answer->rows[place] = answer->rows[place - 1];
    answer->rows[place].user_data = user_data;
    answer->rows[place].res = res;
}

static void note(struct ring *ring, uint8_t code)
{
    unsigned *head = cq_word(ring, ring->params.cq_off.head);
    const struct io_uring_cqe *cells = (const void *)(ring->cq + ring->params.cq_off.cqes);
    while (count_ready(ring) > 0 && answer->count < MOST_ROWS) {
        const struct io_uring_cqe *cell = &cells[*head & (ring->params.cq_entries - 1)];
        if (!(cell->flags & IORING_CQE_F_NOTIF))
            insert(cell->user_data,
                gives_descriptor(code) && cell->res > 2 ? A_DESCRIPTOR : cell->res);
        __atomic_store_n(head, *head + 1, __ATOMIC_RELEASE);
    }
}

/* A worker of the kernel's may take its time: this many times as long as on a quiet machine. */
static int slowness = 1;

/* Asks with one entry; a linked timeout stands after what it limits, a read that waits. */
static void ask_with(uint8_t code, struct change one, struct change other)
{
    struct ring ring;
    make_ring(&ring, 8, 0, 0);
    make_ring(&at.other, 8, 0, 0);
    /* (a kernel may not ask whether what is to be bound is a socket) */
    int slots[8] = {
        code == BIND || code == LISTEN ? at.socket : at.file, at.socket, -1, -1, -1, -1, -1, -1};
    struct iovec buffer = {at.bytes, 4096};
    struct io_uring_buf_reg cells = {
        .ring_addr = (uintptr_t)at.cells, .ring_entries = 2, .bgid = AT_CELLS};
    check(register_at(ring.fd, IORING_REGISTER_FILES, slots, 8) == 0 &&
          register_at(ring.fd, IORING_REGISTER_BUFFERS, &buffer, 1) == 0);
    check(register_at(ring.fd, IORING_REGISTER_PBUF_RING, &cells, 1) == 0);
    unsigned count = 1;
    if (code == IORING_OP_LINK_TIMEOUT) {
        put_transfer(&ring, IORING_OP_READ, 2, IOSQE_IO_LINK, at.waits, at.bytes, 1, 0);
        count = 2;
    }
    struct io_uring_sqe entry = entry_of(code);
    make_change(&entry, one);
    make_change(&entry, other);
    *put(&ring, 0, 0, 0) = entry;
    answer->taken = (int32_t)enter(&ring, count, 0, 0);
    enter_for(
        &ring, count, slowness * (entry.flags & IOSQE_CQE_SKIP_SUCCESS ? 30000000ll : 500000000ll));
    note(&ring, code);
    answer->is_there = true;
}

static char room[] = "/tmp/entries.XXXXXX";

/* In a process of its own, which an entry may end. */
static struct answer answer_to(uint8_t code, struct change one, struct change other)
{
    static unsigned number;
    char folder[64];
    snprintf(folder, sizeof folder, "%s/%u", room, number++);
    *answer = (struct answer){0};
    pid_t child = fork();
    check(child >= 0);
    if (child == 0) {
        alarm((unsigned)(PATIENCE * patience()));
        make_all(folder);
        ask_with(code, one, other);
        _exit(0);
    }
    check(waitpid(child, NULL, 0) == child);
    return *answer;
}

static bool is_same(const struct answer *one, const struct answer *other)
{
    return memcmp(one, other, sizeof *one) == 0;
}

static void say_answer(const struct answer *it)
{
    if (!it->is_there)
        printf(" ended");
    for (uint32_t i = 0; i < it->count; i++)
        printf(" %d", (int)it->rows[i].res);
    printf(" (%d taken)", (int)it->taken);
}

static void say_difference(uint8_t code, struct change one, struct change other,
    const struct answer *real, const struct answer *here)
{
    printf("operation %u, %s %llx, %s %llx: the kernel", code, names[one.field],
        (unsigned long long)one.value, names[other.field], (unsigned long long)other.value);
    say_answer(real);
    printf(", the layer");
    say_answer(here);
    printf("\n");
}

/* ---- what is known to differ ---- */

/* A change of this field whose value has one of these bits, or any. */
static const struct known {
    uint8_t code;
    enum field field;
    uint64_t bits;
} known[] = {
    /* RWF_HIPRI (1), RWF_NOWAIT (8) and flags that there aren't are found as a transfer is carried
     * out, by preadv2(2) and pwritev2(2), and so is an offset, where there are any; an attribute
     * isn't served. */
    {IORING_OP_READV, OWN, 0x209},
    {IORING_OP_WRITEV, OWN, 0x209},
    {IORING_OP_READ_FIXED, OWN, 0x209},
    {IORING_OP_WRITE_FIXED, OWN, 0x209},
    {IORING_OP_READ, OWN, 0x209},
    {IORING_OP_WRITE, OWN, 0x209},
    {READ_MULTISHOT, OWN, 9},
    {IORING_OP_READV, OFF, 1ull << 63},
    {IORING_OP_WRITEV, OFF, 1ull << 63},
    {IORING_OP_READ_FIXED, OFF, 1ull << 63},
    {IORING_OP_WRITE_FIXED, OFF, 1ull << 63},
    {IORING_OP_READ, OFF, 1ull << 63},
    {IORING_OP_WRITE, OFF, 1ull << 63},
    {IORING_OP_READV, PAD, 1},
    {IORING_OP_WRITEV, PAD, 1},
    {IORING_OP_READ_FIXED, PAD, 1},
    {IORING_OP_WRITE_FIXED, PAD, 1},
    {IORING_OP_READ, PAD, 1},
    {IORING_OP_WRITE, PAD, 1},
    {READ_MULTISHOT, PAD, 1},
    /* How much of a write that is longer than its buffer is moved depends on what stands after
       that. */
    {IORING_OP_WRITE, LEN, 0x80000000},
    /* sendmsg(2) and recvmsg(2) refuse MSG_CMSG_COMPAT. */
    {IORING_OP_SENDMSG, OWN, 1u << 31},
    {IORING_OP_RECVMSG, OWN, 1u << 31},
    {IORING_OP_SEND, OWN, 1u << 31},
    {IORING_OP_RECV, OWN, 1u << 31},
    {IORING_OP_SEND_ZC, OWN, 1u << 31},
    {IORING_OP_SENDMSG_ZC, OWN, 1u << 31},
    /* What isn't served: timeouts that go on, an accept that doesn't wait or waits first, other
       cancels, bundles, a send from provided buffers, registered vectors. */
    {IORING_OP_TIMEOUT, OWN, 1u << 6},
    {IORING_OP_LINK_TIMEOUT, OWN, 1u << 6},
    {IORING_OP_ACCEPT, PRIORITY, 6},
    {IORING_OP_ASYNC_CANCEL, OWN, 48},
    {IORING_OP_SEND, PRIORITY, 16},
    {IORING_OP_RECV, PRIORITY, 16},
    {IORING_OP_SEND, FLAGS, IOSQE_BUFFER_SELECT},
    {IORING_OP_SENDMSG_ZC, PRIORITY, 4},
    /* A send without copies is served by any socket, also one that refuses it there. */
    {IORING_OP_SEND_ZC, SLOT_OF, 1},
    {IORING_OP_SENDMSG_ZC, SLOT_OF, 1},
    /* A failure that skips its success posts nothing there. */
    {IORING_OP_FSYNC, FLAGS, IOSQE_CQE_SKIP_SUCCESS},
    {IORING_OP_SYNC_FILE_RANGE, FLAGS, IOSQE_CQE_SKIP_SUCCESS},
    {IORING_OP_FALLOCATE, FLAGS, IOSQE_CQE_SKIP_SUCCESS},
    {IORING_OP_MADVISE, FLAGS, IOSQE_CQE_SKIP_SUCCESS},
    {IORING_OP_STATX, FLAGS, IOSQE_CQE_SKIP_SUCCESS},
    {IORING_OP_SHUTDOWN, FLAGS, IOSQE_CQE_SKIP_SUCCESS},
    {IORING_OP_RENAMEAT, FLAGS, IOSQE_CQE_SKIP_SUCCESS},
    {IORING_OP_UNLINKAT, FLAGS, IOSQE_CQE_SKIP_SUCCESS},
    {IORING_OP_MKDIRAT, FLAGS, IOSQE_CQE_SKIP_SUCCESS},
    {IORING_OP_SYMLINKAT, FLAGS, IOSQE_CQE_SKIP_SUCCESS},
    {IORING_OP_LINKAT, FLAGS, IOSQE_CQE_SKIP_SUCCESS},
    {IORING_OP_FSETXATTR, FLAGS, IOSQE_CQE_SKIP_SUCCESS},
    {IORING_OP_SETXATTR, FLAGS, IOSQE_CQE_SKIP_SUCCESS},
    {IORING_OP_FGETXATTR, FLAGS, IOSQE_CQE_SKIP_SUCCESS},
    {IORING_OP_GETXATTR, FLAGS, IOSQE_CQE_SKIP_SUCCESS},
    {FTRUNCATE, FLAGS, IOSQE_CQE_SKIP_SUCCESS},
    /* A provided buffer is looked for before a file. */
    {IORING_OP_READ, FLAGS, IOSQE_BUFFER_SELECT},
    {IORING_OP_READV, FLAGS, IOSQE_BUFFER_SELECT},
    {IORING_OP_RECV, FLAGS, IOSQE_BUFFER_SELECT},
    {IORING_OP_RECVMSG, FLAGS, IOSQE_BUFFER_SELECT},
};

static bool is_known(uint8_t code, struct change change)
{
    for (size_t i = 0; i < sizeof known / sizeof *known; i++)
        if (known[i].code == code && known[i].field == change.field &&
            (known[i].bits == 0 || change.value & known[i].bits))
            return true;
    return false;
}

/* ---- all of them ---- */

static unsigned asked, differing, unknown;

static void compare(uint8_t code, struct change one, struct change other)
{
    struct answer real, here;
    for (slowness = 1; slowness <= 64; slowness *= 8) {
        is_real = true;
        real = answer_to(code, one, other);
        is_real = false;
        here = answer_to(code, one, other);
        if (is_same(&real, &here) || is_known(code, one) || is_known(code, other))
            break;
    }
    asked++;
    if (is_same(&real, &here))
        return;
    differing++;
    if (is_known(code, one) || is_known(code, other))
        return;
    unknown++;
    say_difference(code, one, other, &real, &here);
}

static int remove_one(const char *path, const struct stat *status, int kind, struct FTW *way)
{
    (void)status, (void)kind, (void)way;
    return remove(path);
}

/* Entries of two changes of which the order of faults was found to matter. */
static const struct {
    uint8_t code;
    struct change one, other;
} met[] = {
    {IORING_OP_OPENAT2, {FLAGS, 1}, {LEN, 23}},
    {IORING_OP_OPENAT2, {FLAGS, 1}, {OFF, 1}},
    {IORING_OP_OPENAT2, {FLAGS, 1}, {LEN, 65537}},
    {IORING_OP_OPENAT2, {FLAGS, 1}, {ADDR, 1}},
    {IORING_OP_OPENAT2, {BUFFER, 1}, {LEN, 23}},
    {IORING_OP_OPENAT2, {BUFFER, 1}, {OFF, 1}},
    {IORING_OP_OPENAT2, {BUFFER, 1}, {FLAGS, 1}},
    {FTRUNCATE, {FD, 9999}, {OFF, 1ull << 63}},
    {FTRUNCATE, {SLOT_OF, 5}, {OFF, 1ull << 63}},
    {FTRUNCATE, {FD, 9999}, {OFF, UINT64_MAX}},
};

static bool is_served(uint8_t code)
{
    return code != IORING_OP_URING_CMD && (code <= READ_MULTISHOT || code >= FIXED_FD_INSTALL);
}

/* Whether the kernel is the one of which is told what differs. */
static bool is_told_of(void)
{
    struct utsname name;
    return uname(&name) == 0 && strncmp(name.release, "6.18.", 5) == 0;
}

int main(int count, char **words)
{
    struct io_uring_params params = {0};
    unsigned pairs = count > 1 ? (unsigned)atoi(words[1]) : 0;
    is_real = true;
    long fd = set_up(1, &params);
    if (fd < 0) {
        printf("entries: this kernel makes no rings\n");
        return 0;
    }
    close((int)fd);
    setvbuf(stdout, NULL, _IOLBF, 0);
    answer = mmap(NULL, sizeof *answer, PROT_READ | PROT_WRITE, MAP_SHARED | MAP_ANONYMOUS, -1, 0);
    check(answer != MAP_FAILED && mkdtemp(room));
    for (unsigned code = 0; code <= LAST_OPERATION; code++)
        for (size_t i = 0; is_served((uint8_t)code) && i < CHANGES; i++)
            compare((uint8_t)code, changes[i], changes[0]);
    for (size_t i = 0; i < sizeof met / sizeof *met; i++)
        compare(met[i].code, met[i].one, met[i].other);
    srand(7);
    for (unsigned i = 0; i < pairs; i++) {
        unsigned code = (unsigned)rand() % (LAST_OPERATION + 1);
        struct change one = changes[1 + rand() % (CHANGES - 1)],
                      other = changes[1 + rand() % (CHANGES - 1)];
        if (is_served((uint8_t)code))
            compare((uint8_t)code, one, other);
    }
    nftw(room, remove_one, 16, FTW_DEPTH | FTW_PHYS);
    printf("entries: %u of %u differ, as is known of all but %u%s\n", differing, asked, unknown,
        is_told_of() ? "" : ", and this isn't Linux 6.18");
    return unknown > 0 && is_told_of();
}
