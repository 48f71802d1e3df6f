/* Random registrations: of files, buffers, lists of buffers, eventfds and rings, beside operations
 * that use them. */
#include "dice.h"

static _Alignas(4096) struct io_uring_buf lists[2][16];
static int rows[8];
static uint64_t tags[8];
static struct iovec vectors[8];

static void fill_rows(void)
{
    for (int i = 0; i < 8; i++) {
        rows[i] = any_file();
        tags[i] = once_in(3) ? next_tag++ : 0;
        unsigned kind = dice(12);
        vectors[i].iov_base = kind == 0 || kind == 3 ? NULL
                              : kind == 1            ? (void *)16
                              : kind == 2            ? memory[7] + 100
                                                     : memory[dice(7)];
        vectors[i].iov_len = kind == 0 || once_in(9) ? 0 : 1 + dice(4000);
    }
}

static void register_table(bool has_files, bool has_tags, unsigned count)
{
    void *data = dice(8) ? has_files ? (void *)rows : vectors : NULL;
    struct io_uring_rsrc_register it = {.nr = count,
        .data = (uintptr_t)data,
        .tags = dice(2) ? (uintptr_t)tags : 0,
        .resv2 = once_in(10)};
    it.flags = once_in(20) ? 2 : once_in(5);
    if (it.flags == 1 && dice(2))
        it.data = 0;
    unsigned code = has_files ? IORING_REGISTER_FILES2 : IORING_REGISTER_BUFFERS2;
    if (!has_tags)
        printf("%s of %u: %ld", has_files ? "files" : "buffers", count,
            register_at(
                ring.fd, has_files ? IORING_REGISTER_FILES : IORING_REGISTER_BUFFERS, data, count));
    else
        printf("%s of %u with tags, flags %u: %ld", has_files ? "files" : "buffers", count,
            it.flags, register_at(ring.fd, code, &it, sizeof it - once_in(10)));
}

static void update_table(
    unsigned code, const char *what, const void *data, unsigned count, unsigned offset)
{
    struct io_uring_rsrc_update2 it = {.offset = offset,
        .resv = once_in(12),
        .data = dice(12) ? (uintptr_t)data : 0,
        .tags = dice(2) ? (uintptr_t)tags : 0,
        .nr = count,
        .resv2 = once_in(12)};
    if (code == IORING_REGISTER_FILES_UPDATE) {
        struct io_uring_files_update plain = {
            .offset = offset, .resv = once_in(12), .fds = it.data};
        printf(
            "%s %u from %u: %ld", what, count, offset, register_at(ring.fd, code, &plain, count));
    } else
        printf("%s %u from %u: %ld", what, count, offset,
            register_at(ring.fd, code, &it, sizeof it - once_in(12)));
}

static void change_tables(unsigned count, unsigned offset)
{
    struct io_uring_file_index_range range = {
        .off = dice(8), .len = once_in(20) ? UINT32_MAX : dice(8), .resv = once_in(8)};
    switch (dice(8)) {
    case 0:
        register_table(true, dice(2), count);
        break;
    case 1:
        register_table(false, dice(2), count);
        break;
    case 2:
        update_table(IORING_REGISTER_FILES_UPDATE, "update of files", rows, count, offset);
        break;
    case 3:
        update_table(
            IORING_REGISTER_FILES_UPDATE2, "update of files with tags", rows, count, offset);
        break;
    case 4:
    case 5:
        update_table(IORING_REGISTER_BUFFERS_UPDATE, "update of buffers", vectors, count, offset);
        break;
    case 6:
        printf("range %u of %u: %ld", range.off, range.len,
            register_at(ring.fd, IORING_REGISTER_FILE_ALLOC_RANGE, dice(15) ? &range : NULL,
                once_in(15) ? 1 : 0));
        break;
    default:
        if (dice(2))
            printf("no files: %ld", register_at(ring.fd, IORING_UNREGISTER_FILES,
                                        once_in(6) ? rows : NULL, once_in(6)));
        else
            printf("no buffers: %ld", register_at(ring.fd, IORING_UNREGISTER_BUFFERS, NULL, 0));
    }
}

static void change_lists(void)
{
    unsigned which = dice(2);
    struct io_uring_buf_ring *list = (void *)lists[which];
    struct io_uring_buf_reg it = {.ring_addr = (uintptr_t)(dice(8) ? list : NULL),
        .ring_entries = dice(4) ? 8 : dice(20),
        .bgid = (uint16_t)dice(3)};
    switch (dice(3)) {
    case 0:
        it.ring_addr += once_in(10) ? 8 : 0;
        it.resv[0] = once_in(12);
        printf("list %u of %u: %ld", it.bgid, it.ring_entries,
            register_at(ring.fd, IORING_REGISTER_PBUF_RING, &it, dice(12) ? 1 : 0));
        break;
    case 1:
        it = (struct io_uring_buf_reg){.bgid = it.bgid};
        it.resv[1] = once_in(12);
        printf(
            "no list %u: %ld", it.bgid, register_at(ring.fd, IORING_UNREGISTER_PBUF_RING, &it, 1));
        break;
    default:
        for (unsigned i = 0; i < 2; i++)
            list->bufs[(list->tail + i) & 7] = (struct io_uring_buf){
                .addr = (uintptr_t)memory[dice(7)],
                .len = 1 + dice(64),
                .bid = (uint16_t)dice(100),
                .resv = i || (list->tail & 7) ? 0 : list->tail};
        __atomic_store_n(&list->tail, (uint16_t)(list->tail + 2), __ATOMIC_RELEASE);
        printf("two more in the list at %u: 0", which);
    }
}

static void change_rings(void)
{
    struct io_uring_rsrc_update at[20] = {0};
    unsigned count = dice(12) ? 1 + dice(3) : dice(18), number = dice(20);
    int told = dice(5) ? eventfds[dice(2)] : any_file();
    for (unsigned i = 0; i < count; i++)
        at[i] = (struct io_uring_rsrc_update){.offset = dice(3) ? UINT32_MAX : dice(18),
            .resv = once_in(15),
            .data = (uint64_t)(dice(4) ? dice(2) ? ring.fd : second.fd : any_file())};
    switch (dice(5)) {
    case 0:
        printf("numbers of %u rings: %ld", count,
            register_at(ring.fd, IORING_REGISTER_RING_FDS, at, count));
        for (unsigned i = 0; i < count; i++)
            printf(" %d", (int)at[i].offset);
        break;
    case 1:
        for (unsigned i = 0; i < count; i++)
            at[i] = (struct io_uring_rsrc_update){
                .offset = dice(8) ? dice(4) : dice(20), .data = once_in(15)};
        printf("no numbers of %u rings: %ld", count,
            register_at(ring.fd, IORING_UNREGISTER_RING_FDS, at, count));
        break;
    case 2:
        printf("a call by the number %u: %ld", number,
            enter(&(struct ring){.fd = (int)number}, 0, 0, IORING_ENTER_REGISTERED_RING));
        break;
    case 3:
        printf("an eventfd: %ld", register_at(ring.fd, IORING_REGISTER_EVENTFD,
                                      dice(10) ? &told : NULL, dice(10) ? 1 : 0));
        break;
    default:
        printf("no eventfd: %ld", register_at(ring.fd, IORING_UNREGISTER_EVENTFD, NULL, 0));
    }
}

static void use_slots(unsigned count, unsigned offset)
{
    struct io_uring_sqe *entry;
    switch (dice(4)) {
    case 0:
        entry = put_step(IORING_OP_FILES_UPDATE);
        entry->addr = (uintptr_t)rows;
        entry->len = count;
        entry->off = dice(2) ? UINT64_MAX : offset;
        submit("files by an entry");
        break;
    case 1:
        entry = put_step(IORING_OP_OPENAT);
        entry->fd = AT_FDCWD;
        entry->addr = (uintptr_t) "/dev/null";
        entry->open_flags = once_in(8) ? O_CLOEXEC : 0;
        entry->file_index = dice(2) ? IORING_FILE_INDEX_ALLOC : 1 + dice(8);
        submit("open");
        break;
    case 2:
        entry = put_step(IORING_OP_CLOSE);
        entry->file_index = 1 + dice(8);
        entry->fd = once_in(10) ? 3 : 0;
        submit("close");
        break;
    default:
        entry = put_step(IORING_OP_MSG_RING);
        entry->fd = dice(3) ? second.fd : dice(2) ? ring.fd : any_file();
        entry->off = 77;
        entry->len = dice(1000);
        entry->msg_ring_flags = once_in(6) ? IORING_MSG_RING_CQE_SKIP : 0;
        if (dice(2)) {
            entry->addr = IORING_MSG_SEND_FD;
            entry->len = 0;
            entry->addr3 = dice(7);
            entry->file_index = dice(2) ? IORING_FILE_INDEX_ALLOC : 1 + dice(6);
        }
        submit("message");
    }
}

static void use_buffers(void)
{
    bool is_fixed = dice(2), has_slot = dice(3), provides = dice(2);
    struct io_uring_sqe *entry = put_step(is_fixed ? IORING_OP_READ_FIXED : IORING_OP_READ);
    entry->fd = has_slot ? (int)dice(8) : files[2 + dice(3)];
    entry->flags = has_slot ? IOSQE_FIXED_FILE : 0;
    entry->addr = (uintptr_t)memory[dice(7)] + (dice(4) ? 0 : dice(200));
    entry->len = 1 + dice(100);
    entry->buf_index = (uint16_t)dice(7);
    if (provides && !is_fixed) {
        entry->flags |= IOSQE_BUFFER_SELECT;
        entry->buf_group = (uint16_t)dice(3);
        entry->addr = 0;
        entry->len *= dice(3) != 0;
    }
    submit(is_fixed ? "fixed read" : "read");
}

static void provide(void)
{
    bool is_removal = dice(2);
    struct io_uring_sqe *entry = put_step(
        is_removal ? IORING_OP_REMOVE_BUFFERS : IORING_OP_PROVIDE_BUFFERS);
    entry->fd = once_in(12) ? 0 : 1 + (int)dice(5);
    entry->buf_group = (uint16_t)dice(3);
    if (!is_removal) {
        entry->addr = (uintptr_t)memory[dice(3)];
        entry->len = once_in(15) ? 0 : 1 + dice(64);
        entry->off = dice(8) ? dice(200) : 65530 + dice(8);
    }
    submit(is_removal ? "removal of buffers" : "buffers by an entry");
}

static void use_files(void)
{
    struct io_uring_sqe *entry;
    bool has_slot = dice(2);
    int fd = has_slot ? (int)dice(8) : files[2 + dice(4)];
    switch (dice(4)) {
    case 0:
        entry = put_step(IORING_OP_POLL_ADD);
        entry->poll32_events = 1;
        entry->len = once_in(3);
        fd = has_slot ? fd : files[0];
        break;
    case 1:
        entry = put_step(IORING_OP_FSYNC);
        break;
    case 2:
        entry = put_step(IORING_OP_WRITE);
        entry->addr = (uintptr_t)memory[0];
        entry->len = dice(3);
        break;
    default:
        entry = put_step(IORING_OP_ASYNC_CANCEL);
        entry->cancel_flags = dice(8) | (once_in(6) ? IORING_ASYNC_CANCEL_ANY : 0);
        entry->addr = next_number - 1 - dice(3);
        has_slot = false;
    }
    entry->fd = fd;
    entry->flags = has_slot ? IOSQE_FIXED_FILE : 0;
    submit(entry->opcode == IORING_OP_POLL_ADD ? "poll"
           : entry->opcode == IORING_OP_FSYNC  ? "sync"
           : entry->opcode == IORING_OP_WRITE  ? "write"
                                               : "cancel");
}

static void step(void)
{
    unsigned count = dice(6), offset = dice(7);
    fill_rows();
    switch (dice(12)) {
    case 0:
    case 1:
    case 2:
        change_tables(count, offset);
        break;
    case 3:
        change_lists();
        break;
    case 4:
    case 5:
        change_rings();
        break;
    case 6:
    case 7:
        use_slots(count, offset);
        break;
    case 8:
    case 9:
        use_buffers();
        break;
    case 10:
        provide();
        break;
    default:
        use_files();
    }
}

int main(void)
{
    return play(100, 50, 0, step);
}
