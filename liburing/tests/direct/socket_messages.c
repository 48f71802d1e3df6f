/* Tests of messages through sockets, by direct calls: a receive of them that goes on, those that
 * are refused as they are submitted, what of one is copied then, and what is told of it. All hold
 * under every policy, which the environment says.
 *
 *   socket_messages [NAME]   with a name: that test alone
 */
#define _GNU_SOURCE
#include "engines.h"

#include <netinet/in.h>
#include <stddef.h>
#include <sys/socket.h>
#include <sys/uio.h>

/* A receive of messages that goes on: each buffer has sizes and flags, room for an address and
 * control data, and the bytes. */
static void test_multishot_messages(void)
{
    struct ring ring;
    static char memory[3][64];
    struct msghdr message = {.msg_namelen = 16, .msg_controllen = 8};
    struct io_uring_recvmsg_out told;
    enum { IN_FRONT = sizeof told + 16 + 8 };
    int ends[2];
    check(socketpair(AF_UNIX, SOCK_DGRAM, 0, ends) == 0);
    make_ring(&ring, 8, 0, 0);
    struct io_uring_sqe *provide = put_plain(&ring, IORING_OP_PROVIDE_BUFFERS, 0, 3);
    provide->addr = (uintptr_t)memory;
    provide->len = IN_FRONT + 4;
    check(result_of_one(&ring, 1) == 0);
    for (int is_selecting = 0; is_selecting < 2; is_selecting++) {
        struct io_uring_sqe *entry = put_transfer(&ring, IORING_OP_RECVMSG, 0,
            is_selecting ? IOSQE_BUFFER_SELECT : 0, ends[0], &message, 1, 0);
        entry->ioprio = IORING_RECV_MULTISHOT;
        entry->msg_flags = MSG_TRUNC;
        if (!is_selecting)
            check(result_of_one(&ring, 1) == -EINVAL);
    }
    check(enter(&ring, 1, 0, 0) == 1);
    for (uint32_t i = 0; i < 4; i++) {
        check(i < 3 ? enter_for(&ring, 1, 1000) == -ETIME : true);
        check(send(ends[1], "longer", i == 0 ? 3 : 6, 0) > 0);
        struct seen found = next_of(&ring);
        if (i == 3) {
            check(found.res == -ENOBUFS && found.flags == 0);
            break;
        }
        const char *at = memory[0] + i * (IN_FRONT + 4);
        memcpy(&told, at, sizeof told);
        check(found.res == (i == 0 ? IN_FRONT + 3 : IN_FRONT + 4));
        check(found.flags ==
              (IORING_CQE_F_MORE | IORING_CQE_F_BUFFER | i << IORING_CQE_BUFFER_SHIFT));
        check(told.payloadlen == (i == 0 ? 3 : 6) && !(told.flags & MSG_TRUNC) == (i == 0));
        check(memcmp(at + IN_FRONT, "longer", i == 0 ? 3 : 4) == 0);
    }
    close_pair(ends);
    close_ring(&ring);
}

/* Its sender and its control data are told only where there is room for them: without it the bytes
 * stand right after what is in front. */
static void test_untold_sender(bool has_room)
{
    enum { NAME = 16, CONTROL = 64, ROOM = 8, OWN_NAME = 8 };
    struct ring ring;
    char memory[sizeof(struct io_uring_recvmsg_out) + NAME + CONTROL + ROOM] = {0};
    struct msghdr message = {
        .msg_namelen = has_room ? NAME : 0, .msg_controllen = has_room ? CONTROL : 0};
    struct io_uring_recvmsg_out told;
    size_t in_front = sizeof told + message.msg_namelen + message.msg_controllen;
    const sa_family_t family = AF_UNIX;
    int ends[2], yes = 1;
    check(socketpair(AF_UNIX, SOCK_DGRAM, 0, ends) == 0 &&
          setsockopt(ends[0], SOL_SOCKET, SO_PASSCRED, &yes, sizeof yes) == 0);
    check(bind(ends[1], (const struct sockaddr *)&family, sizeof family) == 0);
    make_ring(&ring, 8, 0, 0);
    struct io_uring_sqe *provide = put_plain(&ring, IORING_OP_PROVIDE_BUFFERS, 0, 1);
    provide->addr = (uintptr_t)memory;
    provide->len = (uint32_t)(in_front + ROOM);
    check(result_of_one(&ring, 1) == 0);
    put_transfer(&ring, IORING_OP_RECVMSG, 0, IOSQE_BUFFER_SELECT, ends[0], &message, 1, 0)
        ->ioprio = IORING_RECV_MULTISHOT;
    check(enter(&ring, 1, 0, 0) == 1 && send(ends[1], "one", 3, 0) == 3);
    struct seen found = next_of(&ring);
    memcpy(&told, memory, sizeof told);
    check(found.res == (int32_t)in_front + 3 && memcmp(memory + in_front, "one", 3) == 0);
    check(told.namelen == (has_room ? OWN_NAME : 0) && (told.controllen > 0) == has_room);
    close_pair(ends);
    close_ring(&ring);
}

static void test_untold_senders(void)
{
    test_untold_sender(false);
    test_untold_sender(true);
}

#define MESSAGE(name, name_size, vectors, count, control) \
    { \
        .msg_name = name, .msg_namelen = name_size, .msg_iov = vectors, .msg_iovlen = count, \
        .msg_controllen = control \
    }

/* What is wrong with a message is a fault of its entry, and the call ends after that: first what
 * its address is, which only one that is sent has read, then its vectors, then what stands in front
 * of the bytes of one that goes on. Seen at a ring of Linux 6.18. */
static void test_refused_messages(void)
{
    enum { SELECTS = IOSQE_BUFFER_SELECT, GOES_ON = IORING_RECV_MULTISHOT };
    static char bytes[8], name[128];
    void *nowhere = (void *)8;
    struct iovec one[] = {{bytes, 4}, {bytes, 4}}, negative = {bytes, SIZE_MAX};
    const struct {
        uint8_t opcode, flags;
        uint16_t ioprio;
        struct msghdr message;
        int32_t res;
    } rows[] = {
        {IORING_OP_SENDMSG, 0, 0, MESSAGE(nowhere, 16, one, 1025, 0), -EFAULT},
        {IORING_OP_SENDMSG, 0, 0, MESSAGE(nowhere, 0, one, 1, 0), NO_FAULT},
        {IORING_OP_SENDMSG, 0, 0, MESSAGE(NULL, UINT32_MAX, one, 1, 0), NO_FAULT},
        {IORING_OP_SENDMSG, 0, 0, MESSAGE(nowhere, UINT32_MAX, one, 1, 0), -EINVAL},
        {IORING_OP_SENDMSG, 0, 0, MESSAGE(name, UINT32_MAX, one, 1025, 0), -EINVAL},
        {IORING_OP_SENDMSG, 0, 0, MESSAGE(name, 1000, one, 1025, 0), -EMSGSIZE},
        {IORING_OP_SENDMSG, 0, 0, MESSAGE(NULL, 0, nowhere, 1, 0), -EFAULT},
        {IORING_OP_SENDMSG, 0, 0, MESSAGE(NULL, 0, nowhere, 1025, 0), -EMSGSIZE},
        {IORING_OP_SENDMSG, 0, 0, MESSAGE(nowhere, 16, &negative, 1, 0), -EFAULT},
        {IORING_OP_SENDMSG, 0, 0, MESSAGE(name, 1000, &negative, 1, 0), -EINVAL},
        {IORING_OP_RECVMSG, 0, 0, MESSAGE(nowhere, 16, one, 1, 0), NO_FAULT},
        {IORING_OP_RECVMSG, 0, 0, MESSAGE(nowhere, UINT32_MAX, nowhere, 1025, 0), -EINVAL},
        {IORING_OP_RECVMSG, 0, 0, MESSAGE(NULL, UINT32_MAX, one, 1, 0), NO_FAULT},
        {IORING_OP_RECVMSG, 0, 0, MESSAGE(NULL, UINT32_MAX, one, 1025, 0), -EMSGSIZE},
        {IORING_OP_RECVMSG, SELECTS, 0, MESSAGE(NULL, 0, nowhere, 2, 0), -EINVAL},
        {IORING_OP_RECVMSG, SELECTS, 0, MESSAGE(NULL, 0, nowhere, 1, 0), -EFAULT},
        {IORING_OP_RECVMSG, SELECTS, 0, MESSAGE(NULL, 0, nowhere, 0, 0), NO_FAULT},
        {IORING_OP_RECVMSG, SELECTS, 0, MESSAGE(NULL, 0, &negative, 1, 0), NO_FAULT},
        {IORING_OP_RECVMSG, SELECTS, GOES_ON, MESSAGE(NULL, UINT32_MAX, one, 1, 0), -EOVERFLOW},
        {IORING_OP_RECVMSG, SELECTS, GOES_ON, MESSAGE(name, UINT32_MAX, one, 1, 0), -EINVAL},
        {IORING_OP_RECVMSG, SELECTS, GOES_ON, MESSAGE(NULL, UINT32_MAX, one, 2, 0), -EINVAL},
        {IORING_OP_RECVMSG, SELECTS, GOES_ON, MESSAGE(name, 1, one, 1, INT32_MAX - 16), -EOVERFLOW},
    };
    struct ring ring;
    int ends[2];
    if (is_under_valgrind())
        return;
    check(socketpair(AF_UNIX, SOCK_DGRAM, 0, ends) == 0);
    make_ring(&ring, 8, 0, 0);
    for (size_t i = 0; i < sizeof rows / sizeof *rows; i++) {
        struct io_uring_sqe *entry = put(&ring, rows[i].opcode, 0, rows[i].flags);
        entry->fd = ends[rows[i].opcode == IORING_OP_RECVMSG];
        entry->addr = (uintptr_t)&rows[i].message;
        entry->ioprio = rows[i].ioprio;
        entry->msg_flags = rows[i].ioprio ? 0 : MSG_DONTWAIT;
        entry->buf_group = 7;
        expect_entry_fault(&ring, rows[i].res);
    }
    close_pair(ends);
    close_ring(&ring);
}

/* The address of a message that waits is the one that it had when it was submitted. */
static void test_addresses_are_copied(void)
{
    struct ring ring;
    struct sockaddr_un {
        sa_family_t family;
        char path[16];
    } address = {AF_UNIX, "\0wanted"};
    char text[8] = "";
    int to = socket(AF_UNIX, SOCK_DGRAM, 0), from = socket(AF_UNIX, SOCK_DGRAM, 0), ends[2];
    memcpy(address.path + 8, &(pid_t){getpid()}, sizeof(pid_t));
    check(bind(to, (void *)&address, sizeof address) == 0 && pipe(ends) == 0);
    make_ring(&ring, 8, 0, 0);
    struct iovec vector = {"message", 7};
    struct msghdr message = {
        .msg_name = &address, .msg_namelen = sizeof address, .msg_iov = &vector, .msg_iovlen = 1};
    put_transfer(&ring, IORING_OP_READ, 0, IOSQE_IO_LINK, ends[0], text, 1, 0);
    put_transfer(&ring, IORING_OP_SENDMSG, 1, 0, from, &message, 1, 0);
    check(enter(&ring, 2, 0, 0) == 2);
    address.path[0] = 'x';
    check(write(ends[1], "t", 1) == 1);
    int32_t results[2];
    reap_all(&ring, 2, results);
    check(results[0] == 1 && results[1] == 7 && recv(to, text, 8, MSG_DONTWAIT) == 7 &&
          memcmp(text, "message", 7) == 0);
    close_pair(ends);
    close(to);
    close(from);
    close_ring(&ring);
}

/* A socket with a name of this machine's network, or a local one. */
static int make_named(int domain, struct sockaddr_storage *name, socklen_t *size)
{
    int fd = socket(domain, SOCK_DGRAM, 0);
    *name = (struct sockaddr_storage){.ss_family = (sa_family_t)domain};
    if (domain == AF_INET)
        memcpy((char *)name + 4, &(uint32_t){htonl(INADDR_LOOPBACK)}, 4);
    *size = domain == AF_INET ? sizeof(struct sockaddr_in) : sizeof(sa_family_t);
    check(bind(fd, (void *)name, *size) == 0);
    *size = sizeof *name;
    check(getsockname(fd, (void *)name, size) == 0);
    return fd;
}

static struct io_uring_sqe *put_send_to(struct ring *ring, uint8_t code, uint8_t flags, int fd,
    char *bytes, unsigned length, const void *name, socklen_t size)
{
    struct io_uring_sqe *entry = put_transfer(
        ring, code, 0, flags, fd, bytes, length, (uintptr_t)name);
    entry->addr_len = (uint16_t)size;
    return entry;
}

/* A send goes to the address that it names, as that was when it was submitted; one without copies
 * has its two completions. */
static void test_sends_to_addresses(void)
{
    static char bytes[] = "bytes", text[8];
    for (int i = 0; i < 3; i++) {
        struct ring ring;
        struct sockaddr_storage name;
        socklen_t size;
        int to = make_named(i < 2 ? AF_INET : AF_UNIX, &name, &size),
            from = socket(i < 2 ? AF_INET : AF_UNIX, SOCK_DGRAM, 0), ends[2];
        check(pipe(ends) == 0);
        make_ring(&ring, 8, 0, 0);
        put_transfer(&ring, IORING_OP_READ, 1, IOSQE_IO_LINK, ends[0], text, 1, 0);
        put_send_to(
            &ring, i == 1 ? IORING_OP_SEND_ZC : IORING_OP_SEND, 0, from, bytes, 5, &name, size);
        check(enter(&ring, 2, 0, 0) == 2);
        memset(&name, 0, sizeof name);
        check(write(ends[1], "t", 1) == 1);
        struct seen first = next_of(&ring), second = next_of(&ring);
        check(first.user_data == 1 && first.res == 1);
        check(second.user_data == 0 && second.res == 5 &&
              second.flags == (i == 1 ? IORING_CQE_F_MORE : 0));
        check(i != 1 || next_of(&ring).flags == IORING_CQE_F_NOTIF);
        check(recv(to, text, 8, MSG_DONTWAIT) == 5 && memcmp(text, bytes, 5) == 0);
        for (int k = 0; k < 2; k++)
            close(ends[k]);
        close(to);
        close(from);
        close_ring(&ring);
    }
}

/* What is wrong with the address of a send is a fault of its entry, if it can't be read or is
 * longer than any; what else, its socket says, to which one of no bytes is one. Seen at a ring of
 * Linux 6.18. */
static void test_refused_addresses(void)
{
    static char bytes[4], many[65536], unknown[128] = {(char)0xff, (char)0x7f};
    struct sockaddr_storage name;
    socklen_t size;
    int to = make_named(AF_INET, &name, &size), from = socket(AF_INET, SOCK_DGRAM, 0), ends[2];
    void *nowhere = (void *)8;
    const struct {
        const void *name;
        uint32_t size, length;
        bool is_stream;
        int32_t res;
    } rows[] = {
        {&name, 16, 4, false, 4},
        {&name, 128, 4, false, 4},
        {&name, 129, 4, false, -EINVAL},
        {&name, 65535, 4, false, -EINVAL},
        {&name, 65536 + 16, 4, false, -EINVAL},
        {&name, 0, 4, false, -EINVAL},
        {&name, 8, 4, false, -EINVAL},
        {nowhere, 16, 4, false, -EFAULT},
        {nowhere, 129, 4, false, -EINVAL},
        {nowhere, 0, 4, false, -EINVAL},
        {NULL, 16, 4, false, -EDESTADDRREQ},
        {NULL, 9999, 4, false, -EDESTADDRREQ},
        {NULL, 65536, 4, false, -EINVAL},
        {unknown, 128, 4, false, -EAFNOSUPPORT},
        {&name, 16, 0, false, 0},
        {&name, 16, sizeof many, false, -EMSGSIZE},
        {&name, 16, 4, true, -EISCONN},
        {&name, 0, 4, true, 4},
        {&name, 129, 4, true, -EINVAL},
    };
    struct ring ring;
    check(socketpair(AF_UNIX, SOCK_STREAM, 0, ends) == 0);
    make_ring(&ring, 8, 0, 0);
    for (size_t i = 0; i < 2 * (sizeof rows / sizeof *rows); i++) {
        bool is_copied = i % 2 == 0;
        if ((rows[i / 2].name == nowhere && is_under_valgrind()) ||
            (rows[i / 2].is_stream && !is_copied))
            continue;
        struct io_uring_sqe *entry = put_send_to(&ring,
            is_copied ? IORING_OP_SEND : IORING_OP_SEND_ZC, 0,
            rows[i / 2].is_stream ? ends[0] : from,
            rows[i / 2].length > sizeof bytes ? many : bytes, rows[i / 2].length, rows[i / 2].name,
            0);
        entry->file_index = rows[i / 2].size;
        check(enter(&ring, 1, 0, 0) == 1);
        struct seen found = next_of(&ring);
        check(found.res == rows[i / 2].res);
        check(!(found.flags & IORING_CQE_F_MORE) || next_of(&ring).flags == IORING_CQE_F_NOTIF);
    }
    close(to);
    close(from);
    close_pair(ends);
    close_ring(&ring);
}

/* One to a socket that takes no more waits until that takes some. (On a ring of Linux 6.18 it is
 * sent without its bytes then: they were copied when there was no room, and aren't once more.) */
static void test_send_to_full(void)
{
    struct ring ring;
    struct sockaddr_storage name;
    socklen_t size;
    static char bytes[1024];
    int to = make_named(AF_UNIX, &name, &size), from = socket(AF_UNIX, SOCK_DGRAM, 0);
    make_ring(&ring, 8, 0, 0);
    while (sendto(from, bytes, sizeof bytes, MSG_DONTWAIT, (void *)&name, size) > 0)
        ;
    put_send_to(&ring, IORING_OP_SEND, 0, from, bytes, 3, &name, size);
    check(enter(&ring, 1, 0, 0) == 1 && enter_for(&ring, 1, 1000000) == -ETIME);
    check(recv(to, bytes, sizeof bytes, MSG_DONTWAIT) > 0);
    check(wait_for_one(&ring) == 3);
    put_send_to(&ring, IORING_OP_SEND, 0, from, bytes, 3, &name, size)->msg_flags = MSG_DONTWAIT;
    check(result_of_one(&ring, 1) == -EAGAIN);
    close(to);
    close(from);
    close_ring(&ring);
}

/* What is told of a message: how many bytes its address has, where there is a place for one; then
 * its flags; and then how many control data. What stands after a field that can't be written stays
 * as it was. Seen at a ring of Linux 6.18. */
static void test_told_in_order(void)
{
    struct ring ring;
    char bytes[8], name[128], control[64];
    struct iovec vector = {bytes, sizeof bytes};
    int ends[2];
    if (is_under_valgrind())
        return;
    size_t page = (size_t)sysconf(_SC_PAGESIZE);
    char *memory = mmap(NULL, 3 * page, PROT_READ | PROT_WRITE, MAP_PRIVATE | MAP_ANONYMOUS, -1, 0);
    check(memory != MAP_FAILED && socketpair(AF_UNIX, SOCK_DGRAM, 0, ends) == 0);
    /* (of the second page nothing can be written: there are the flags of the one, and of the other
     * how long its address is) */
    struct msghdr *ending = (void *)(memory + page - offsetof(struct msghdr, msg_flags)),
                  *beginning = (void *)(memory + 2 * page - offsetof(struct msghdr, msg_iov));
    *ending = (struct msghdr){.msg_name = name,
        .msg_namelen = sizeof name,
        .msg_iov = &vector,
        .msg_iovlen = 1,
        .msg_control = control,
        .msg_controllen = sizeof control};
    *beginning = (struct msghdr){.msg_namelen = 7,
        .msg_iov = &vector,
        .msg_iovlen = 1,
        .msg_control = control,
        .msg_controllen = sizeof control,
        .msg_flags = -1};
    check(mprotect(memory + page, page, PROT_READ) == 0);
    make_ring(&ring, 8, 0, 0);
    check(send(ends[1], "one", 3, 0) == 3 && send(ends[1], "two", 3, 0) == 3);
    put_transfer(&ring, IORING_OP_RECVMSG, 0, 0, ends[0], ending, 1, 0);
    check(result_of_one(&ring, 1) == -EFAULT && ending->msg_namelen == 0 &&
          ending->msg_controllen == sizeof control);
    put_transfer(&ring, IORING_OP_RECVMSG, 0, 0, ends[0], beginning, 1, 0);
    check(result_of_one(&ring, 1) == 3 && beginning->msg_namelen == 7 &&
          beginning->msg_controllen == 0 && beginning->msg_flags == 0);
    check(munmap(memory, 3 * page) == 0);
    close_pair(ends);
    close_ring(&ring);
}

int main(int count, char **words)
{
    static const struct named tests[] = {
        {"multishot messages", test_multishot_messages},
        {"senders that aren't told", test_untold_senders},
        {"refused messages", test_refused_messages},
        {"addresses are copied", test_addresses_are_copied},
        {"told in order", test_told_in_order},
        {"sends to addresses", test_sends_to_addresses},
        {"refused addresses", test_refused_addresses},
        {"send to full", test_send_to_full},
    };
    return run_tests(tests, sizeof tests / sizeof *tests, count > 1 ? words[1] : NULL);
}
