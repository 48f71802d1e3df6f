/* Tests of threads with descriptors of their own (unshare(2), CLONE_FILES), by direct calls: one
 * number may be two rings', and one ring may be in two tables. All hold under every policy. A test
 * that hangs ends by an alarm.
 *
 *   tables [NAME]            with a name: that test alone
 */
#define _GNU_SOURCE
#include "engines.h"

#include <pthread.h>
#include <sched.h>

/* Two that go on by turns, and the ring of one. */
struct turns {
    int turn;
    struct ring ring;
};

static void take_turn(struct turns *turns, int turn)
{
    while (__atomic_load_n(&turns->turn, __ATOMIC_ACQUIRE) != turn)
        usleep(1000);
}

static void give_turn(struct turns *turns, int turn)
{
    __atomic_store_n(&turns->turn, turn, __ATOMIC_RELEASE);
}

static void use_ring(struct ring *ring)
{
    submit_nop(ring, 0);
    check(wait_for_one(ring) == 0);
}

/* A ring that is made and closed again, for which it is looked whether others are closed. */
static void look_for_closed(void)
{
    struct ring other;
    make_ring(&other, 4, 0, 0);
    use_ring(&other);
    close_ring(&other);
    make_ring(&other, 4, 0, 0);
    close_ring(&other);
}

/* A ring of its own, which has the number that another ring has elsewhere. */
static void *use_own_table(void *at)
{
    struct turns *turns = at;
    check(unshare(CLONE_FILES) == 0);
    make_ring(&turns->ring, 4, 0, 0);
    for (int turn = 1; turn < 7; turn += 2) {
        give_turn(turns, turn);
        take_turn(turns, turn + 1);
        use_ring(&turns->ring);
        look_for_closed();
    }
    close_ring(&turns->ring);
    return NULL;
}

static void test_own_table(void)
{
    struct turns turns = {0};
    struct ring one, two;
    pthread_t thread;
    make_ring(&one, 4, 0, 0);
    check(pthread_create(&thread, NULL, use_own_table, &turns) == 0);
    take_turn(&turns, 1);
    make_ring(&two, 4, 0, 0);
    check(two.fd == turns.ring.fd);
    for (int turn = 2; turn < 8; turn += 2) {
        use_ring(&one);
        use_ring(&two);
        look_for_closed();
        give_turn(&turns, turn);
        if (turn < 6)
            take_turn(&turns, turn + 1);
    }
    check(pthread_join(thread, NULL) == 0);
    use_ring(&one);
    use_ring(&two);
    close_ring(&one);
    close_ring(&two);
}

/* A copy of a ring's descriptor in another table: it is closed there first, or used there after the
 * other was closed. */
static void *use_copy(void *at)
{
    struct turns *turns = at;
    check(unshare(CLONE_FILES) == 0);
    give_turn(turns, 1);
    take_turn(turns, 2);
    use_ring(&turns->ring);
    close(turns->ring.fd);
    look_for_closed();
    return NULL;
}

static void test_copied_table(void)
{
    for (int is_first = 0; is_first < 2; is_first++) {
        struct turns turns = {0};
        pthread_t thread;
        char byte;
        int ends[2];
        check(pipe(ends) == 0);
        make_ring(&turns.ring, 4, 0, 0);
        check(register_at(turns.ring.fd, IORING_REGISTER_FILES, &ends[1], 1) == 0);
        check(pthread_create(&thread, NULL, use_copy, &turns) == 0);
        take_turn(&turns, 1);
        close(ends[1]);
        if (!is_first)
            close(turns.ring.fd);
        look_for_closed();
        give_turn(&turns, 2);
        check(pthread_join(thread, NULL) == 0);
        if (is_first) {
            use_ring(&turns.ring);
            close(turns.ring.fd);
        }
        look_for_closed();
        check(read(ends[0], &byte, 1) == 0);
        close(ends[0]);
        munmap(turns.ring.sq, turns.ring.sq_size);
        munmap(turns.ring.cq, turns.ring.cq_size);
        munmap(turns.ring.entries, turns.ring.params.sq_entries * sizeof *turns.ring.entries);
    }
}

static void test_tables(void)
{
    test_own_table();
    test_copied_table();
    if (is_under_valgrind())
        return;
    setenv("WULGACH_TEST_POLLED", "yes", 1);
    test_own_table();
    test_copied_table();
    unsetenv("WULGACH_TEST_POLLED");
}

int main(int count, char **words)
{
    static const struct named tests[] = {
        {"tables", test_tables},
    };
    alarm((unsigned)(PATIENCE * patience()));
    return run_tests(tests, sizeof tests / sizeof *tests, count > 1 ? words[1] : NULL);
}
