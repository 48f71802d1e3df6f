/* Runs a scenario on a ring of this machine's kernel, and writes what could be seen of it.
 *
 * The scenario comes on standard input, a line each:
 *
 *   an item of the play language     stages it: nop, fsync, read, write, cancel, cancelall, op (of
 *                                    a code from 100 on), bad
 *   fault KIND OPERATION UD FLAGS    stages an operation with a fault: flag (the highest bit),
 *                                    priority, operation (its flag 2^31) or byte (42)
 *   hold UD FLAGS                    stages a read of an empty pipe, so that it waits until it is
 *                                    released
 *   (an empty line)                  a call that submits what is staged
 *   call N                           a call that submits N of it
 *   events                           a call that submits nothing and asks for events
 *   release UD                       writes a byte into that pipe
 *   head off, head on                from here on the head isn't stored after a look, or is
 *   wait N                           waits until N more completions are seen, or half a second has
 *                                    passed
 *
 * With the word `features` it writes what the ring says that it can do, as a number, and `stops`
 * if each ring of this kernel ends a call at a fault; and reads nothing.
 *
 * A first line `# setup --sq N --cq N --files N --stop` has the options of `uring`; `--flags N`
 * there are more flags of the ring. What is seen is written a line each:
 *
 *   call ASKED RETURNED HEAD DROPPED     a call, what it returned, and the words head and dropped
 *                                        after it
 *   tail WORD                            a look at the completion ring, if something new is there
 *   cqe UD RES                           each completion that is new then
 *   head WORD                            the head was stored
 *   events                               the call just told, or to come, asked for events
 *   released UD                          a byte was written
 *
 * After the last line each pipe gets its byte, and the ring is looked at until nothing comes any
 * more. The files are temporary ones without a name, and all ends with the process, also if it is
 * killed.
 */
#include "items.h"
#include "ring.h"

#include <stdio.h>
#include <stdlib.h>
#include <string.h>

static void obey(int count, char **words)
{
    if (!count)
        call(left_staged(), 0);
    else if (!strcmp(words[0], "call") && count == 2)
        call((unsigned)atoi(words[1]), 0);
    else if (!strcmp(words[0], "events") && count == 1)
        call(0, IORING_ENTER_GETEVENTS);
    else if (!strcmp(words[0], "wait") && count == 2)
        wait_for((unsigned)atoi(words[1]));
    else if (!strcmp(words[0], "head") && count == 2)
        ring.is_head_stored = !strcmp(words[1], "on");
    else if (!strcmp(words[0], "release") && count == 2) {
        release(strtoull(words[1], NULL, 10));
        wait_for(1);
    } else if (!item(count, words))
        stop(BAD_LINE, words[0]);
}

static struct setup setup_of(int count, char **words)
{
    struct setup it = {.sq = 4, .files = 2};
    for (int at = 0; at < count; at++) {
        if (!strcmp(words[at], "--stop"))
            it.is_stop = true;
        else if (at + 1 < count && !strcmp(words[at], "--sq"))
            it.sq = (unsigned)atoi(words[++at]);
        else if (at + 1 < count && !strcmp(words[at], "--cq"))
            it.cq = (unsigned)atoi(words[++at]);
        else if (at + 1 < count && !strcmp(words[at], "--files"))
            it.files = (unsigned)atoi(words[++at]);
        else if (at + 1 < count && !strcmp(words[at], "--flags"))
            it.flags = (unsigned)strtoul(words[++at], NULL, 0);
    }
    if (!it.cq)
        it.cq = 2 * it.sq;
    if (it.files > MOST_FILES)
        stop(BAD_LINE, "too many files");
    return it;
}

int main(int count_of_words, char **asked)
{
    char line[400];
    if (count_of_words == 2 && !strcmp(asked[1], "features")) {
        struct setup asked_for = setup_of(0, NULL);
        bool has_all = can_open_ring(asked_for);
        asked_for.is_stop = !has_all;
        if (!has_all)
            open_ring(asked_for);
        printf("0x%x%s\n", ring.features, has_all ? "" : " stops");
        return 0;
    }
    while (fgets(line, sizeof line, stdin)) {
        char *words[16];
        int count = 0;
        for (char *it = strtok(line, " \n"); it && count < 16; it = strtok(NULL, " \n"))
            words[count++] = it;
        bool is_setup = count > 1 && !strcmp(words[0], "#") && !strcmp(words[1], "setup");
        if (!ring.entries)
            open_ring(setup_of(is_setup ? count - 2 : 0, words + 2));
        if (is_setup || (count && words[0][0] == '#'))
            continue;
        obey(count, words);
    }
    if (!ring.entries)
        return 0;
    ring.is_head_stored = true;
    release_all();
    /* (what is late: a worker's end. One that skips its success, and fails, isn't awaited) */
    call(0, IORING_ENTER_GETEVENTS);
    while (is_any_awaited() && !left_staged() && wait_for(1))
        continue;
    wait_for_quiet();
    return 0;
}
