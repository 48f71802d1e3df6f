/* Which system calls and requests are logged as what: the numbers are those of <sys/syscall.h>, and
 * the flags those of the C library. */
#define _GNU_SOURCE
#include "demand.h"
#include "wulgach_logged.h"

#include <fcntl.h>
#include <limits.h>
#include <stdio.h>
#include <string.h>
#include <sys/mman.h>
#include <sys/stat.h>
#include <sys/syscall.h>
#include <unistd.h>

static void look_at_calls(void)
{
    static const struct {
        int call;
        uint32_t kind;
    } rows[] = {
        {SYS_write, WULGACH_CALL_WRITE},
        {SYS_pwrite64, WULGACH_CALL_WRITE},
        {SYS_writev, WULGACH_CALL_WRITE},
        {SYS_pwritev, WULGACH_CALL_WRITE},
        {SYS_pwritev2, WULGACH_CALL_WRITE},
        {SYS_sendfile, WULGACH_CALL_COPY},
        {SYS_splice, WULGACH_CALL_COPY},
        {SYS_copy_file_range, WULGACH_CALL_COPY},
        {SYS_fsync, WULGACH_CALL_SYNC},
        {SYS_fdatasync, WULGACH_CALL_SYNC},
        {SYS_sync, WULGACH_CALL_SYNC_ALL},
        {SYS_syncfs, WULGACH_CALL_SYNC_ALL},
        {SYS_truncate, WULGACH_CALL_LENGTH},
        {SYS_ftruncate, WULGACH_CALL_LENGTH},
        {SYS_fallocate, WULGACH_CALL_SPACE},
        {SYS_open, WULGACH_CALL_OPEN},
        {SYS_creat, WULGACH_CALL_OPEN},
        {SYS_openat, WULGACH_CALL_OPEN},
        {SYS_openat2, WULGACH_CALL_OPEN},
        {SYS_mkdir, WULGACH_CALL_MAKE_FOLDER},
        {SYS_mkdirat, WULGACH_CALL_MAKE_FOLDER},
        {SYS_symlink, WULGACH_CALL_MAKE_LINK},
        {SYS_symlinkat, WULGACH_CALL_MAKE_LINK},
        {SYS_link, WULGACH_CALL_LINK},
        {SYS_linkat, WULGACH_CALL_LINK},
        {SYS_rename, WULGACH_CALL_RENAME},
        {SYS_renameat, WULGACH_CALL_RENAME},
        {SYS_renameat2, WULGACH_CALL_RENAME},
        {SYS_unlink, WULGACH_CALL_REMOVE},
        {SYS_rmdir, WULGACH_CALL_REMOVE},
        {SYS_unlinkat, WULGACH_CALL_REMOVE},
        {SYS_mmap, WULGACH_CALL_MAP},
        {SYS_msync, WULGACH_CALL_SYNC_MEMORY},
        {SYS_exit_group, WULGACH_CALL_EXIT},
    };
    enum { ROWS = sizeof rows / sizeof *rows };
    size_t heard = 0;
    for (uint64_t call = 0; call < 1024; call++)
        heard += wulgach_logged_call_of(call) != WULGACH_CALL_NOTHING;
    demand(heard == ROWS, "no other call is logged");
    for (size_t i = 0; i < ROWS; i++)
        demand(wulgach_logged_call_of((uint64_t)rows[i].call) == rows[i].kind, "a call");
    for (size_t i = 0; i < ROWS; i++)
        demand(wulgach_is_made((uint64_t)rows[i].call) ==
                   (rows[i].kind != WULGACH_CALL_SYNC && rows[i].kind != WULGACH_CALL_SYNC_ALL),
            "which are made");
}

static void look_at_bits(void)
{
    struct wulgach_bits bits = {7, 7};
    demand(!wulgach_bits_of_call(SYS_write, &bits) && !wulgach_bits_of_call(SYS_openat2, &bits) &&
               bits.argument == 7 && bits.bits == 7,
        "a call that is always logged");
    demand(wulgach_bits_of_call(SYS_open, &bits) && bits.argument == 1 &&
               bits.bits == (O_CREAT | O_TRUNC | (O_TMPFILE & ~O_DIRECTORY)),
        "opens");
    demand(wulgach_bits_of_call(SYS_openat, &bits) && bits.argument == 2 &&
               bits.bits == (O_CREAT | O_TRUNC | (O_TMPFILE & ~O_DIRECTORY)),
        "opens in a folder");
    demand(wulgach_bits_of_call(SYS_mmap, &bits) && bits.argument == 3 && bits.bits == MAP_SHARED,
        "maps");
}

/* Each argument has its place as its value, with bits above 32. */
static struct wulgach_call_words words_of(int call)
{
    const uint64_t high = (uint64_t)9 << 32;
    const struct wulgach_system_call it = {
        (uint64_t)call, high | 1, high | 2, high | 3, high | 4, high | 5, high | 6};
    struct wulgach_call_words words;
    memset(&words, 0xaa, sizeof words);
    wulgach_words_of_call(&it, &words);
    return words;
}

static bool is_same(struct wulgach_call_words one, struct wulgach_call_words other)
{
    return one.by_descriptor == other.by_descriptor && one.by_path == other.by_path &&
           one.has_vectors == other.has_vectors && one.fd == other.fd &&
           one.second_fd == other.second_fd && one.flags == other.flags &&
           one.protection == other.protection && one.path == other.path &&
           one.second_path == other.second_path && one.offset == other.offset &&
           one.length == other.length && one.address == other.address && one.count == other.count;
}

#define HIGH(word) ((uint64_t)9 << 32 | (word))
#define WORDS(...) ((struct wulgach_call_words){__VA_ARGS__})

static void look_at_words(void)
{
    demand(is_same(words_of(SYS_write), WORDS(.by_descriptor = true, .fd = 1, .address = HIGH(2),
                                            .length = HIGH(3), .offset = UINT64_MAX)),
        "write");
    demand(is_same(words_of(SYS_pwrite64), WORDS(.by_descriptor = true, .fd = 1, .address = HIGH(2),
                                               .length = HIGH(3), .offset = HIGH(4))),
        "pwrite");
    demand(is_same(words_of(SYS_writev),
               WORDS(.by_descriptor = true, .has_vectors = true, .fd = 1, .address = HIGH(2),
                   .count = HIGH(3), .offset = UINT64_MAX)),
        "writev");
    demand(is_same(
               words_of(SYS_pwritev), WORDS(.by_descriptor = true, .has_vectors = true, .fd = 1,
                                          .address = HIGH(2), .count = HIGH(3), .offset = HIGH(4))),
        "pwritev");
    demand(is_same(words_of(SYS_pwritev2),
               WORDS(.by_descriptor = true, .has_vectors = true, .fd = 1, .address = HIGH(2),
                   .count = HIGH(3), .offset = HIGH(4), .flags = 6)),
        "pwritev2");
    demand(is_same(words_of(SYS_sendfile),
               WORDS(.by_descriptor = true, .fd = 1, .length = HIGH(4), .offset = UINT64_MAX)),
        "sendfile");
    demand(is_same(words_of(SYS_splice), WORDS(.by_descriptor = true, .fd = 3, .address = HIGH(4),
                                             .length = HIGH(5), .offset = UINT64_MAX)),
        "splice");
    demand(is_same(words_of(SYS_copy_file_range), words_of(SYS_splice)), "copy_file_range");
    demand(is_same(words_of(SYS_fsync), WORDS(.by_descriptor = true, .fd = 1)) &&
               is_same(words_of(SYS_fdatasync), words_of(SYS_fsync)) &&
               is_same(words_of(SYS_syncfs), words_of(SYS_fsync)),
        "fsync");
    demand(is_same(words_of(SYS_sync), WORDS(0)) && is_same(words_of(SYS_exit_group), WORDS(0)) &&
               is_same(words_of(SYS_read), WORDS(0)),
        "sync");
    demand(is_same(words_of(SYS_truncate),
               WORDS(.by_path = true, .fd = AT_FDCWD, .path = HIGH(1), .offset = HIGH(2))),
        "truncate");
    demand(
        is_same(words_of(SYS_ftruncate), WORDS(.by_descriptor = true, .fd = 1, .offset = HIGH(2))),
        "ftruncate");
    demand(is_same(words_of(SYS_fallocate), WORDS(.by_descriptor = true, .fd = 1, .flags = 2,
                                                .offset = HIGH(3), .length = HIGH(4))),
        "fallocate");
    demand(is_same(words_of(SYS_open),
               WORDS(.by_path = true, .fd = AT_FDCWD, .path = HIGH(1), .flags = 2)),
        "open");
    demand(is_same(words_of(SYS_creat), WORDS(.by_path = true, .fd = AT_FDCWD, .path = HIGH(1),
                                            .flags = O_CREAT | O_WRONLY | O_TRUNC)),
        "creat");
    demand(
        is_same(words_of(SYS_openat), WORDS(.by_path = true, .fd = 1, .path = HIGH(2), .flags = 3)),
        "openat");
    demand(is_same(words_of(SYS_openat2), WORDS(.by_path = true, .fd = 1, .path = HIGH(2),
                                              .address = HIGH(3), .count = HIGH(4))),
        "openat2");
    demand(is_same(words_of(SYS_mkdir), WORDS(.by_path = true, .fd = AT_FDCWD, .path = HIGH(1))) &&
               is_same(words_of(SYS_unlink), words_of(SYS_mkdir)) &&
               is_same(words_of(SYS_rmdir), words_of(SYS_mkdir)),
        "mkdir");
    demand(is_same(words_of(SYS_mkdirat), WORDS(.by_path = true, .fd = 1, .path = HIGH(2))) &&
               is_same(words_of(SYS_unlinkat), words_of(SYS_mkdirat)),
        "mkdirat");
    demand(is_same(words_of(SYS_symlink),
               WORDS(.by_path = true, .fd = AT_FDCWD, .path = HIGH(2), .second_path = HIGH(1))),
        "symlink");
    demand(is_same(words_of(SYS_symlinkat),
               WORDS(.by_path = true, .fd = 2, .path = HIGH(3), .second_path = HIGH(1))),
        "symlinkat");
    demand(is_same(words_of(SYS_link), WORDS(.by_path = true, .fd = AT_FDCWD, .path = HIGH(2),
                                           .second_fd = AT_FDCWD, .second_path = HIGH(1))),
        "link");
    demand(is_same(words_of(SYS_linkat), WORDS(.by_path = true, .fd = 3, .path = HIGH(4),
                                             .second_fd = 1, .second_path = HIGH(2), .flags = 5)),
        "linkat");
    demand(is_same(words_of(SYS_rename), WORDS(.by_path = true, .fd = AT_FDCWD, .path = HIGH(1),
                                             .second_fd = AT_FDCWD, .second_path = HIGH(2))),
        "rename");
    demand(is_same(words_of(SYS_renameat), WORDS(.by_path = true, .fd = 1, .path = HIGH(2),
                                               .second_fd = 3, .second_path = HIGH(4))),
        "renameat");
    demand(
        is_same(words_of(SYS_renameat2), WORDS(.by_path = true, .fd = 1, .path = HIGH(2),
                                             .second_fd = 3, .second_path = HIGH(4), .flags = 5)),
        "renameat2");
    demand(is_same(words_of(SYS_mmap), WORDS(.by_descriptor = true, .fd = 5, .length = HIGH(2),
                                           .protection = 3, .flags = 4, .offset = HIGH(6))),
        "mmap");
    demand(is_same(words_of(SYS_msync), WORDS(.address = HIGH(1), .length = HIGH(2), .flags = 3)),
        "msync");
}

static void look_at_bytes(void)
{
    const uint64_t most = 0x7ffff000;
    uint64_t at = 7;
    demand(wulgach_written_as(5, true, false) == WULGACH_WRITTEN_FILE &&
               wulgach_written_as(5, false, true) == WULGACH_WRITTEN_PRINT &&
               wulgach_written_as(5, false, false) == WULGACH_WRITTEN_NOT &&
               wulgach_written_as(0, true, true) == WULGACH_WRITTEN_NOT,
        "writes");
    demand(!wulgach_may_have_vectors(0) && wulgach_may_have_vectors(1) &&
               wulgach_may_have_vectors(IOV_MAX) && !wulgach_may_have_vectors(IOV_MAX + 1),
        "vectors");
    demand(wulgach_logged_of_vector(100, 5, true) == 5 &&
               wulgach_logged_of_vector(100, 5, false) == 0 &&
               wulgach_logged_of_vector(100, most, true) == most - 100 &&
               wulgach_logged_of_vector(most, 5, true) == 0,
        "what is logged of a vector");
    demand(wulgach_asked_at(5000, 5000, 0, &at) && at == 5000 &&
               wulgach_asked_at(5000, 5000, 1, &at) && at == 8192 &&
               !wulgach_asked_at(5000, 5000, 2, &at) && at == 8192,
        "where it is asked");
    demand(wulgach_asked_at(4096, 4097, 1, &at) && at == 8192 &&
               !wulgach_asked_at(4096, 4096, 1, &at) && !wulgach_asked_at(4096, 0, 0, &at) &&
               !wulgach_asked_at(UINT64_MAX, 1, 0, &at) &&
               !wulgach_asked_at(4096, 4096, UINT64_MAX, &at),
        "where it isn't");
    demand(wulgach_readable_bytes(5000, 5000, 0) == 0 &&
               wulgach_readable_bytes(5000, 5000, 1) == 3192 &&
               wulgach_readable_bytes(5000, 5000, 2) == 5000 &&
               wulgach_readable_bytes(UINT64_MAX, 1, 0) == 0,
        "what can be read");
    demand(wulgach_path_part(5000, 0) == 3192 && wulgach_path_part(8192, 3192) == PATH_MAX - 3192 &&
               wulgach_path_part(9096, PATH_MAX) == 0,
        "parts of a path");
    demand(wulgach_parts_alone(0) == 0 && wulgach_parts_alone(IOV_MAX - 3) == IOV_MAX - 3 &&
               wulgach_parts_alone(IOV_MAX - 2) == IOV_MAX - 4,
        "parts of an event");
    demand(wulgach_event_size(0, 0, 0) == 72 && wulgach_event_size(3, 4, 5) == 84,
        "the size of an event");
    demand(wulgach_log_goes_on(84, 84) && !wulgach_log_goes_on(83, 84) &&
               !wulgach_log_goes_on(-28, 84),
        "a log that ends");
    demand(wulgach_takes_events(S_IRUSR | S_IWUSR) && !wulgach_takes_events(S_IRUSR | S_IWGRP),
        "a log that has ended");
}

static bool has_part(const char *path, uint64_t begin, uint64_t end)
{
    struct wulgach_last_part part = {7, 7};
    wulgach_last_part_of((const uint8_t *)path, strlen(path), &part);
    return part.begin == begin && part.end == end;
}

static bool is_entry(const char *part)
{
    return wulgach_is_entry_name((const uint8_t *)part, strlen(part));
}

static void look_at_names(void)
{
    demand(wulgach_logs_names(SYS_rename, true, false) &&
               wulgach_logs_names(SYS_renameat2, false, true) &&
               !wulgach_logs_names(SYS_rename, false, false),
        "renames");
    demand(wulgach_logs_names(SYS_link, true, false) &&
               !wulgach_logs_names(SYS_link, false, true) &&
               wulgach_logs_names(SYS_mkdir, true, false),
        "other names");
    demand(has_part("name", 0, 4) && has_part("/name", 1, 5) && has_part("a//name//", 3, 7) &&
               has_part("/", 0, 0) && has_part("", 0, 0) && has_part("a/", 0, 1),
        "the last part of a path");
    demand(is_entry("name") && is_entry("...") && is_entry(".n") && !is_entry(".") &&
               !is_entry("..") && !is_entry(""),
        "names in a folder");
    demand(wulgach_linked_flags(0) == AT_SYMLINK_NOFOLLOW &&
               wulgach_linked_flags(AT_SYMLINK_FOLLOW) == 0 &&
               wulgach_linked_flags(AT_EMPTY_PATH) == AT_EMPTY_PATH,
        "what is linked");
    demand(wulgach_follows_link(O_CREAT, 0) && wulgach_follows_link(O_CREAT, 39) &&
               !wulgach_follows_link(O_CREAT, 40) && !wulgach_follows_link(O_CREAT | O_EXCL, 0) &&
               !wulgach_follows_link(O_CREAT | O_NOFOLLOW, 0),
        "symbolic links");
    demand(wulgach_says_how(24) && wulgach_says_how(32) && !wulgach_says_how(23),
        "how a file is opened");
    demand(wulgach_end_result(SYS_openat, 5) == 0 && wulgach_end_result(SYS_openat, -2) == -2 &&
               wulgach_end_result(SYS_write, 5) == 5,
        "what an end says");
    demand(wulgach_tells_file(SYS_open, 5) && !wulgach_tells_file(SYS_open, -2) &&
               wulgach_tells_file(SYS_mkdir, 0) && wulgach_tells_file(SYS_symlinkat, 0) &&
               !wulgach_tells_file(SYS_mkdir, -17) && !wulgach_tells_file(SYS_link, 0),
        "which file was made");
}

static void look_at_memory(void)
{
    const struct wulgach_mapped_memory memory = {true, true, 5, 8192, 20480, 4096},
                                       own = {false, true, 5, 8192, 20480, 4096},
                                       elsewhere = {true, false, 5, 8192, 20480, 4096},
                                       without = {true, true, 0, 8192, 20480, 4096};
    struct wulgach_file_part part = {7, 7};
    uint64_t bytes = 7;
    demand(wulgach_looks_at_map(PROT_READ | PROT_WRITE, MAP_SHARED, 0x1000) &&
               !wulgach_looks_at_map(PROT_READ, MAP_SHARED, 0x1000) &&
               !wulgach_looks_at_map(PROT_WRITE, MAP_SHARED | MAP_ANONYMOUS, 0x1000) &&
               !wulgach_looks_at_map(PROT_WRITE, MAP_SHARED, -12) &&
               wulgach_looks_at_map(PROT_WRITE, MAP_SHARED, -4096),
        "maps");
    demand(wulgach_whole_pages(0, &bytes) && bytes == 0 && wulgach_whole_pages(1, &bytes) &&
               bytes == 4096 && wulgach_whole_pages(4096, &bytes) && bytes == 4096 &&
               !wulgach_whole_pages(UINT64_MAX, &bytes) && bytes == 4096,
        "whole pages");
    demand(wulgach_next_mapped_page(8200, 4096, 40960) == 8192 &&
               wulgach_next_mapped_page(-22, 4096, 40960) == 4096 &&
               wulgach_next_mapped_page(-6, 4096, 40960) == 40960,
        "the next page");
    demand(!wulgach_changed_part((const uint8_t *)"same", 4, (const uint8_t *)"same", 4, &part) &&
               part.offset == 7 &&
               wulgach_changed_part(
                   (const uint8_t *)"before", 6, (const uint8_t *)"bXfoYe", 6, &part) &&
               part.offset == 1 && part.length == 4,
        "what has changed");
    demand(wulgach_has_synced_memory(0) && wulgach_has_synced_memory(-12) &&
               !wulgach_has_synced_memory(-22),
        "an msync");
    demand(
        wulgach_synced_part(&memory, 12288, 1, &part) && part.offset == 8192 && part.length == 4096,
        "a sync of a byte");
    demand(wulgach_synced_part(&memory, 4096, 8192, &part) && part.offset == 4096 &&
               part.length == 4096 && wulgach_synced_part(&memory, 0, 1 << 20, &part) &&
               part.offset == 4096 && part.length == 12288,
        "what is synced of a mapping");
    demand(!wulgach_synced_part(&memory, 20480, 4096, &part) &&
               !wulgach_synced_part(&memory, 4096, 4096, &part) &&
               !wulgach_synced_part(&memory, 8192, 0, &part) &&
               !wulgach_synced_part(&memory, 8192, UINT64_MAX, &part) && part.length == 12288,
        "a sync of what stands beside it");
    demand(!wulgach_synced_part(&own, 8192, 1, &part) &&
               !wulgach_synced_part(&elsewhere, 8192, 1, &part) &&
               !wulgach_synced_part(&without, 8192, 1, &part),
        "memory that isn't a file's");
}

/* The flags are those of open(2) and pwritev2(2), and the bytes of a sync those that a kernel's was
 * seen to write. */
static void look_at_logs(void)
{
    static const struct wulgach_synced_kind regular = {.is_regular = true},
                                            folder = {.is_folder = true}, pipe = {0};
    demand(wulgach_is_logged_kind(&regular) && wulgach_is_logged_kind(&folder) &&
               !wulgach_is_logged_kind(&pipe),
        "which files are logged");
    static const struct wulgach_openness open = {.is_open = true}, path = {true, true};
    demand(wulgach_counts_as_synced(&open, &regular) && wulgach_counts_as_synced(&open, &folder) &&
               !wulgach_counts_as_synced(&open, &pipe) &&
               !wulgach_counts_as_synced(&path, &regular) &&
               !wulgach_counts_as_synced(&(struct wulgach_openness){0}, &regular),
        "what is synced");
    demand(wulgach_logged_of(WULGACH_FORM_TOKEN, 23, false) == WULGACH_LOGS_WRITE &&
               wulgach_logged_of(WULGACH_FORM_TOKEN, 2, false) == WULGACH_LOGS_WRITE &&
               wulgach_logged_of(WULGACH_FORM_TOKEN, 5, false) == WULGACH_LOGS_WRITE,
        "writes");
    demand(wulgach_logged_of(WULGACH_FORM_TOKEN, 3, false) == WULGACH_LOGS_SYNC &&
               wulgach_logged_of(WULGACH_FORM_TOKEN, 3, true) == WULGACH_LOGS_SYNC,
        "syncs");
    demand(wulgach_logged_of(WULGACH_FORM_TOKEN, 23, true) == WULGACH_LOGS_NOTHING &&
               wulgach_logged_of(WULGACH_FORM_REFUSED, 23, false) == WULGACH_LOGS_NOTHING &&
               wulgach_logged_of(WULGACH_FORM_REFUSED, 3, false) == WULGACH_LOGS_NOTHING &&
               wulgach_logged_of(WULGACH_FORM_TOKEN, 22, false) == WULGACH_LOGS_NOTHING &&
               wulgach_logged_of(WULGACH_FORM_CANCEL, 14, false) == WULGACH_LOGS_NOTHING,
        "what isn't logged");
    enum { APPENDS = 02000, SYNCS_DATA = 010000, SYNCS = 04010000 };
    static const struct {
        struct wulgach_writing writing;
        uint32_t begins;
        bool syncs;
    } rows[] = {
        {{true, 1, 0, 5}, WULGACH_BEGINS_AT_OFFSET, false},
        {{true, 1, 0, UINT64_MAX}, WULGACH_BEGINS_AT_POSITION, false},
        {{true, 1 | APPENDS, 0, 5}, WULGACH_BEGINS_AT_END, false},
        {{true, 1 | APPENDS, 0, UINT64_MAX}, WULGACH_BEGINS_AT_END, false},
        {{true, 1 | APPENDS, 32, 5}, WULGACH_BEGINS_AT_OFFSET, false},
        {{true, 1 | APPENDS, 32, UINT64_MAX}, WULGACH_BEGINS_AT_POSITION, false},
        {{true, 1, 16, 5}, WULGACH_BEGINS_AT_END, false},
        {{true, 1, 32, 5}, WULGACH_BEGINS_AT_OFFSET, false},
        {{false, 1 | APPENDS | SYNCS, 0, 5}, WULGACH_BEGINS_AT_OFFSET, false},
        {{true, 1 | SYNCS_DATA, 0, 5}, WULGACH_BEGINS_AT_OFFSET, true},
        {{true, 1 | SYNCS, 0, 5}, WULGACH_BEGINS_AT_OFFSET, true},
        {{true, 1, 2, 5}, WULGACH_BEGINS_AT_OFFSET, true},
        {{true, 1, 4, 5}, WULGACH_BEGINS_AT_OFFSET, true},
        {{true, 1, 1 | 8, 5}, WULGACH_BEGINS_AT_OFFSET, false},
    };
    for (size_t i = 0; i < sizeof rows / sizeof *rows; i++)
        demand(wulgach_write_begins(&rows[i].writing) == rows[i].begins &&
                   wulgach_syncs_itself(&rows[i].writing) == rows[i].syncs,
            "a write");
    struct wulgach_synced_bytes synced = {7, 7};
    demand(!wulgach_synced_bytes_of(&(struct wulgach_submission){.opcode = 3}, &synced) &&
               synced.begin == 7 && synced.length == 7,
        "a sync of all");
    demand(
        wulgach_synced_bytes_of(&(struct wulgach_submission){.opcode = 3, .len = 4096}, &synced) &&
            synced.begin == 0 && synced.length == 4096,
        "of the first bytes");
    demand(
        wulgach_synced_bytes_of(&(struct wulgach_submission){.opcode = 3, .off = 4096}, &synced) &&
            synced.begin == 4096 && synced.length == 0,
        "of none");
}

int main(void)
{
    look_at_calls();
    look_at_bits();
    look_at_words();
    look_at_bytes();
    look_at_names();
    look_at_memory();
    look_at_logs();
    puts("logged: as called for");
    return 0;
}
