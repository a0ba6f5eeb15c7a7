/* How much stack each request uses: it runs on a thread whose stack is filled with one byte value, and the bytes
 * from the first one that has changed to the top are counted, less those of a thread that does nothing. Prints a table
 * in Markdown; exit status 1 if a request uses more than the headers say. */
#define _GNU_SOURCE
#include <pthread.h>
#include <stdio.h>
#include <stdlib.h>
#include <string.h>

#include "romfs.h"
#include "tfs.h"
#include "tfs_trace.h"
#include "timing.h"

#define STACK (256 * 1024)
#define PAINT 0xA5
#define TFS_MOST (4 * 1024)    /* as tfs.h, tfs_trace.h and timing.h say */
#define ROMFS_MOST (16 * 1024) /* as romfs.h says */
#define VOLUME (TFS_MAX_BLOCKS * TFS_BLOCK_SIZE)
#define DEEPEST 8

static uint8_t image[VOLUME], buffer[TFS_MAX_FILE], block[TFS_BLOCK_SIZE], rom[32 * (DEEPEST + 2)];
static uint8_t file[] = "A", link_name[] = "link", other[] = "NEW";
/* A record of each kind, the last a read of the whole file; their numbers have five groups where they may. */
static uint8_t trace[TFS_MAX_FILE + 256], out[256];
static size_t trace_length;
static uint16_t values[TIMING_VALUES];
static volatile uint32_t answer;

/* ---- the volume and the image */

static void put(uint8_t *at, uint32_t word)
{
    for (int i = 0; i < 4; i++)
        at[i] = (uint8_t)(word >> (24 - 8 * i));
}

/* Sets the checksum in the fourth word right. */
static void seal(uint8_t *part, size_t length)
{
    uint32_t sum = 0;

    put(part + 12, 0);
    for (size_t i = 0; i < length; i += 4)
        sum += (uint32_t)part[i] << 24 | (uint32_t)part[i + 1] << 16 | (uint32_t)part[i + 2] << 8 | part[i + 3];
    put(part + 12, 0u - sum);
}

static void header(uint32_t at, uint32_t first_word, uint32_t info, const uint8_t *name)
{
    put(rom + at, first_word);
    put(rom + at + 4, info);
    strcpy((char *)rom + at + 16, (const char *)name);
    seal(rom + at, 32);
}

/* One directory in another; the deepest list has a file and a hard link to it. */
static void make_rom(void)
{
    uint32_t at = 32;

    memcpy(rom, "-rom1fs-", 8);
    put(rom + 8, sizeof rom);
    for (; at < 32 * DEEPEST; at += 32)
        header(at, ROMFS_DIRECTORY, at + 32, file);
    header(at, (at + 32) | ROMFS_REGULAR_FILE, 0, file);
    header(at + 32, ROMFS_HARD_LINK, at, link_name);
    seal(rom, sizeof rom);
}

/* Ends the program where what is measured cannot be made. */
static void must_be_granted(uint32_t refusal)
{
    if (refusal == TFS_OK)
        return;
    fprintf(stderr, "stack: %s\n", tfs_refusal_text(refusal));
    exit(2);
}

/* As many files of the largest size as there are slots, but for one. */
static void make_volume(void)
{
    uint8_t name = 'A';

    must_be_granted(tfs_format(image, VOLUME, file, 1).refusal);
    for (unsigned i = 0; i + 1 < TFS_SLOTS; i++, name++)
        must_be_granted(tfs_create(image, VOLUME, &name, 1, TFS_MAX_FILE).refusal);
}

/* Adds a record to the trace. */
static void add(tfs_entry entry, const uint8_t *name, size_t name_length, size_t bytes_length)
{
    trace_length += tfs_trace_write(trace + trace_length, sizeof trace - trace_length, entry, name, name_length, buffer,
                                    bytes_length)
                        .length;
}

/* A create, a write, a read and a remove of a new file, free bytes, then a read into the longest buffer. */
static void make_trace(void)
{
    tfs_entry entry = {0};

    entry.kind = TFS_CREATE;
    entry.size = TFS_MAX_FILE;
    add(entry, other, 3, 0);
    entry.kind = TFS_WRITE;
    entry.refusal = TFS_OFFSET_PAST_END;
    entry.offset = UINT32_MAX;
    add(entry, other, 3, 64);
    entry.kind = TFS_READ;
    entry.length = UINT32_MAX;
    add(entry, other, 3, 0);
    entry.refusal = 0;
    entry.kind = TFS_REMOVE;
    add(entry, other, 3, 0);
    entry.kind = TFS_FREE_BYTES;
    entry.value = tfs_free_bytes(image, VOLUME).value;
    add(entry, other, 0, 0);
    entry.kind = TFS_READ;
    entry.offset = 0;
    add(entry, file, 1, TFS_MAX_FILE);
}

/* ---- the requests */

#define REQUEST(name, call)                                                                                            \
    static void name(void)                                                                                             \
    {                                                                                                                  \
        answer = (call).refusal;                                                                                       \
    }

static const tfs_entry largest = {TFS_WRITE, 0, UINT32_MAX, 0, 0, UINT32_MAX};

static void nothing(void)
{
    answer = 0;
}

static void run_replay(void)
{
    answer = tfs_replay(image, VOLUME, trace, trace_length).outcome != TFS_ALL_REPLAYED;
}

REQUEST(run_format, tfs_format(buffer, sizeof buffer, other, 3))
REQUEST(run_check, tfs_check(image, VOLUME))
REQUEST(run_create, tfs_create(image, VOLUME, other, 3, TFS_MAX_FILE))
REQUEST(run_remove, tfs_remove(image, VOLUME, other, 3))
REQUEST(run_read, tfs_read(image, VOLUME, file, 1, 0, buffer, sizeof buffer))
REQUEST(run_write, tfs_write(image, VOLUME, file, 1, 0, buffer, sizeof buffer))
REQUEST(run_list, tfs_list(image, VOLUME, 24))
REQUEST(run_free_bytes, tfs_free_bytes(image, VOLUME))
REQUEST(run_content_store, tfs_create_store(image, VOLUME, other, 3, TFS_MAX_FILE, 1, block, sizeof block))
REQUEST(run_inode_store, tfs_create_store(image, VOLUME, other, 3, TFS_MAX_FILE, 128, block, sizeof block))
REQUEST(run_map_store, tfs_create_store(image, VOLUME, other, 3, TFS_MAX_FILE, 129, block, sizeof block))
REQUEST(run_directory_store, tfs_create_store(image, VOLUME, other, 3, TFS_MAX_FILE, 130, block, sizeof block))
REQUEST(run_remove_store, tfs_remove_store(image, VOLUME, file, 1, 2, block, sizeof block))
REQUEST(run_write_store, tfs_write_store(image, VOLUME, file, 1, 1, buffer, sizeof buffer, 127, block, sizeof block))
REQUEST(run_mend, (image[TFS_BLOCK_SIZE + 508] = 0x80, tfs_mend(image, VOLUME)))
REQUEST(run_record_read, tfs_trace_read(trace, trace_length, 0).entry)
REQUEST(run_record_write, tfs_trace_write(out, sizeof out, largest, other, 3, buffer, 64))
REQUEST(run_first_block, timing_store_block(image, VOLUME, 7, 1, values, 1, block, sizeof block))
REQUEST(run_inode_block, timing_store_block(image, VOLUME, 7, 1, values, 2, block, sizeof block))
REQUEST(run_map_block, timing_store_block(image, VOLUME, 7, 1, values, 3, block, sizeof block))
REQUEST(run_directory_block, timing_store_block(image, VOLUME, 7, 1, values, 4, block, sizeof block))
REQUEST(run_last_block, timing_store_block(image, VOLUME, 7, 1, values, 5, block, sizeof block))
REQUEST(run_timing_store, timing_store(image, VOLUME, 7, 1, values))
REQUEST(run_boot, timing_boot(image, VOLUME, 7, 1))
REQUEST(run_open_lid_block, timing_open_lid_block(image, VOLUME, 1, block, sizeof block))
REQUEST(run_open_lid, timing_open_lid(image, VOLUME))
REQUEST(run_rom_check, romfs_check(rom, sizeof rom))
REQUEST(run_rom_find, romfs_find(rom, sizeof rom, 32 * (DEEPEST - 1), link_name, 4))
REQUEST(run_rom_entry, romfs_entry(rom, sizeof rom, 32 * (DEEPEST + 1)))
REQUEST(run_rom_content, romfs_content(rom, sizeof rom, 32 * DEEPEST))

static const struct {
    const char *name;
    void (*run)(void);
} requests[] = {
    {"TFS format", run_format},
    {"TFS check", run_check},
    {"TFS create", run_create},
    {"TFS remove", run_remove},
    {"TFS read", run_read},
    {"TFS write", run_write},
    {"TFS list", run_list},
    {"TFS free bytes", run_free_bytes},
    {"TFS store of create: content", run_content_store},
    {"TFS store of create: inode", run_inode_store},
    {"TFS store of create: map", run_map_store},
    {"TFS store of create: directory", run_directory_store},
    {"TFS store of remove", run_remove_store},
    {"TFS store of write", run_write_store},
    {"TFS mend", run_mend},
    {"TFS record read", run_record_read},
    {"TFS record written", run_record_write},
    {"TFS replay", run_replay},
    {"timing block of store, file absent: zeros", run_first_block},
    {"timing block of store, file absent: inode", run_inode_block},
    {"timing block of store, file absent: map", run_map_block},
    {"timing block of store, file absent: directory", run_directory_block},
    {"timing block of store, file absent: content", run_last_block},
    {"timing store, file absent", run_timing_store},
    {"timing store, file stands", run_timing_store},
    {"timing boot", run_boot},
    {"timing block of store, file stands", run_first_block},
    {"timing block of open lid", run_open_lid_block},
    {"timing open lid", run_open_lid},
    {"romfs check", run_rom_check},
    {"romfs find", run_rom_find},
    {"romfs entry", run_rom_entry},
    {"romfs content", run_rom_content},
};

/* ---- the measurement */

static void *on_thread(void *request)
{
    (*(void (**)(void))request)();
    return NULL;
}

/* The bytes of a filled stack from the lowest one that a request has changed to the top. */
static size_t depth(void (*request)(void))
{
    static uint8_t stack[STACK] __attribute__((aligned(4096)));
    pthread_attr_t attributes;
    pthread_t thread;
    size_t clean = 0;

    memset(stack, PAINT, STACK);
    if (pthread_attr_init(&attributes) != 0 || pthread_attr_setstack(&attributes, stack, STACK) != 0 ||
        pthread_create(&thread, &attributes, on_thread, &request) != 0 || pthread_join(thread, NULL) != 0) {
        fprintf(stderr, "stack: no thread\n");
        exit(2);
    }
    while (clean < STACK && stack[clean] == PAINT)
        clean++;
    return STACK - clean;
}

int main(void)
{
    size_t idle = depth(nothing);
    int failed = 0;

    make_volume();
    make_trace();
    make_rom();
    printf("| request | bytes of stack |\n|---|---:|\n");
    for (size_t i = 0; i < sizeof requests / sizeof requests[0]; i++) {
        size_t used = depth(requests[i].run) - idle;

        printf("| %s | %lu |\n", requests[i].name, (unsigned long)used);
        failed |= used > (requests[i].name[0] == 'r' ? ROMFS_MOST : TFS_MOST) || answer != 0;
    }
    return failed;
}
