/* The main job of the libraries: a TFS volume is made, used and damaged, kept on a chip whose power is taken, requests
 * on it are recorded and replayed, and a romfs image is read. */
#include <stdio.h>
#include <stdlib.h>
#include <string.h>

#include "romfs.h"
#include "tfs.h"
#include "tfs_trace.h"

#define TEXT(s) (const uint8_t *)(s), strlen(s)

/* The number and the text of a refusal, of a TFS volume with the slot or block at fault, if it has one. */
static void say_refusal(uint32_t refusal, uint32_t place)
{
    int of_rom = refusal >= ROMFS_TOO_SHORT && refusal <= ROMFS_NO_SUCH_HEADER;

    printf("refused %lu: %s", (unsigned long)refusal, of_rom ? romfs_refusal_text(refusal) : tfs_refusal_text(refusal));
    if (refusal == TFS_BAD_SLOT || refusal == TFS_BAD_INODE)
        printf(" (slot %lu)", (unsigned long)place);
    if (refusal == TFS_BLOCK_TWICE || refusal == TFS_MAP_WRONG)
        printf(" (block %lu)", (unsigned long)place);
    printf("\n");
}

/* An answer with a value. */
static void say(const char *request, uint32_t refusal, uint32_t place, uint32_t value)
{
    printf("%s: ", request);
    if (refusal == 0)
        printf("%lu\n", (unsigned long)value);
    else
        say_refusal(refusal, place);
}

/* An answer without one. */
static void say_done(const char *request, uint32_t refusal, uint32_t place)
{
    printf("%s: ", request);
    if (refusal == 0)
        printf("done\n");
    else
        say_refusal(refusal, place);
}

static void value(const char *request, tfs_result r)
{
    say(request, r.refusal, r.place, r.value);
}

static void done(const char *request, tfs_result r)
{
    say_done(request, r.refusal, r.place);
}

/* The answer of a read or a write: the count, and how many of the file's blocks hold those bytes. */
static void moved(const char *request, tfs_result r)
{
    if (r.refusal == 0)
        printf("%s: count %lu, blocks %lu\n", request, (unsigned long)r.value, (unsigned long)r.blocks);
    else
        say_done(request, r.refusal, r.place);
}

/* A volume of 64 KiB with one file, which is written and read back. */
static void use_volume(uint8_t *image, size_t length)
{
    uint8_t buffer[32];
    tfs_slot slot;

    done("format", tfs_format(image, length, TEXT("PUMP")));
    value("create TIMING, inode number", tfs_create(image, length, TEXT("TIMING"), 1000));
    value("write at 990, count", tfs_write(image, length, TEXT("TIMING"), 990, TEXT("3 minutes on, 2 off")));
    memset(buffer, '.', sizeof buffer);
    value("read at 990, count", tfs_read(image, length, TEXT("TIMING"), 990, buffer, sizeof buffer));
    printf("buffer: \"%.*s\"\n", (int)sizeof buffer, (const char *)buffer);
    moved("write at 510", tfs_write(image, length, TEXT("TIMING"), 510, TEXT("on, off")));
    moved("read at 512", tfs_read(image, length, TEXT("TIMING"), 512, buffer, 5));
    slot = tfs_list(image, length, 0);
    printf("slot 0: %s, %lu bytes\n", (const char *)slot.name, (unsigned long)slot.size);
    value("free bytes", tfs_free_bytes(image, length));
    value("read PRESSURE, count", tfs_read(image, length, TEXT("PRESSURE"), 0, buffer, sizeof buffer));
}

/* A request finds what breaks the rules of the volume, and then changes nothing. */
static void damage_volume(uint8_t *image, size_t length)
{
    uint8_t *second = image + 3 * TFS_BLOCK_SIZE + 11; /* the second content block of TIMING, 5 */
    uint8_t *map = image + TFS_BLOCK_SIZE + 3;         /* blocks 0 to 7 in the map */

    *second = 4;
    done("check with a wrong block number", tfs_check(image, length));
    done("remove TIMING", tfs_remove(image, length, TEXT("TIMING")));
    *second = 5;
    *map ^= 1 << 6;
    done("check with a wrong map bit", tfs_check(image, length));
    *map ^= 1 << 6;
    done("check after repair", tfs_check(image, length));
}

/* A pretended memory chip, and how many blocks it stores before its power is taken. */
typedef struct {
    uint8_t bytes[65536];
    unsigned stores_left;
} chip;

/* Stores a block; 0 if the power is gone. */
static int program_block(chip *to, uint32_t number, const uint8_t *block)
{
    if (to->stores_left == 0)
        return 0;
    to->stores_left--;
    memcpy(to->bytes + TFS_BLOCK_SIZE * number, block, TFS_BLOCK_SIZE);
    return 1;
}

/* Creates a file on the chip, store by store; image is the copy of the volume in memory, which follows. */
static void create_on_chip(chip *to, uint8_t *image, size_t length, const char *name, uint32_t size)
{
    uint8_t block[TFS_BLOCK_SIZE];

    printf("stores of create %s:", name);
    for (size_t k = 1;; k++) {
        tfs_result store = tfs_create_store(image, length, TEXT(name), size, k, block, sizeof block);

        if (store.refusal == TFS_NO_SUCH_STORE && k > 1)
            break;
        if (store.refusal != TFS_OK) {
            printf(" none, ");
            say_refusal(store.refusal, store.place);
            return;
        }
        if (!program_block(to, store.value, block)) {
            printf(" and the power is gone\n");
            return;
        }
        printf(" %lu", (unsigned long)store.value);
    }
    printf("\n");
    done("the same create in memory", tfs_create(image, length, TEXT(name), size));
}

/* After power-up the chip is read and checked; where only the map has bits of a file that is not there, they go. */
static void power_up(chip *from, uint8_t *image, size_t length)
{
    tfs_result answer;

    memcpy(image, from->bytes, length);
    answer = tfs_check(image, length);
    done("check after power-up", answer);
    if (answer.refusal != TFS_MAP_WRONG)
        return;
    answer = tfs_mend(image, length);
    done("mend", answer);
    if (answer.refusal != TFS_OK)
        return;
    from->stores_left = 1;
    program_block(from, 1, image + TFS_BLOCK_SIZE);
    done("check after mend", tfs_check(image, length));
}

/* The same create is made twice: the power is taken before its last store, and then not. */
static void use_chip(void)
{
    static chip flash;
    static uint8_t image[sizeof flash.bytes];

    done("format of a volume without a label", tfs_format(flash.bytes, sizeof flash.bytes, TFS_NO_BYTES, 0));
    memcpy(image, flash.bytes, sizeof image);
    flash.stores_left = 4;
    create_on_chip(&flash, image, sizeof image, "TIMING", 1000);
    power_up(&flash, image, sizeof image);
    value("free bytes", tfs_free_bytes(image, sizeof image));
    flash.stores_left = 5;
    create_on_chip(&flash, image, sizeof image, "TIMING", 1000);
    power_up(&flash, image, sizeof image);
    value("free bytes", tfs_free_bytes(image, sizeof image));
    create_on_chip(&flash, image, sizeof image, "TIMING", 1000);
}

/* A name means the file that has it now: none after a remove, a new one after a create. */
static void use_name_again(uint8_t *image, size_t length)
{
    uint8_t buffer[4];

    done("remove TIMING", tfs_remove(image, length, TEXT("TIMING")));
    value("read TIMING, count", tfs_read(image, length, TEXT("TIMING"), 990, buffer, sizeof buffer));
    value("create RATES, inode number", tfs_create(image, length, TEXT("RATES"), 8));
    value("create TIMING, inode number", tfs_create(image, length, TEXT("TIMING"), 8));
    value("read TIMING, count", tfs_read(image, length, TEXT("TIMING"), 6, buffer, sizeof buffer));
}

/* Writes a request and its answer behind the records of a trace, and gives the trace's new length. Ends the program if
 * the record does not fit: a trace without it could not be replayed. */
static size_t record(uint8_t *trace, size_t length, size_t room, tfs_entry entry, tfs_result answer, const char *name,
                     const uint8_t *bytes, size_t bytes_length)
{
    tfs_written written;

    entry.refusal = answer.refusal;
    entry.value = answer.value;
    written = tfs_trace_write(trace + length, room - length, entry, TEXT(name), bytes, bytes_length);
    if (written.refusal != 0) {
        fprintf(stderr, "refused %lu: %s\n", (unsigned long)written.refusal, tfs_trace_refusal_text(written.refusal));
        exit(EXIT_FAILURE);
    }
    return length + (size_t)written.length;
}

static void say_replayed(const char *volume, tfs_replayed r)
{
    static const char *const outcomes[] = {"records replayed", "malformed record", "differing record"};

    if (r.outcome == TFS_REPLAY_REFUSED)
        say_done(volume, (uint32_t)r.refusal, (uint32_t)r.place);
    else
        printf("%s: %s %lu\n", volume, outcomes[r.outcome], (unsigned long)r.number);
}

/* Two requests, recorded as they are made; the length of the trace. */
static size_t record_two(uint8_t *image, size_t length, uint8_t *trace, size_t room)
{
    tfs_entry create = {0}, write = {0};
    tfs_result answer;
    size_t end;

    create.kind = TFS_CREATE;
    create.size = 4;
    answer = tfs_create(image, length, TEXT("LOG"), 4);
    end = record(trace, 0, room, create, answer, "LOG", TFS_NO_BYTES, 0);
    write.kind = TFS_WRITE;
    write.offset = 2;
    answer = tfs_write(image, length, TEXT("LOG"), 2, TEXT("on/off"));
    return record(trace, end, room, write, answer, "LOG", TEXT("on/off"));
}

/* They are replayed on the volume as it was before them, and as it is after. */
static void record_and_replay(uint8_t *image, size_t length)
{
    static uint8_t before[65536];
    uint8_t trace[64];
    size_t end;
    tfs_record first;

    memcpy(before, image, length);
    end = record_two(image, length, trace, sizeof trace);
    printf("trace of two requests: %lu bytes\n", (unsigned long)end);
    first = tfs_trace_read(trace, end, 0);
    printf("first record: kind %lu, name %.*s, size %lu; the next at byte %lu\n", (unsigned long)first.entry.kind,
           (int)first.name_length, (const char *)trace + first.name_at, (unsigned long)first.entry.size,
           (unsigned long)first.next);
    say_replayed("replay on the volume as it was", tfs_replay(before, length, trace, end));
    printf("both volumes are %s\n", memcmp(before, image, length) == 0 ? "the same" : "different");
    say_replayed("replay on the volume as it is", tfs_replay(before, length, trace, end));
    say_replayed("replay of a trace cut off", tfs_replay(before, length, trace, 3));
    before[0] = 1;
    say_replayed("replay on a damaged volume", tfs_replay(before, length, trace, end));
}

/* The volume "V" with an empty regular file "a". */
static void read_rom(void)
{
    static uint8_t rom[64] = {
        '-', 'r', 'o', 'm', '1', 'f', 's', '-', 0, 0, 0, 0x40, 0x4B, 0x27, 0x1D, 0x26,
        'V', 0,   0,   0,   0,   0,   0,   0,   0, 0, 0, 0,    0,    0,    0,    0,
        0,   0,   0,   2,   0,   0,   0,   0,   0, 0, 0, 0,    0x9E, 0xFF, 0xFF, 0xFE,
        'a', 0,   0,   0,   0,   0,   0,   0,   0, 0, 0, 0,    0,    0,    0,    0,
    };
    romfs_result checked, found;
    romfs_part part;

    checked = romfs_check(rom, sizeof rom);
    say_done("romfs check", checked.refusal, checked.place);
    found = romfs_find(rom, sizeof rom, ROMFS_ROOT, TEXT("a"));
    say("find a, header", found.refusal, found.place, found.value);
    part = romfs_content(rom, sizeof rom, found.value);
    say("content of a, offset", part.refusal, part.place, part.offset);
    say("content of a, length", part.refusal, part.place, part.length);
    rom[48] = 'b';
    checked = romfs_check(rom, sizeof rom);
    say_done("romfs check with a wrong name", checked.refusal, checked.place);
}

int main(void)
{
    static uint8_t image[65536];

    printf("headers of version %s\n", TFS_VERSION);
    use_volume(image, sizeof image);
    damage_volume(image, sizeof image);
    use_name_again(image, sizeof image);
    use_chip();
    record_and_replay(image, sizeof image);
    read_rom();
    return 0;
}
