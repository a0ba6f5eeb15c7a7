/* A pump's life with its timing file: the memory is trained once, each boot takes the values that are stored, and after
 * the lid was opened, or on another board, it takes none. Then the same on a chip whose power is taken. */
#include <stdio.h>
#include <stdlib.h>
#include <string.h>

#include "tfs.h"
#include "timing.h"

#define VOLUME 8192u /* bytes */
#define BOARD 4711u
#define MAKER 44u /* of the memory */

#define TEXT(s) (const uint8_t *)(s), strlen(s)

/* ---- What the pump does */

static void say(const char *request, uint32_t refusal)
{
    printf("%s: ", request);
    if (refusal != TFS_OK)
        printf("refused %lu, ", (unsigned long)refusal);
    printf("%s\n", timing_refusal_text(refusal));
}

/* Ends the program where a request is refused that cannot be. */
static void must_be_granted(uint32_t refusal)
{
    if (refusal == TFS_OK)
        return;
    fprintf(stderr, "refused %lu, %s\n", (unsigned long)refusal, timing_refusal_text(refusal));
    exit(EXIT_FAILURE);
}

/* Stands for the training, which takes long: values that differ each time. */
static void train(uint16_t values[TIMING_VALUES])
{
    static uint16_t next = 1000;

    for (size_t i = 0; i < TIMING_VALUES; i++)
        values[i] = next++;
}

/* Values of one training run from the first to the last. */
static void say_values(const uint16_t values[TIMING_VALUES])
{
    for (size_t i = 1; i < TIMING_VALUES; i++)
        if (values[i] != values[0] + i) {
            printf("a mixture of values\n");
            return;
        }
    printf("values %u to %u\n", values[0], values[TIMING_VALUES - 1]);
}

/* A boot on a board with memory of a maker. Where it is refused the pump trains. */
static void boot(const uint8_t *image, uint32_t board, uint32_t maker)
{
    timing_booted booted = timing_boot(image, VOLUME, board, maker);

    printf("boot on board %lu, maker %lu: ", (unsigned long)board, (unsigned long)maker);
    if (booted.refusal == TFS_OK)
        say_values(booted.values);
    else
        printf("refused %lu, %s\n", (unsigned long)booted.refusal, timing_refusal_text(booted.refusal));
}

/* One board from its first boot on, and what another one gets of its volume. */
static void one_board(uint8_t *image)
{
    uint16_t values[TIMING_VALUES];

    boot(image, BOARD, MAKER);
    train(values);
    say("store", timing_store(image, VOLUME, BOARD, MAKER, values).refusal);
    boot(image, BOARD, MAKER);
    say("open lid", timing_open_lid(image, VOLUME).refusal);
    boot(image, BOARD, MAKER);
    train(values);
    say("store for no board", timing_store(image, VOLUME, 0, MAKER, values).refusal);
    say("store", timing_store(image, VOLUME, BOARD, MAKER, values).refusal);
    boot(image, BOARD, MAKER);
    boot(image, BOARD, MAKER + 1);
    boot(image, BOARD + 1, MAKER);
}

/* A file of the same name that somebody else has made. */
static void meet_another_file(uint8_t *image)
{
    uint16_t values[TIMING_VALUES] = {0};

    must_be_granted(tfs_remove(image, VOLUME, TEXT(TIMING_FILE)).refusal);
    must_be_granted(tfs_create(image, VOLUME, TEXT(TIMING_FILE), 1000).refusal);
    boot(image, BOARD, MAKER);
    say("store", timing_store(image, VOLUME, BOARD, MAKER, values).refusal);
    say("open lid", timing_open_lid(image, VOLUME).refusal);
}

/* ---- The volume on a chip */

/* A pretended memory chip, and how many blocks it stores before its power is taken. */
typedef struct {
    uint8_t bytes[VOLUME];
    unsigned stores_left;
} chip;

/* Stores a block; 0 if the power is gone. */
static int program_block(chip *to, uint32_t number, const uint8_t *block)
{
    if (to->stores_left == 0)
        return 0;
    to->stores_left--;
    memcpy(to->bytes + TFS_BLOCK_SIZE * number, block, TFS_BLOCK_SIZE);
    printf(" %lu", (unsigned long)number);
    return 1;
}

/* Stores values on the chip, block by block; image is the copy of the volume in memory, which follows. */
static void store_on_chip(chip *to, uint8_t *image, const uint16_t values[TIMING_VALUES])
{
    uint8_t block[TFS_BLOCK_SIZE];

    for (size_t k = 1;; k++) {
        timing_result store = timing_store_block(image, VOLUME, BOARD, MAKER, values, k, block, sizeof block);

        if (store.refusal == TFS_NO_SUCH_STORE && k > 1)
            break; /* the last store is done */
        if (store.refusal != TFS_OK || !program_block(to, store.value, block))
            return;
    }
    must_be_granted(timing_store(image, VOLUME, BOARD, MAKER, values).refusal);
}

/* The same of opening the lid, which is one store. */
static void open_lid_on_chip(chip *to, uint8_t *image)
{
    uint8_t block[TFS_BLOCK_SIZE];
    timing_result store = timing_open_lid_block(image, VOLUME, 1, block, sizeof block);

    if (store.refusal == TFS_OK && program_block(to, store.value, block))
        must_be_granted(timing_open_lid(image, VOLUME).refusal);
}

/* After power-up the chip is read and checked, and mended where only the map is wrong. */
static void power_up(chip *from, uint8_t *image)
{
    memcpy(image, from->bytes, VOLUME);
    if (tfs_check(image, VOLUME).refusal == TFS_MAP_WRONG && tfs_mend(image, VOLUME).refusal == TFS_OK) {
        printf(" mended:");
        from->stores_left = 1;
        program_block(from, 1, image + TFS_BLOCK_SIZE);
    }
    printf("\n  ");
    boot(image, BOARD, MAKER);
}

/* Stores values on a chip, or opens the lid where there are none, with the power taken after so many blocks. */
static void cut(const chip *before, unsigned stores, const uint16_t *values)
{
    static chip flash;
    static uint8_t image[VOLUME];

    flash = *before;
    flash.stores_left = stores;
    memcpy(image, flash.bytes, VOLUME);
    printf("%s, power for %u, blocks stored:", values != NULL ? "store" : "open lid", stores);
    if (values != NULL)
        store_on_chip(&flash, image, values);
    else
        open_lid_on_chip(&flash, image);
    power_up(&flash, image);
}

/* The same for every number of blocks up to the last. */
static void cut_everywhere(const chip *before, unsigned last, const uint16_t *values)
{
    for (unsigned stores = 0; stores <= last; stores++)
        cut(before, stores, values);
}

/* A store that makes the file is five blocks, one to a file that stands is one, and so is an opening: wherever they are
 * cut, a boot gets the old values, or the new ones, or none. */
static void use_chip(void)
{
    static chip flash;
    uint16_t values[TIMING_VALUES];

    must_be_granted(tfs_format(flash.bytes, VOLUME, TFS_NO_BYTES, 0).refusal);
    train(values);
    cut_everywhere(&flash, 5, values);
    must_be_granted(timing_store(flash.bytes, VOLUME, BOARD, MAKER, values).refusal);
    train(values);
    cut_everywhere(&flash, 1, values);
    cut_everywhere(&flash, 1, NULL);
}

int main(void)
{
    static uint8_t image[VOLUME];

    say("format", tfs_format(image, VOLUME, TEXT("PUMP")).refusal);
    one_board(image);
    meet_another_file(image);
    use_chip();
    return 0;
}
