/*
 * TFS: a small writable filesystem in a lent byte image.
 *
 * Every request takes the whole image as a pointer and a length, of any
 * content and any length, and answers by value. No allocation, no global
 * state, no recursion, under 4 KiB of stack as measured. The library is
 * libtfs_c.a; it needs memcpy, memmove and memset. tfs_common.h says for what
 * machine and ABI it is.
 *
 * What a request costs: each but tfs_format does one check of the volume, and
 * then its own work. The check reads blocks 0 to 2 and the inode block of each
 * file, and no content: its time grows with the files and the blocks that they
 * use, and by the map a little with the blocks of the volume. A read or a write
 * moves its count of bytes, a create zeros its blocks, tfs_mend writes the map;
 * tfs_format sets blocks 0 to 2. Of a series of stores each one that is fetched
 * costs a check.
 *
 * What the caller must keep to:
 *  - a pointer is valid for the length beside it: readable where it is const,
 *    readable and writable where it is not;
 *  - a pointer is not NULL; with length 0 it may be any other address
 *    (tfs_common.h has one: TFS_NO_BYTES, TFS_NO_BUFFER);
 *  - the image, the name (or label), the bytes and the buffer of one call do
 *    not overlap;
 *  - nobody else writes to them during the call.
 * Nothing else is asked: a request has a defined answer for every value of
 * every number and every content of the image, the name, the bytes and the
 * buffer.
 *
 * A refused request changes no byte of the image or of the buffer.
 *
 * A name is its bytes with no zero at the end: "TIMING" has length 6.
 *
 * In the image a name ends at its first zero. Old bytes that stand behind it,
 * and behind the first name byte of a free slot, are ignored; they are kept
 * until a create, a remove or a format sets their slot.
 */
#ifndef TFS_H
#define TFS_H

#include "tfs_common.h"

#ifdef __cplusplus
extern "C" {
#endif

#define TFS_BLOCK_SIZE 512u
#define TFS_MAX_BLOCKS 4096u /* bytes past the last whole block, and past block 4095, are never read or changed */
#define TFS_MIN_IMAGE 1536u
#define TFS_SLOTS 25u
#define TFS_MAX_FILE 65024u /* bytes */
#define TFS_MAX_NAME 15u    /* bytes, none of them zero */

/* The refusal of a result. 1 to 7 say that the volume is not consistent: the
 * first broken rule is given, at its lowest place (by tfs_mend: of the faults
 * that it does not clear). */
enum tfs_refusal {
    TFS_OK = 0,
    TFS_IMAGE_TOO_SHORT = 1,  /* image under 1,536 bytes */
    TFS_BAD_MAGIC = 2,        /* bytes 0 to 3 are not the magic number */
    TFS_BAD_LABEL = 3,        /* no zero in the 16 bytes of the volume's name */
    TFS_BAD_SLOT = 4,         /* slot neither free (inode 0, first name byte 0) nor used (inode in range, a zero
                                 in the 16 name bytes but not as the first), or a name twice; place: slot */
    TFS_BAD_INODE = 5,        /* size or block number of the slot's inode out of range, or a number past
                                 its blocks not 0; place: slot */
    TFS_BLOCK_TWICE = 6,      /* block claimed twice; place: block */
    TFS_MAP_WRONG = 7,        /* map bit differs from the claims; place: block */
    TFS_NAME_NOT_ALLOWED = 8, /* empty (but for format), over 15 bytes, or holding a zero byte */
    TFS_SIZE_TOO_LARGE = 9,   /* over 65,024 bytes */
    TFS_NAME_EXISTS = 10,
    TFS_NO_FREE_SLOT = 11,
    TFS_NO_ROOM = 12,         /* too few free blocks */
    TFS_NO_SUCH_NAME = 13,
    TFS_NO_SUCH_SLOT = 14,    /* slot over 24 */
    TFS_OFFSET_PAST_END = 15, /* offset greater than the file's size */
    TFS_NO_SUCH_STORE = 32    /* k is 0 or past the last store, or the buffer is under 512 bytes */
};

/* The answer of a request. */
typedef struct tfs_result {
    uint32_t refusal; /* an enum tfs_refusal; 0 is granted */
    uint32_t place;   /* the slot or block at fault (refusals 4 to 7), else 0 */
    uint32_t value;   /* what is granted: an inode number, a count, free bytes or the number of a block; else 0 */
    uint32_t blocks;  /* of a granted read or write: in how many of the file's content blocks the bytes lie; else 0 */
} tfs_result;

/* The answer of tfs_list. */
typedef struct tfs_slot {
    uint32_t refusal;     /* as in tfs_result */
    uint32_t place;       /* as in tfs_result */
    uint32_t used;        /* 1: a file; 0: a free slot, or refused */
    uint32_t inode;       /* the file's inode number, else 0 */
    uint32_t size;        /* the file's size in bytes, else 0 */
    uint32_t name_length; /* 1 to 15 for a file, else 0 */
    uint8_t name[16];     /* the file's name up to its zero, padded with zeros; else zeros */
} tfs_slot;

/* The layout that the library has. */
TFS_SIZE_IS(tfs_result, 16);
TFS_FIELD_AT(tfs_result, refusal, 0);
TFS_FIELD_AT(tfs_result, place, 4);
TFS_FIELD_AT(tfs_result, value, 8);
TFS_FIELD_AT(tfs_result, blocks, 12);
TFS_SIZE_IS(tfs_slot, 40);
TFS_FIELD_AT(tfs_slot, refusal, 0);
TFS_FIELD_AT(tfs_slot, place, 4);
TFS_FIELD_AT(tfs_slot, used, 8);
TFS_FIELD_AT(tfs_slot, inode, 12);
TFS_FIELD_AT(tfs_slot, size, 16);
TFS_FIELD_AT(tfs_slot, name_length, 20);
TFS_FIELD_AT(tfs_slot, name, 24);

/* The text of a refusal, on one line and without its place; of a number that is
 * none, that it is unknown. */
TFS_INLINE const char *tfs_refusal_text(uint32_t refusal)
{
    switch (refusal) {
    case TFS_OK: return "granted";
    case TFS_IMAGE_TOO_SHORT: return "the image is under 1,536 bytes";
    case TFS_BAD_MAGIC: return "the image does not begin with the magic number of TFS";
    case TFS_BAD_LABEL: return "the volume's name has no zero in its 16 bytes";
    case TFS_BAD_SLOT: return "a slot is neither free nor used, or repeats the name of a lower slot";
    case TFS_BAD_INODE: return "a file has an inode with a size or a block number out of range";
    case TFS_BLOCK_TWICE: return "a block is claimed twice";
    case TFS_MAP_WRONG: return "a block has a map bit that differs from its use";
    case TFS_NAME_NOT_ALLOWED: return "the name is empty, over 15 bytes, or holds a zero byte";
    case TFS_SIZE_TOO_LARGE: return "the size is over 65,024 bytes";
    case TFS_NAME_EXISTS: return "a file has this name already";
    case TFS_NO_FREE_SLOT: return "there is no free slot";
    case TFS_NO_ROOM: return "there are too few free blocks";
    case TFS_NO_SUCH_NAME: return "no file has this name";
    case TFS_NO_SUCH_SLOT: return "the slot is over 24";
    case TFS_OFFSET_PAST_END: return "the offset is greater than the file's size";
    case TFS_NO_SUCH_STORE: return "there is no such store, or the buffer is under 512 bytes";
    default: return "unknown refusal";
    }
}

/* Makes an empty volume, whatever the image held. The label may be empty.
 * Zeros blocks 0 to 2 and leaves the later blocks. Refusals: 1, 8. */
TFS_MUST_USE tfs_result tfs_format(uint8_t *TFS_RESTRICT image, size_t image_length,
                                   const uint8_t *TFS_RESTRICT label, size_t label_length);

/* Checks the volume. Every request below but tfs_mend does this first and
 * gives the refusal of the check. Refusals: 1 to 7. */
TFS_MUST_USE tfs_result tfs_check(const uint8_t *image, size_t image_length);

/* Creates a file of this size, all zeros, and gives its inode number, which
 * tfs_list shows too. No request takes it, and after a remove or a format it
 * may be another file's. The size is fixed from then on.
 * Refusals: 8 to 12, in this order. */
TFS_MUST_USE tfs_result tfs_create(uint8_t *TFS_RESTRICT image, size_t image_length, const uint8_t *TFS_RESTRICT name,
                                   size_t name_length, uint32_t size);

/* Removes a file. Refusals: 8, 13. */
TFS_MUST_USE tfs_result tfs_remove(uint8_t *TFS_RESTRICT image, size_t image_length, const uint8_t *TFS_RESTRICT name,
                                   size_t name_length);

/* Reads the file that has this name now, from the offset on, into the buffer,
 * and gives the count: the buffer's length, or fewer at the file's end, 0 where
 * the offset equals the size. The rest of the buffer stays. In `blocks` it
 * gives in how many of the file's content blocks these bytes lie: 0 for a count
 * of 0, else 1 to (count + 510) / 512 + 1.
 * Refusals: 8, 13, 15, in this order. */
TFS_MUST_USE tfs_result tfs_read(const uint8_t *TFS_RESTRICT image, size_t image_length,
                                 const uint8_t *TFS_RESTRICT name, size_t name_length, uint32_t offset,
                                 uint8_t *TFS_RESTRICT buffer, size_t buffer_length);

/* Writes the buffer into the file that has this name now, from the offset on,
 * and gives the count: the buffer's length, or fewer at the file's end, 0 where
 * the offset equals the size; and `blocks`, as tfs_read does.
 * Refusals: 8, 13, 15, in this order. */
TFS_MUST_USE tfs_result tfs_write(uint8_t *TFS_RESTRICT image, size_t image_length, const uint8_t *TFS_RESTRICT name,
                                  size_t name_length, uint32_t offset, const uint8_t *TFS_RESTRICT buffer,
                                  size_t buffer_length);

/* Gives what stands in a slot, 0 to 24. Refusal: 14. */
TFS_MUST_USE tfs_slot tfs_list(const uint8_t *image, size_t image_length, uint32_t slot);

/* Gives the free bytes: 512 for each free block. */
TFS_MUST_USE tfs_result tfs_free_bytes(const uint8_t *image, size_t image_length);

/* ---- A volume on a memory chip, whose power may be taken at any moment
 *
 * A create, a remove and a write are each a series of stores of whole blocks,
 * numbered from 1. The three requests below give the k-th store: in `value` the
 * number of the block, and its 512 bytes at the start of the buffer, whose rest
 * stays. The image stays. So a copy of the volume in memory drives the chip:
 *
 *     for (size_t k = 1;; k++) {
 *         tfs_result store = tfs_create_store(image, length, name, name_length, size, k, block, sizeof block);
 *         if (store.refusal == TFS_NO_SUCH_STORE && k > 1) break;  (the last store is done)
 *         if (store.refusal != TFS_OK) return store.refusal;       (refused: nothing is stored)
 *         program_block(store.value, block);                       (waits until it has been stored)
 *     }
 *     return tfs_create(image, length, name, name_length, size).refusal;   (the copy follows)
 *
 * Every k is fetched from the same image, as it was before the request. A
 * create has a store for each content block and 3 more, a remove has 2, a write
 * as many as tfs_write tells in `blocks`: one that moves no byte has none, and
 * its first answer is 32.
 *
 * After power-up read the chip and check. On refusal 7 mend, and if that is
 * granted program block 1. Wherever the series was cut, mend is granted. Of a
 * create or a remove all names, sizes and contents are then as before it, or all
 * as after it (free blocks may hold other bytes than before); of a write each
 * block is as before or as after. The chip must store a block wholly or not at
 * all. tfs_create, tfs_remove and tfs_write themselves change the image byte by
 * byte, in no promised order. */

/* Gives the k-th store of tfs_create: the content blocks in the file's order,
 * then inode, map and directory. Refusals: those of tfs_create, then 32. */
TFS_MUST_USE tfs_result tfs_create_store(const uint8_t *TFS_RESTRICT image, size_t image_length,
                                         const uint8_t *TFS_RESTRICT name, size_t name_length, uint32_t size,
                                         size_t k, uint8_t *TFS_RESTRICT buffer, size_t buffer_length);

/* Gives the k-th store of tfs_remove: directory, map. Refusals: those of
 * tfs_remove, then 32. */
TFS_MUST_USE tfs_result tfs_remove_store(const uint8_t *TFS_RESTRICT image, size_t image_length,
                                         const uint8_t *TFS_RESTRICT name, size_t name_length, size_t k,
                                         uint8_t *TFS_RESTRICT buffer, size_t buffer_length);

/* Gives the k-th store of tfs_write of these bytes: each content block in which
 * they lie, in the file's order. Refusals: those of tfs_write, then 32. */
TFS_MUST_USE tfs_result tfs_write_store(const uint8_t *TFS_RESTRICT image, size_t image_length,
                                        const uint8_t *TFS_RESTRICT name, size_t name_length, uint32_t offset,
                                        const uint8_t *TFS_RESTRICT bytes, size_t bytes_length, size_t k,
                                        uint8_t *TFS_RESTRICT buffer, size_t buffer_length);

/* Clears the set bits of the map, of blocks from 3 on in the volume, that no
 * file claims, and no others; of a consistent volume it changes nothing. Refuses
 * the first other fault as tfs_check does, and then changes nothing: a block
 * that is claimed and not set is 7, whatever bits stand before it. It changes no
 * byte outside block 1. Refusals: 1 to 7. */
TFS_MUST_USE tfs_result tfs_mend(uint8_t *image, size_t image_length);

#ifdef __cplusplus
}
#endif

#endif
