/*
 * The pump's timing file: the values that the memory was trained to, with the
 * board and the memory maker that they were trained on. A boot gets them for
 * that board and that maker only, and after a granted timing_open_lid not before
 * they are stored again, whatever is done to other files. An opening that was
 * refused, or cut by the power, may have noted nothing: repeat it, behind a mend
 * if need be, before the next boot.
 *
 * The file is TIMING on a TFS volume (tfs.h), of 64 bytes: board number (4),
 * maker number (4), 28 values of two bytes, all big-endian. A board number of 0
 * in the file says that it has no values: the lid was opened, or the file was
 * created and not filled.
 *
 * Leave the file to the requests below. A tfs_write by its name, also one in a
 * trace that is replayed, puts there what it likes, values after an opening
 * too; and stored values last until the file is stored again, opened, written
 * or removed, or the volume is formatted.
 *
 * What the caller must keep to is what tfs.h says: pointers are valid for the
 * length beside them, or for 28 values (and then aligned for uint16_t), and not
 * NULL, what one call is lent does not overlap, and nobody else writes to it
 * during the call. Nothing else is asked: each request has a defined answer for
 * every value of every number and every content of the image and the buffer. A
 * refused request changes no byte of the image or of the buffer. No allocation,
 * no global state, no recursion, under 4 KiB of stack as measured. The library
 * is libtiming_c.a; it needs memset. tfs_common.h says for what machine and ABI
 * it is.
 *
 * What a granted request costs, in checks of the volume (tfs.h), beside which its
 * own work is small: a boot one; an opening, and each block fetched of a series,
 * two; a store two, or three where it creates the file.
 */
#ifndef TIMING_H
#define TIMING_H

#include "tfs.h"

#ifdef __cplusplus
extern "C" {
#endif

#define TIMING_FILE "TIMING" /* the file's name on the volume, without the zero at its end */
#define TIMING_SIZE 64u      /* of the file, in bytes */
#define TIMING_VALUES 28u

/* The refusals that tfs.h does not have. Before them every request gives those
 * of the volume's check, 1 to 7, with the slot or block at fault. */
enum timing_refusal {
    TIMING_NO_BOARD = 34,    /* of a store: board number 0 is given; of a boot: it stands in the file, which has no values */
    TIMING_WRONG_SIZE = 35,  /* the file stands with another size than 64 bytes */
    TIMING_OTHER_BOARD = 36, /* the file is another board's */
    TIMING_OTHER_MAKER = 37  /* the file is another maker's */
};

/* The answer of every request but timing_boot. */
typedef struct timing_result {
    uint32_t refusal; /* an enum tfs_refusal or timing_refusal; 0 is granted */
    uint32_t place;   /* the slot or block at fault (refusals 4 to 7), else 0 */
    uint32_t value;   /* of a granted timing_store_block or timing_open_lid_block the number of the block, else 0 */
} timing_result;

/* The answer of a boot. */
typedef struct timing_booted {
    uint32_t refusal;               /* as in timing_result */
    uint32_t place;                 /* as in timing_result */
    uint16_t values[TIMING_VALUES]; /* those of the file where the boot is granted, else zeros */
} timing_booted;

/* The layout that the library has. */
TFS_SIZE_IS(timing_result, 12);
TFS_FIELD_AT(timing_result, refusal, 0);
TFS_FIELD_AT(timing_result, place, 4);
TFS_FIELD_AT(timing_result, value, 8);
TFS_SIZE_IS(timing_booted, 64);
TFS_FIELD_AT(timing_booted, refusal, 0);
TFS_FIELD_AT(timing_booted, place, 4);
TFS_FIELD_AT(timing_booted, values, 8);

/* The text of a refusal of any answer here, as tfs_refusal_text. */
TFS_INLINE const char *timing_refusal_text(uint32_t refusal)
{
    switch (refusal) {
    case TFS_NO_SUCH_NAME: return "there is no timing file";
    case TIMING_NO_BOARD: return "board number 0: none was given, or the timing file has no values";
    case TIMING_WRONG_SIZE: return "the timing file has another size than 64 bytes";
    case TIMING_OTHER_BOARD: return "the timing file is another board's";
    case TIMING_OTHER_MAKER: return "the timing file is another memory maker's";
    default: return tfs_refusal_text(refusal);
    }
}

/* Stores the numbers and the values, and creates the file if it is absent: then
 * it holds exactly these. Refusals: 34, 35, and if the file is to be created 11
 * and 12, in this order. */
TFS_MUST_USE timing_result timing_store(uint8_t *TFS_RESTRICT image, size_t image_length, uint32_t board,
                                        uint32_t maker, const uint16_t values[TIMING_VALUES]);

/* Notes that the lid was opened: the board number in the file becomes 0, its
 * other 60 bytes stay. Refusals: 13, 35, in this order. */
TFS_MUST_USE timing_result timing_open_lid(uint8_t *image, size_t image_length);

/* Gives the values, if the file stands, has 64 bytes, its board number is not 0
 * and both numbers are these. Refusals: 13, 35, 34, 36, 37, in this order. */
TFS_MUST_USE timing_booted timing_boot(const uint8_t *image, size_t image_length, uint32_t board, uint32_t maker);

/* ---- A volume on a memory chip, whose power may be taken at any moment
 *
 * A store and an opening are each a series of stores of whole blocks, numbered
 * from 1. The two requests below give the k-th: in `value` the number of the
 * block, and its 512 bytes at the start of the buffer, whose rest stays. The
 * image stays; every k is fetched from the same image, as it was before the
 * request, and tfs.h shows how such a series drives a chip. A store to a file
 * that stands has one, one that creates the file five, an opening has one.
 * Where the file is created its content block is stored twice, first with zeros
 * and last with the values: the order counts. The chip must store a block wholly
 * or not at all.
 *
 * After power-up read the chip and check, and on refusal 7 mend (tfs.h). Wherever
 * the series was cut, a boot then gets the old values, or the new ones, or none:
 * never a mixture; after a cut opening the old ones or none. A store and an opening
 * that were cut are granted again. */

/* Gives the k-th store of timing_store: the four of the create, if the file is
 * absent, then that of its content. Refusals: those of timing_store, then 32. */
TFS_MUST_USE timing_result timing_store_block(const uint8_t *TFS_RESTRICT image, size_t image_length, uint32_t board,
                                              uint32_t maker, const uint16_t values[TIMING_VALUES], size_t k,
                                              uint8_t *TFS_RESTRICT buffer, size_t buffer_length);

/* Gives the k-th store of timing_open_lid. Refusals: those of timing_open_lid,
 * then 32. */
TFS_MUST_USE timing_result timing_open_lid_block(const uint8_t *TFS_RESTRICT image, size_t image_length, size_t k,
                                                 uint8_t *TFS_RESTRICT buffer, size_t buffer_length);

#ifdef __cplusplus
}
#endif

#endif
