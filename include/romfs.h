/*
 * romfs: a reader of read-only romfs images.
 *
 * Every request takes the whole image as a pointer and a length, of any
 * content and any length, and answers by value. Nothing is written. No
 * allocation, no global state; recursion is at most eight lists deep, under
 * 16 KiB of stack as measured. The library is libromfs_c.a; it needs memset.
 * tfs_common.h says for what machine and ABI it is.
 *
 * What a request costs: each does one check of the image, which reads every
 * header that the lists reach, with its name, and no content: its time grows
 * with the headers and, where there are hard links, with their number times that
 * of the headers. A find then goes through the list of its directory.
 *
 * What the caller must keep to:
 *  - a pointer is valid, readable, for the length beside it;
 *  - a pointer is not NULL; with length 0 it may be any other address
 *    (tfs_common.h has one: TFS_NO_BYTES);
 *  - nobody writes to the image or the name during the call.
 * Nothing else is asked: every value of every number, and every byte of the
 * image and the name has a defined answer.
 *
 * Hard links are not followed: romfs_find in one and romfs_content of one are
 * refused with 31. Its target is the info that romfs_entry gives.
 */
#ifndef ROMFS_H
#define ROMFS_H

#include "tfs_common.h"

#ifdef __cplusplus
extern "C" {
#endif

#define ROMFS_ROOT 0u /* the root list, as the directory of romfs_find */

/* The refusal of a result. 21 to 29 say that the image is not accepted: the
 * first fault of the check is given, with its place. */
enum romfs_refusal {
    ROMFS_OK = 0,
    ROMFS_TOO_SHORT = 21,       /* image under 32 bytes */
    ROMFS_BAD_MAGIC = 22,       /* not "-rom1fs-" */
    ROMFS_BAD_FULL_SIZE = 23,   /* full size under 32, over the image, or no multiple of 16 */
    ROMFS_BAD_VOLUME_SUM = 24,  /* sum of the first min(512, full size) bytes not 0 */
    ROMFS_BAD_VOLUME_NAME = 25, /* volume name without an end */
    ROMFS_BAD_HEADER = 26,      /* end, name, checksum, spec.info or size; place: header */
    ROMFS_BAD_NESTING = 27,     /* next or first header breaks nesting; place: header holding it */
    ROMFS_TOO_DEEP = 28,        /* list at depth 9; place: its directory */
    ROMFS_BAD_LINK = 29,        /* hard link, "." or ".." that leads to no right header; place: header */
    ROMFS_NO_SUCH_NAME = 30,
    ROMFS_NO_SUCH_HEADER = 31   /* no reached header; find: no directory; content: no regular file or symbolic link */
};

/* The type of an entry. */
enum romfs_type {
    ROMFS_HARD_LINK = 0,
    ROMFS_DIRECTORY = 1,
    ROMFS_REGULAR_FILE = 2,
    ROMFS_SYMBOLIC_LINK = 3,
    ROMFS_BLOCK_DEVICE = 4,
    ROMFS_CHAR_DEVICE = 5,
    ROMFS_SOCKET = 6,
    ROMFS_FIFO = 7
};

/* The answer of romfs_check and romfs_find. */
typedef struct romfs_result {
    uint32_t refusal; /* an enum romfs_refusal; 0 is granted */
    uint32_t place;   /* the offset of the header at fault (refusals 26 to 29), else 0 */
    uint32_t value;   /* find: the offset of the header; else 0 */
} romfs_result;

/* The answer of romfs_entry: all 0 but the first two where it is refused. */
typedef struct romfs_header {
    uint32_t refusal;
    uint32_t place;
    uint32_t file_type;   /* an enum romfs_type */
    uint32_t executable;  /* 1 or 0 */
    uint32_t info;        /* spec.info: a directory's first header, a hard link's target, a device's numbers */
    uint32_t size;        /* bytes of content */
    uint32_t next;        /* offset of the next header of the list, or 0 */
    uint32_t name_length; /* the name begins at the header's offset + 16 */
} romfs_header;

/* The answer of romfs_content: where the content lies in the image. Offset plus
 * length is at most the image's length. */
typedef struct romfs_part {
    uint32_t refusal;
    uint32_t place;
    uint32_t offset; /* 0 where it is refused */
    uint32_t length; /* 0 where it is refused */
} romfs_part;

/* The layout that the library has. */
TFS_SIZE_IS(romfs_result, 12);
TFS_FIELD_AT(romfs_result, refusal, 0);
TFS_FIELD_AT(romfs_result, place, 4);
TFS_FIELD_AT(romfs_result, value, 8);
TFS_SIZE_IS(romfs_header, 32);
TFS_FIELD_AT(romfs_header, refusal, 0);
TFS_FIELD_AT(romfs_header, place, 4);
TFS_FIELD_AT(romfs_header, file_type, 8);
TFS_FIELD_AT(romfs_header, executable, 12);
TFS_FIELD_AT(romfs_header, info, 16);
TFS_FIELD_AT(romfs_header, size, 20);
TFS_FIELD_AT(romfs_header, next, 24);
TFS_FIELD_AT(romfs_header, name_length, 28);
TFS_SIZE_IS(romfs_part, 16);
TFS_FIELD_AT(romfs_part, refusal, 0);
TFS_FIELD_AT(romfs_part, place, 4);
TFS_FIELD_AT(romfs_part, offset, 8);
TFS_FIELD_AT(romfs_part, length, 12);

/* The text of a refusal, on one line and without its place; of a number that is
 * none, that it is unknown. */
TFS_INLINE const char *romfs_refusal_text(uint32_t refusal)
{
    switch (refusal) {
    case ROMFS_OK: return "granted";
    case ROMFS_TOO_SHORT: return "the image is under 32 bytes";
    case ROMFS_BAD_MAGIC: return "the image does not begin with \"-rom1fs-\"";
    case ROMFS_BAD_FULL_SIZE: return "the full size is under 32, over the image's length, or no multiple of 16";
    case ROMFS_BAD_VOLUME_SUM: return "the checksum of the volume is wrong";
    case ROMFS_BAD_VOLUME_NAME: return "the volume's name has no end";
    case ROMFS_BAD_HEADER: return "a header has a wrong end, name, checksum, spec.info or size";
    case ROMFS_BAD_NESTING: return "a header has a next or first header that breaks nesting";
    case ROMFS_TOO_DEEP: return "a directory has a list at depth 9";
    case ROMFS_BAD_LINK: return "a header links to no header that it may link to";
    case ROMFS_NO_SUCH_NAME: return "the directory has no entry of this name";
    case ROMFS_NO_SUCH_HEADER: return "not a header of the tree, not a directory, or not a file with content";
    default: return "unknown refusal";
    }
}

/* Checks the image. Every request below does this first and gives the refusal
 * of the check. Refusals: 21 to 29. */
TFS_MUST_USE romfs_result romfs_check(const uint8_t *image, size_t image_length);

/* Finds a name in the list of the directory at this offset, ROMFS_ROOT for the
 * root, and gives the offset of the first header with that name.
 * Refusals: 31, then 30. */
TFS_MUST_USE romfs_result romfs_find(const uint8_t *image, size_t image_length, uint32_t directory,
                                     const uint8_t *name, size_t name_length);

/* Gives the entry at a header. Refusal: 31. */
TFS_MUST_USE romfs_header romfs_entry(const uint8_t *image, size_t image_length, uint32_t at);

/* Gives where the content of a regular file or symbolic link lies: offset and
 * length in the image, nothing copied. Refusal: 31. */
TFS_MUST_USE romfs_part romfs_content(const uint8_t *image, size_t image_length, uint32_t at);

#ifdef __cplusplus
}
#endif

#endif
