/*
 * Traces of TFS requests: records read and written, and a trace replayed on a
 * volume.
 *
 * A trace is records one after another: the kind of a request, its arguments,
 * the refusal expected (0 for granted) and, where that is 0, the result. A
 * number is below 2^32 and stands in groups of seven bits, the low group
 * first, the high bit of a byte set when another follows, in the shortest
 * form only. A byte string stands behind its length.
 *
 *   kind 1, create       name, size                    no result
 *   kind 2, remove       name                          no result
 *   kind 3, read         name, offset, buffer length   the bytes
 *   kind 4, write        name, offset, bytes           the count
 *   kind 5, free bytes                                 the number
 *
 * What the caller must keep to is what tfs.h says: pointers are valid for the
 * length beside them and not NULL, what one call is lent does not overlap, and
 * nobody else writes to it during the call. Nothing else is asked: each
 * function has a defined answer for every value of every number and every
 * content of every buffer. No allocation, no global state; reading copies no
 * name and no bytes; recursion over the at most five groups of a number only,
 * under 4 KiB of stack as measured. The library is libtfs_trace_c.a; it needs
 * memmove and memset. tfs_common.h says for what machine and ABI it is.
 *
 * What a request costs: tfs_trace_read looks at the numbers of one record,
 * tfs_trace_write copies its name and its bytes. tfs_replay does one check of
 * the volume (tfs.h), before the first record, and then the work of each
 * request without a check of its own.
 */
#ifndef TFS_TRACE_H
#define TFS_TRACE_H

#include "tfs.h"

#ifdef __cplusplus
extern "C" {
#endif

enum tfs_kind {
    TFS_MALFORMED_RECORD = 0, /* what is no record, one cut off by the end included */
    TFS_CREATE = 1,
    TFS_REMOVE = 2,
    TFS_READ = 3,
    TFS_WRITE = 4,
    TFS_FREE_BYTES = 5
};

#define TFS_RECORD_NOT_WRITTEN 33u /* the refusal of tfs_trace_write */

/* The numbers of a record. Those that a kind does not have are 0 when read,
 * and ignored when written. */
typedef struct tfs_entry {
    uint64_t kind;    /* an enum tfs_kind */
    uint64_t size;    /* create */
    uint64_t offset;  /* read, write */
    uint64_t length;  /* read: of the buffer */
    uint64_t refusal; /* expected; 0 is granted */
    uint64_t value;   /* granted: of write the count, of free bytes the number */
} tfs_entry;

/* A record of a trace. Name and bytes stay where they stand in the trace; of a
 * record that has none, position and length are 0. */
typedef struct tfs_record {
    tfs_entry entry;
    uint64_t name_at;      /* position in the trace; all kinds but free bytes */
    uint64_t name_length;
    uint64_t bytes_at;     /* of write what it writes, of a granted read what it gave */
    uint64_t bytes_length;
    uint64_t next;         /* the position where the next record starts */
} tfs_record;

/* The answer of tfs_trace_write. */
typedef struct tfs_written {
    uint64_t refusal; /* 0, or 33 */
    uint64_t length;  /* bytes written; 0 where refused */
} tfs_written;

enum tfs_outcome {
    TFS_ALL_REPLAYED = 0,  /* number: of records, each answered as expected */
    TFS_STOP_MALFORMED = 1, /* number: of the malformed record, from 1 */
    TFS_STOP_DIFFERS = 2,  /* number: of the record with another answer, from 1 */
    TFS_REPLAY_REFUSED = 3 /* by the check: refusal and place */
};

/* The answer of tfs_replay. */
typedef struct tfs_replayed {
    uint64_t outcome; /* an enum tfs_outcome */
    uint64_t number;  /* 0 where refused */
    uint64_t refusal; /* 1 to 7 where refused, else 0 */
    uint64_t place;   /* as in tfs_result */
} tfs_replayed;

/* The layout that the library has. */
TFS_SIZE_IS(tfs_entry, 48);
TFS_FIELD_AT(tfs_entry, kind, 0);
TFS_FIELD_AT(tfs_entry, size, 8);
TFS_FIELD_AT(tfs_entry, offset, 16);
TFS_FIELD_AT(tfs_entry, length, 24);
TFS_FIELD_AT(tfs_entry, refusal, 32);
TFS_FIELD_AT(tfs_entry, value, 40);
TFS_SIZE_IS(tfs_record, 88);
TFS_FIELD_AT(tfs_record, entry, 0);
TFS_FIELD_AT(tfs_record, name_at, 48);
TFS_FIELD_AT(tfs_record, name_length, 56);
TFS_FIELD_AT(tfs_record, bytes_at, 64);
TFS_FIELD_AT(tfs_record, bytes_length, 72);
TFS_FIELD_AT(tfs_record, next, 80);
TFS_SIZE_IS(tfs_written, 16);
TFS_FIELD_AT(tfs_written, refusal, 0);
TFS_FIELD_AT(tfs_written, length, 8);
TFS_SIZE_IS(tfs_replayed, 32);
TFS_FIELD_AT(tfs_replayed, outcome, 0);
TFS_FIELD_AT(tfs_replayed, number, 8);
TFS_FIELD_AT(tfs_replayed, refusal, 16);
TFS_FIELD_AT(tfs_replayed, place, 24);

/* The text of a refusal of any answer or record here, as tfs_refusal_text. */
TFS_INLINE const char *tfs_trace_refusal_text(uint64_t refusal)
{
    uint32_t number = refusal & 0xFFFFFFFFu;

    if (refusal == TFS_RECORD_NOT_WRITTEN)
        return "the record has no room, or its kind, a number or a length is out of range";
    return number == refusal ? tfs_refusal_text(number) : "unknown refusal";
}

/* Reads the record at a position of the trace. At the end and past it there is
 * none: malformed. Where it is malformed every field is 0. */
TFS_MUST_USE tfs_record tfs_trace_read(const uint8_t *trace, size_t trace_length, size_t at);

/* Writes a record to the start of a buffer and gives its length; the rest of
 * the buffer stays. The bytes are those of a write, or those that a granted
 * read gave; a name or bytes that the record does not have are ignored.
 * Refusal 33, and nothing written: the buffer is too short for the record, a
 * number of it or a length is 2^32 or more, or the kind is none of 1 to 5. */
TFS_MUST_USE tfs_written tfs_trace_write(uint8_t *TFS_RESTRICT out, size_t out_length, tfs_entry entry,
                                         const uint8_t *TFS_RESTRICT name, size_t name_length,
                                         const uint8_t *TFS_RESTRICT bytes, size_t bytes_length);

/* Replays a trace on the volume: its requests one after another, until the end,
 * or until a record is malformed or a request answers otherwise than expected.
 * Answers differ where the refusals do or, both granted, the results; place,
 * inode number and number of blocks do not count. A request that answered
 * otherwise has had its effect, a malformed record has none. The volume is
 * checked once, before the first record; refused, nothing has changed. */
TFS_MUST_USE tfs_replayed tfs_replay(uint8_t *TFS_RESTRICT image, size_t image_length,
                                     const uint8_t *TFS_RESTRICT trace, size_t trace_length);

#ifdef __cplusplus
}
#endif

#endif
