/*
 * What tfs.h, tfs_trace.h, timing.h and romfs.h share: their version, a name
 * for no bytes, and what a compiler can check of a call. They include it.
 *
 * The archives are for x86-64 with 64-bit pointers, little-endian ELF objects,
 * to be called by the System V ABI: its registers, its stack aligned to 16
 * bytes, structs over 16 bytes returned through memory. They use general and
 * SSE (xmm) registers, and no x87, MMX or AVX ones, and no instruction beyond
 * SSE2 (no SSE3, SSSE3, SSE4 or popcnt): every x86-64 processor has them all.
 * They touch no byte below the stack pointer (no red zone), and have no stack
 * protector and no thread-local data. They are position-independent: all
 * relocations are relative to where they stand, so that the archives go into a
 * program at a fixed address, a PIE or a shared library. They have no writable
 * data. What each needs of the program that links it, memset, memcpy or memmove,
 * its header says; no archive needs another one.
 *
 * The headers are C from C99 on, or C89 with gcc or clang, and C++ from C++98
 * on.
 */
#ifndef TFS_COMMON_H
#define TFS_COMMON_H

#include <stddef.h>
#include <stdint.h>

/* ---- version, of the headers and the command line */

#define TFS_VERSION_MAJOR 0
#define TFS_VERSION_MINOR 1
#define TFS_VERSION_PATCH 0
#define TFS_VERSION "0.1.0"

/* ---- what compilers have: restrict, inline, a result that must be looked at */

#if !defined(__cplusplus) && defined(__STDC_VERSION__) && __STDC_VERSION__ >= 199901L
#define TFS_RESTRICT restrict
#elif defined(__GNUC__)
#define TFS_RESTRICT __restrict__
#else
#define TFS_RESTRICT
#endif

#ifdef __GNUC__
#define TFS_INLINE static __inline__
#define TFS_MUST_USE __attribute__((warn_unused_result))
#else
#define TFS_INLINE static inline
#define TFS_MUST_USE
#endif

/* ---- no bytes
 *
 * A pointer is never NULL. For an empty label or name and for no bytes pass
 * TFS_NO_BYTES and length 0, for an empty buffer or image TFS_NO_BUFFER and 0. */

#ifdef __cplusplus
#define TFS_NO_BYTES (reinterpret_cast<const uint8_t *>(""))
#else
#define TFS_NO_BYTES ((const uint8_t *)"")
#endif
#define TFS_NO_BUFFER (tfs_no_buffer())

TFS_INLINE uint8_t *tfs_no_buffer(void)
{
    static uint8_t none;

    return &none;
}

/* ---- layout, checked where a header is compiled */

#if defined(__cplusplus) && __cplusplus >= 201103L
#define TFS_SIZE_IS(type, bytes) static_assert(sizeof(type) == (bytes), "size of " #type)
#define TFS_FIELD_AT(type, field, at) static_assert(offsetof(type, field) == (at), "offset of " #type "." #field)
#elif !defined(__cplusplus) && defined(__STDC_VERSION__) && __STDC_VERSION__ >= 201112L
#define TFS_SIZE_IS(type, bytes) _Static_assert(sizeof(type) == (bytes), "size of " #type)
#define TFS_FIELD_AT(type, field, at) _Static_assert(offsetof(type, field) == (at), "offset of " #type "." #field)
#else
#define TFS_SIZE_IS(type, bytes) typedef char tfs_size_of_##type[sizeof(type) == (bytes) ? 1 : -1]
#define TFS_FIELD_AT(type, field, at) typedef char tfs_at_##type##_##field[offsetof(type, field) == (at) ? 1 : -1]
#endif

TFS_SIZE_IS(size_t, 8);

#endif
