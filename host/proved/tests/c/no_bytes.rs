//! Requests with the name for no bytes answer as with an empty part of an array.

use crate::compiler::{compilers, folder, told, HEADERS, STRICT};

/// Tells each request that answers otherwise, or leaves another image, and how many were compared.
const PROGRAM: &str = r#"
#include <stdio.h>
#include <string.h>

static uint8_t array[8], image[2][8192];
static const uint8_t name[] = {'A'}, trace[] = {5, 0, 9};
static int compared;

static void compare(const char *request, const void *one, const void *other, size_t size)
{
    compared++;
    if (memcmp(one, other, size) != 0 || memcmp(image[0], image[1], sizeof image[0]) != 0)
        printf("%s differs\n", request);
}

#define BOTH(type, request, none, buffer)                 \
    do {                                                  \
        const uint8_t *bytes = array;                     \
        uint8_t *to = array, *on = image[0];              \
        type one, other;                                  \
                                                          \
        one = request;                                    \
        bytes = none;                                     \
        to = buffer;                                      \
        on = image[1];                                    \
        other = request;                                  \
        compare(#request, &one, &other, sizeof one);      \
        (void)bytes, (void)to, (void)on;                  \
    } while (0)
#define SAME(type, request) BOTH(type, request, TFS_NO_BYTES, TFS_NO_BUFFER)

int main(void)
{
    tfs_entry entry;

    memset(&entry, 0, sizeof entry);
    entry.kind = TFS_FREE_BYTES;
    SAME(tfs_result, tfs_format(on, 8192, bytes, 0));
    SAME(tfs_result, tfs_format(to, 0, bytes, 0));
    SAME(tfs_result, tfs_check(bytes, 0));
    SAME(tfs_result, tfs_create(on, 8192, bytes, 0, 3));
    SAME(tfs_result, tfs_create(on, 8192, name, 1, 3));
    SAME(tfs_result, tfs_remove(on, 8192, bytes, 0));
    SAME(tfs_result, tfs_read(on, 8192, name, 1, 0, to, 0));
    SAME(tfs_result, tfs_read(bytes, 0, bytes, 0, 0, to, 0));
    SAME(tfs_result, tfs_write(on, 8192, name, 1, 0, bytes, 0));
    SAME(tfs_slot, tfs_list(bytes, 0, 0));
    SAME(tfs_result, tfs_free_bytes(bytes, 0));
    SAME(tfs_result, tfs_create_store(on, 8192, bytes, 0, 3, 1, to, 0));
    SAME(tfs_result, tfs_remove_store(on, 8192, name, 1, 1, to, 0));
    SAME(tfs_result, tfs_write_store(on, 8192, name, 1, 0, bytes, 0, 1, to, 0));
    SAME(tfs_result, tfs_mend(to, 0));
    SAME(tfs_record, tfs_trace_read(bytes, 0, 0));
    SAME(tfs_written, tfs_trace_write(to, 0, entry, bytes, 0, bytes, 0));
    SAME(tfs_replayed, tfs_replay(on, 8192, bytes, 0));
    SAME(tfs_replayed, tfs_replay(to, 0, trace, sizeof trace));
    SAME(timing_result, timing_open_lid(to, 0));
    SAME(timing_booted, timing_boot(bytes, 0, 1, 2));
    SAME(timing_result, timing_open_lid_block(on, 8192, 1, to, 0));
    SAME(romfs_result, romfs_check(bytes, 0));
    SAME(romfs_result, romfs_find(bytes, 0, ROMFS_ROOT, bytes, 0));
    printf("%d compared\n", compared);
    return 0;
}
"#;

#[test]
fn in_c_and_in_cpp() {
    let folder = folder("no_bytes");
    for compiler in compilers().concat() {
        let flags = format!("{STRICT} -O2");
        let source = format!("{HEADERS}{PROGRAM}");
        assert_eq!(told(compiler, &flags, &folder, &source), "24 compared\n");
    }
}

#[test]
fn that_is_not_null() {
    let test = "return TFS_NO_BYTES != NULL && TFS_NO_BUFFER != NULL ? 0 : 1;";
    let source = format!("{HEADERS}int main(void)\n{{\n    {test}\n}}\n");
    let folder = folder("not_null");
    for compiler in compilers().concat() {
        told(compiler, "", &folder, &source);
    }
}
