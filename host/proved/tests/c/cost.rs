//! A check reads no content of files: it is granted where reading that would end the program.

use crate::compiler::{folder, told, HEADERS};

/// Has a volume and a romfs image whose file's content is at pages that nobody may read.
const PROGRAM: &str = r#"
#include <stdio.h>
#include <string.h>
#include <sys/mman.h>

#define PAGE 4096u
#define ROM (4 * PAGE)

static void put(uint8_t *at, uint32_t word)
{
    for (int i = 0; i < 4; i++)
        at[i] = (uint8_t)(word >> (24 - 8 * i));
}

/* Sets the checksum in the fourth word right. */
static void seal(uint8_t *part, size_t length)
{
    uint32_t sum = 0;

    put(part + 12, 0);
    for (size_t i = 0; i < length; i += 4)
        sum += (uint32_t)part[i] << 24 | (uint32_t)part[i + 1] << 16 | (uint32_t)part[i + 2] << 8 | part[i + 3];
    put(part + 12, 0u - sum);
}

/* One file from byte 64 on to the end. */
static void make_rom(uint8_t *rom)
{
    memcpy(rom, "-rom1fs-", 8);
    put(rom + 8, ROM);
    put(rom + 32, ROMFS_REGULAR_FILE);
    put(rom + 32 + 8, ROM - 64);
    rom[48] = 'a';
    seal(rom + 32, 32);
    seal(rom, 512);
}

int main(void)
{
    static uint8_t space[64 * PAGE] __attribute__((aligned(PAGE)));
    uint8_t *volume = space, *rom = space + 32 * PAGE;
    const uint8_t name[] = {'A'};

    make_rom(rom);
    if (tfs_format(volume, 32 * PAGE, TFS_NO_BYTES, 0).refusal != TFS_OK ||
        tfs_create(volume, 32 * PAGE, name, 1, 65024).refusal != TFS_OK)
        return 1;
    /* The inode is block 3, the content blocks 4 to 130; a page has 8. */
    if (mprotect(volume + PAGE, 15 * PAGE, PROT_NONE) != 0 || mprotect(rom + PAGE, 3 * PAGE, PROT_NONE) != 0)
        return 1;
    printf("check %u\n", (unsigned)tfs_check(volume, 32 * PAGE).refusal);
    printf("list %u\n", (unsigned)tfs_list(volume, 32 * PAGE, 0).refusal);
    printf("free bytes %u\n", (unsigned)tfs_free_bytes(volume, 32 * PAGE).refusal);
    printf("remove %u\n", (unsigned)tfs_remove(volume, 32 * PAGE, name, 1).refusal);
    printf("romfs check %u\n", (unsigned)romfs_check(rom, ROM).refusal);
    printf("romfs content %u\n", (unsigned)romfs_content(rom, ROM, 32).refusal);
    return 0;
}
"#;

#[test]
fn of_a_volume_and_of_a_romfs_image() {
    let source = format!("{HEADERS}{PROGRAM}");
    let printed = told(
        "gcc",
        "-std=gnu99 -Wall -Wextra -Werror",
        &folder("cost"),
        &source,
    );
    let granted = [
        "check",
        "list",
        "free bytes",
        "remove",
        "romfs check",
        "romfs content",
    ];
    let granted = granted.map(|request| format!("{request} 0\n"));
    assert_eq!(printed, granted.concat());
}
