//! The archives are what the headers say: machine, ABI, relocations, and what they need.

use crate::compiler::{archive, folder, printed, root, LIBRARIES};
use crate::declared::functions;
use std::collections::BTreeSet;
use std::fs;
use std::process::Command;

/// What a tool prints of an archive.
fn tool(name: &str, flags: &str, library: &str) -> String {
    let mut command = Command::new(name);
    command.env("LC_ALL", "C").args(flags.split(' '));
    printed(command.arg(archive(library)))
}

/// The last word of each line of three or of two words, by which nm gives a symbol.
fn symbols(flags: &str, library: &str) -> BTreeSet<String> {
    let listed = tool("nm", flags, library);
    let lines = listed.lines().filter(|line| line.contains(' '));
    lines
        .filter_map(|line| line.split_whitespace().last())
        .map(str::to_string)
        .collect()
}

#[test]
fn are_for_x86_64_and_the_system_v_abi() {
    let facts = [
        ("Class:", "ELF64"),
        ("Data:", "2's complement, little endian"),
        ("OS/ABI:", "UNIX - System V"),
        ("Machine:", "Advanced Micro Devices X86-64"),
    ];
    for library in LIBRARIES {
        let header = tool("readelf", "-h", library);
        let told = |field| {
            header
                .lines()
                .filter_map(move |line| line.trim().strip_prefix(field))
        };
        for (field, value) in facts {
            let values: Vec<&str> = told(field).map(str::trim).collect();
            assert_eq!(values, [value], "{library}");
        }
    }
}

#[test]
fn export_the_functions_of_the_headers_and_nothing_else() {
    for library in LIBRARIES {
        let declared = functions(library).into_iter().map(|function| function.name);
        assert_eq!(
            symbols("--defined-only -g", library),
            declared.collect(),
            "{library}"
        );
    }
}

#[test]
fn need_what_their_headers_say() {
    let moving = ["memcpy", "memmove", "memset"].as_slice();
    let needs = [&["memset"], &moving[1..], moving, &["memset"]];
    let headers = ["timing.h", "tfs_trace.h", "tfs.h", "romfs.h"];
    for ((library, header), needs) in LIBRARIES.into_iter().zip(headers).zip(needs) {
        let needed: Vec<String> = symbols("-u", library).into_iter().collect();
        assert_eq!(needed, needs, "{library}");
        let text = fs::read_to_string(root().join("include").join(header)).expect("a header");
        let text = text.replace("\n *", "").replace("  ", " ");
        let needs = needs.join(", ").replace(", memset", " and memset");
        let said = format!("lib{library}.a; it needs {needs}.");
        assert!(text.contains(&said), "{header}: {said}");
    }
}

#[test]
fn are_position_independent() {
    for library in LIBRARIES {
        let relocations = tool("readelf", "-rW", library);
        let kinds: BTreeSet<&str> = relocations
            .split_whitespace()
            .filter(|word| word.starts_with("R_X86_64_"))
            .collect();
        let relative = BTreeSet::from(["R_X86_64_PC32", "R_X86_64_PLT32"]);
        assert!(
            !kinds.is_empty() && kinds.is_subset(&relative),
            "{library}: {kinds:?}"
        );
    }
}

#[test]
fn link_into_a_program_a_pie_and_a_shared_library() {
    let folder = folder("linked");
    fs::write(folder.join("main.c"), "int main(void) { return 0; }\n").expect("a source");
    for kind in ["-no-pie", "-pie", "-shared"] {
        let fpic = if kind == "-no-pie" {
            "-fno-pie"
        } else {
            "-fPIC"
        };
        let mut gcc = Command::new("gcc");
        gcc.current_dir(&folder)
            .args([kind, fpic, "main.c", "-o", "out"]);
        gcc.args(["-Wl,-z,text,--fatal-warnings", "-Wl,--whole-archive"]);
        gcc.args(LIBRARIES.map(archive))
            .arg("-Wl,--no-whole-archive");
        printed(&mut gcc);
    }
}

#[test]
fn have_no_writable_data() {
    for library in LIBRARIES {
        let sizes = tool("size", "-A", library);
        let writable = |line: &&str| {
            let name = line.split_whitespace().next().unwrap_or_default();
            [".data", ".bss", ".tdata", ".tbss"]
                .iter()
                .any(|section| name.starts_with(section))
        };
        assert!(sizes.contains(".text"), "{library}");
        assert_eq!(sizes.lines().find(writable), None, "{library}");
    }
}

/// The instructions of an archive, with their operands.
fn instructions(library: &str) -> Vec<String> {
    let listed = tool("objdump", "-d --no-show-raw-insn", library);
    let lines = listed.lines().filter_map(|line| line.split_once(":\t"));
    lines
        .map(|(_, instruction)| instruction.to_string())
        .collect()
}

#[test]
fn use_no_registers_but_general_and_sse_ones() {
    for library in LIBRARIES {
        let listed = instructions(library);
        assert!(listed.iter().any(|line| line.contains("%xmm")), "{library}");
        let others = [
            "%ymm", "%zmm", "%mm", "%st", "%k", "%fs", "%gs", "%cr", "%db",
        ];
        let other = listed
            .iter()
            .find(|line| others.iter().any(|name| line.contains(name)));
        assert_eq!(other, None, "{library}");
    }
}

/// Instructions that a processor for x86-64 may lack: those of SSE3, SSSE3, SSE4.1 and SSE4.2, which are legacy SSE by their
/// form, and the general ones that came later. An older processor takes tzcnt for bsf, which compilers use where that is the same.
const LATER: &str = "addsubpd addsubps haddpd haddps hsubpd hsubps lddqu movddup movshdup movsldup fisttp \
    pshufb phaddw phaddd phaddsw phsubw phsubd phsubsw pmaddubsw pmulhrsw psignb psignw psignd pabsb pabsw pabsd palignr \
    blendpd blendps blendvpd blendvps dppd dpps extractps insertps movntdqa mpsadbw packusdw pblendvb pblendw pcmpeqq \
    pextrb pextrd pextrq phminposuw pinsrb pinsrd pinsrq pmaxsb pmaxsd pmaxud pmaxuw pminsb pminsd pminud pminuw \
    pmovsxbw pmovsxbd pmovsxbq pmovsxwd pmovsxwq pmovsxdq pmovzxbw pmovzxbd pmovzxbq pmovzxwd pmovzxwq pmovzxdq \
    pmuldq pmulld ptest roundpd roundps roundsd roundss pcmpestri pcmpestrm pcmpistri pcmpistrm pcmpgtq crc32 \
    popcnt lzcnt andn bextr blsi blsmsk blsr bzhi mulx pdep pext rorx sarx shlx shrx adcx adox movbe cmpxchg16b \
    lahf sahf aesenc aesenclast aesdec aesdeclast aesimc aeskeygenassist pclmulqdq sha1rnds4 sha256rnds2";

#[test]
fn run_on_every_x86_64_processor() {
    let later: BTreeSet<&str> = LATER.split_whitespace().collect();
    // AVX and what follows it has names with a v before.
    let is_later = |name: &str| {
        later.contains(name.trim_end_matches(['b', 'w', 'l', 'q'])) || later.contains(name)
    };
    for library in LIBRARIES {
        let listed = instructions(library);
        // A prefix, as rep, stands before the name.
        let mut names = listed
            .iter()
            .flat_map(|line| line.split_whitespace().take(2));
        let other = names.find(|name| is_later(name) || name.starts_with('v'));
        assert_eq!(other, None, "{library}");
    }
}

#[test]
fn touch_nothing_below_the_stack_pointer() {
    for library in LIBRARIES {
        let listed = instructions(library);
        assert!(
            listed.iter().any(|line| line.contains("(%rsp")),
            "{library}"
        );
        let below = |line: &&String| {
            let (operand, _) = line.split_once("(%rsp").unwrap_or_default();
            operand
                .rsplit([' ', ','])
                .next()
                .is_some_and(|offset| offset.starts_with('-'))
        };
        assert_eq!(listed.iter().find(below), None, "{library}");
        assert!(
            !listed.iter().any(|line| line.contains("%rsp,%rbp")),
            "{library}: a frame pointer"
        );
    }
}
