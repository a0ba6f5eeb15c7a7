//! Images of genromfs, packed with what is expected of them (`host/romfs_images.sh` tells the form).

mod bench;

use bench::Folder;
use std::fs;
use std::os::unix::fs::{MetadataExt, PermissionsExt};
use std::path::Path;

const PACKED: &str = concat!(
    env!("CARGO_MANIFEST_DIR"),
    "/../../crates/genromfs_cases/stdin"
);

struct Packed<'a>(&'a [u8]);

impl<'a> Packed<'a> {
    fn number(&mut self) -> u32 {
        let (first, rest) = self.0.split_first_chunk().unwrap();
        self.0 = rest;
        u32::from_be_bytes(*first)
    }

    fn bytes(&mut self) -> &'a [u8] {
        let count = self.number() as usize;
        let (first, rest) = self.0.split_at(count);
        self.0 = rest;
        first
    }

    fn text(&mut self) -> &'a str {
        std::str::from_utf8(self.bytes()).unwrap()
    }

    fn lookup(&mut self) -> Lookup<'a> {
        let count = self.number();
        let names: Vec<&str> = (0..count).map(|_| self.text()).collect();
        let [refusal, header, file_type, executable, info, _size, _next] =
            [(); 7].map(|()| self.number());
        Lookup {
            path: names.join("/"),
            refusal,
            header,
            file_type,
            executable,
            info,
            content: self.bytes(),
        }
    }
}

struct Lookup<'a> {
    path: String,
    refusal: u32,
    header: u32,
    file_type: u32,
    executable: u32,
    info: u32,
    content: &'a [u8],
}

#[test]
fn images_are_checked_printed_and_extracted() {
    let folder = Folder::new("genromfs");
    let bytes = fs::read(PACKED).unwrap();
    let mut packed = Packed(&bytes);
    for _ in 0..packed.number() {
        let title = packed.text();
        folder.write("i", packed.bytes());
        let (refusal, place) = (packed.number(), packed.number());
        let count = packed.number();
        let lookups: Vec<Lookup> = (0..count).map(|_| packed.lookup()).collect();
        if refusal == 0 {
            accepted(&folder, title, &lookups);
        } else {
            assert_eq!(refusal, 28);
            let ran = folder.tfs("rom check i");
            let begin = format!("tfs: i: refused 28: directory at {place} (");
            let end = ") has a list at depth 9, at most 8 are allowed\n";
            assert!(ran.err.starts_with(&begin), "{}", ran.err);
            assert!(ran.err.ends_with(end), "{}", ran.err);
        }
    }
    assert!(packed.0.is_empty());
}

fn accepted(folder: &Folder, title: &str, lookups: &[Lookup]) {
    assert_eq!(folder.tfs("rom check i").text(), "accepted\n", "{title}");
    let list = folder.tfs("rom list i").text();
    let report = folder.tfs("rom extract i out").err;
    for lookup in lookups {
        let path = &lookup.path;
        let ran = folder.run(&["rom", "cat", "i", path]);
        if lookup.refusal != 0 {
            // The library follows no hard link, as "." and ".." often are; this command does.
            let begin = format!("tfs: i: refused {}: ", lookup.refusal);
            let refused = ran.status == 1 && ran.err.starts_with(&begin);
            assert!(refused || has_dots(path), "{title}: {path}");
            continue;
        }
        let start = format!("{:>8} ", lookup.header);
        assert!(
            list.lines().any(|line| line.starts_with(&start)),
            "{title}: {path}"
        );
        if matches!(lookup.file_type, 2 | 3) {
            assert!(ran.granted() == lookup.content, "{title}: {path}");
        }
        extracted(&folder.path("out"), lookup, lookups, &report);
    }
    fs::remove_dir_all(folder.path("out")).unwrap();
}

fn has_dots(path: &str) -> bool {
    path.split('/').any(|name| matches!(name, "." | ".."))
}

fn extracted(out: &Path, lookup: &Lookup, lookups: &[Lookup], report: &str) {
    let path = out.join(&lookup.path);
    match lookup.file_type {
        0 if lookup.path.ends_with("..") => {}
        0 => {
            let target = lookups
                .iter()
                .find(|other| other.header == lookup.info)
                .unwrap();
            let about = |path: &Path| fs::symlink_metadata(path).unwrap().ino();
            assert_eq!(
                about(&path),
                about(&out.join(&target.path)),
                "{}",
                lookup.path
            );
        }
        1 => assert!(fs::symlink_metadata(path).unwrap().is_dir()),
        2 => {
            assert!(
                fs::read(&path).unwrap() == lookup.content,
                "{}",
                lookup.path
            );
            let mode = fs::metadata(&path).unwrap().permissions().mode();
            assert_eq!(mode & 0o100 != 0, lookup.executable == 1, "{}", lookup.path);
        }
        3 => {
            let target = fs::read_link(path).unwrap();
            assert_eq!(target.as_os_str().as_encoded_bytes(), lookup.content);
        }
        _ => {
            assert!(!path.exists(), "{}", lookup.path);
            let named = lookup.path.trim_start_matches("./");
            assert!(report.contains(&format!("skipped {named}: ")), "{named}");
        }
    }
}
