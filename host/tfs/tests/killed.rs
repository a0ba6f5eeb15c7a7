//! What a killed command leaves, and who removes it.

mod bench;

use bench::rom::sample;
use bench::{some, Folder, Ran};
use std::fs::{self, File, OpenOptions};
use std::io::Write;
use std::os::unix::fs::symlink;
use std::process::{Child, Command};

/// A folder with a volume "v" of the greatest size, a trace "t" of one request on it, and a pipe.
fn with_volume(name: &str) -> Folder {
    let folder = Folder::new(name);
    folder.tfs("make v --size 2M").granted();
    folder.write("in", &some(3000));
    folder.tfs("put v in --record t").granted();
    folder.tfs("remove v in").granted();
    let made = Command::new("mkfifo").arg(folder.path("pipe")).status();
    assert!(made.unwrap().success());
    folder
}

/// Starts a replay of a volume that comes through the pipe, and waits until it has made its
/// temporary file: then it waits for what may stand behind the volume.
fn replay_to(folder: &Folder, out: &str) -> (Child, File) {
    let mut child = folder.start(&format!("replay pipe t --out {out} --force"));
    let mut pipe = OpenOptions::new()
        .write(true)
        .open(folder.path("pipe"))
        .unwrap();
    pipe.write_all(&folder.read("v")).unwrap();
    while temporaries(folder).is_empty() {
        assert!(child.try_wait().unwrap().is_none(), "it has ended");
        std::thread::yield_now();
    }
    assert_eq!(
        temporaries(folder),
        [format!(".{out}.tfs-{}-0", child.id())]
    );
    (child, pipe)
}

fn temporaries(folder: &Folder) -> Vec<String> {
    let names = folder.names().into_iter();
    names.filter(|name| name.starts_with('.')).collect()
}

fn kill(mut child: Child) {
    child.kill().unwrap();
    child.wait().unwrap();
}

#[test]
fn the_next_command_on_the_image_removes_what_a_killed_one_left() {
    for (number, line) in ["check w", "list link", "put w in", "put w in --in-place"]
        .iter()
        .enumerate()
    {
        let folder = with_volume(&format!("killed_image_{number}"));
        folder.write("w", &folder.read("v"));
        symlink("w", folder.path("link")).unwrap();
        let (child, _pipe) = replay_to(&folder, "w");
        kill(child);
        // Commands on other files leave it.
        folder.tfs("check v").granted();
        assert_eq!(temporaries(&folder).len(), 1);
        folder.tfs(line).granted();
        assert!(temporaries(&folder).is_empty(), "{line}");
    }
}

#[test]
fn the_next_command_that_writes_the_file_removes_what_a_killed_one_left() {
    let folder = with_volume("killed_file");
    let (child, _pipe) = replay_to(&folder, "out");
    kill(child);
    folder.tfs("make out --size 64K").granted();
    assert!(temporaries(&folder).is_empty());
}

#[test]
fn what_a_living_command_writes_stays() {
    let folder = with_volume("killed_living");
    let (child, mut pipe) = replay_to(&folder, "out");
    folder.tfs("make out --size 64K").granted();
    folder.tfs("check out").granted();
    assert_eq!(temporaries(&folder).len(), 1);
    pipe.write_all(b"behind").unwrap();
    drop(pipe);
    let told = Ran::new(child.wait_with_output().unwrap()).text();
    assert_eq!(told, "records replayed: 2\n");
    assert!(temporaries(&folder).is_empty());
    assert!(folder.read("out").ends_with(b"behind"));
}

/// Folders that nobody holds are what killed commands have left.
#[test]
fn the_next_extract_removes_the_folder_that_a_killed_one_left() {
    let folder = Folder::new("killed_extract");
    folder.write("i", &sample());
    for name in [".out.tfs-1-0", ".out.tfs-1-1", ".out.tfs-1-2"] {
        fs::create_dir_all(folder.path(name).join("bin")).unwrap();
    }
    let held = File::open(folder.path(".out.tfs-1-1")).unwrap();
    held.lock().unwrap();
    assert_eq!(folder.tfs("rom extract i out").status, 7);
    assert_eq!(temporaries(&folder), [".out.tfs-1-1"]);
}

#[test]
fn only_names_of_that_form_are_removed() {
    let folder = Folder::new("killed_names");
    folder.tfs("make v --size 64K").granted();
    let kept = [
        ".tfs-1-0",
        ".v.tfs-",
        ".v.tfs--",
        ".v.tfs-1",
        ".v.tfs-1-",
        ".v.tfs-1-0-0",
        ".v.tfs-1-x",
        ".vv.tfs-1-0",
        "v.tfs-1-0",
    ];
    kept.iter().for_each(|name| folder.write(name, b""));
    symlink("v", folder.path(".v.tfs-1-1")).unwrap();
    folder.write(".v.tfs-1-0", b"");
    folder.tfs("check v").granted();
    let mut names = vec![".v.tfs-1-1", "v"];
    names.extend(kept);
    names.sort();
    assert_eq!(folder.names(), names);
}

/// Such a folder may be a person's; only what makes a folder of that name has left one.
#[test]
fn a_folder_is_not_what_a_command_on_an_image_left() {
    let folder = Folder::new("killed_folder");
    folder.tfs("make v --size 64K").granted();
    fs::create_dir_all(folder.path(".v.tfs-1-0").join("mine")).unwrap();
    folder.write("in", b"1");
    for line in ["check v", "put v in", "make v --size 64K --force"] {
        folder.tfs(line).granted();
        assert!(folder.path(".v.tfs-1-0").join("mine").is_dir(), "{line}");
    }
}

/// A second name of the image is left by a make that was killed before it could remove it.
#[test]
fn a_second_name_of_the_image_goes() {
    let folder = Folder::new("killed_second_name");
    folder.tfs("make v --size 64K").granted();
    fs::hard_link(folder.path("v"), folder.path(".v.tfs-1-0")).unwrap();
    assert_eq!(folder.tfs("check v").text(), "consistent\n");
    assert_eq!(folder.names(), ["v"]);
}
