//! Commands on one image, trace or host file at the same time.

mod bench;

use bench::rom::sample;
use bench::{some, Folder, Ran};
use std::fs::{self, File};
use std::thread;

/// A folder with a volume "v", a copy of it, and host files f0 to f19.
fn with_volume(name: &str) -> Folder {
    let folder = Folder::new(name);
    folder.tfs("make v --size 256K").granted();
    folder.write("start", &folder.read("v"));
    for number in 0..20 {
        folder.write(&format!("f{number}"), &some(100 * number));
    }
    folder
}

/// The lines of twenty puts, as long as it takes.
fn twenty(rest: &str) -> impl Iterator<Item = String> + '_ {
    (0..20).map(move |number| format!("put v f{number} --wait 3600 {rest}"))
}

fn all_granted(runs: Vec<Ran>) {
    runs.into_iter()
        .for_each(|ran| assert!(ran.text().is_empty()));
}

/// The volume has the twenty files, and nothing else stands in the folder.
fn has_twenty(folder: &Folder) {
    assert_eq!(folder.tfs("check v").text(), "consistent\n");
    for number in 0..20 {
        let content = folder.tfs(&format!("get v f{number} -")).granted();
        assert!(content == some(100 * number), "f{number}");
    }
    assert_eq!(folder.tfs("list v").text().lines().count(), 20);
    let hidden = |name: &String| name.starts_with('.');
    assert!(!folder.names().iter().any(hidden));
}

#[test]
fn twenty_puts_at_once_leave_twenty_files() {
    let folder = with_volume("locks_twenty");
    all_granted(folder.at_once(twenty("")));
    has_twenty(&folder);
}

#[test]
fn twenty_puts_in_place_at_once_leave_twenty_files() {
    let folder = with_volume("locks_in_place");
    all_granted(folder.at_once(twenty("--in-place")));
    has_twenty(&folder);
}

#[test]
fn readers_see_a_consistent_volume_meanwhile() {
    let folder = with_volume("locks_readers");
    for rest in ["--in-place", "--in-place --replace", "--replace"] {
        let both = |put| [put, "check v --wait 3600".to_string()];
        for ran in folder.at_once(twenty(rest).flat_map(both)) {
            let told = ran.text();
            assert!(told.is_empty() || told == "consistent\n", "{told}");
        }
    }
    has_twenty(&folder);
}

#[test]
fn one_trace_takes_the_records_of_all() {
    let folder = with_volume("locks_trace");
    for rest in ["--record t", "--replace --in-place --record t"] {
        all_granted(folder.at_once(twenty(rest)));
    }
    let replayed = folder.tfs("replay start t --out end").text();
    assert_eq!(replayed, "records replayed: 100\n");
    assert!(folder.read("end") == folder.read("v"));
}

/// Here no lock of an image keeps the commands apart.
#[test]
fn one_trace_takes_the_records_of_several_images() {
    let folder = with_volume("locks_trace_images");
    let images: Vec<String> = (0..20).map(|number| format!("v{number}")).collect();
    for image in &images {
        fs::copy(folder.path("v"), folder.path(image)).unwrap();
    }
    let line = |image| format!("free {image} --record t --wait 3600");
    for ran in folder.at_once(images.iter().map(line)) {
        assert_eq!(ran.text(), "260608\n");
    }
    assert_eq!(folder.tfs("replay v t").text(), "records replayed: 20\n");
}

#[test]
fn a_held_image_is_busy() {
    let folder = with_volume("locks_busy");
    let held = File::open(folder.path("v")).unwrap();
    let message = "v: busy: another command holds it";
    held.lock().unwrap();
    for line in [
        "check v",
        "list v",
        "free v",
        "get v f1",
        "get v f1 f2 --to .",
        "extract v out",
        "dump v map",
        "rom check v",
    ] {
        folder.refused(&format!("{line} --wait 0"), 6, message);
    }
    held.unlock().unwrap();
    held.lock_shared().unwrap();
    assert_eq!(folder.tfs("check v --wait 0").text(), "consistent\n");
    for line in [
        "put v f1",
        "put v f1 --in-place",
        "put v f1 --at 0",
        "put v f1 f2",
        "create v f1 5",
        "remove v f1",
        "remove v f1 f2",
        "mend v",
        "timing open-lid v",
        "make v --size 64K --force",
        "replay start f0 --out v --force",
    ] {
        folder.refused(&format!("{line} --wait=0"), 6, message);
    }
    let told = "v: busy: another command has held it for 1 second";
    folder.refused("put v f1 --wait 1", 6, told);
}

#[test]
fn a_held_trace_or_host_file_is_busy() {
    let folder = with_volume("locks_busy_trace");
    folder.tfs("put v f1").granted();
    folder.write("t", b"");
    let held = File::open(folder.path("t")).unwrap();
    held.lock().unwrap();
    let message = "t: busy: another command holds it";
    for line in [
        "put v f2 --record t",
        "free v --record t",
        "get v f1 t --force",
        "trace make f0 t --force",
    ] {
        folder.refused(&format!("{line} --wait 0"), 6, message);
    }
}

/// Whoever waits goes on with the file that stands there afterwards, not with the one that it met.
#[test]
fn a_command_that_waits_sees_what_was_renamed() {
    let folder = with_volume("locks_renamed");
    folder.tfs("put start f1").granted();
    let held = File::open(folder.path("v")).unwrap();
    held.lock().unwrap();
    let waiting = folder.start("put v f2 --wait 3600");
    fs::rename(folder.path("start"), folder.path("v")).unwrap();
    drop(held);
    Ran::new(waiting.wait_with_output().unwrap()).granted();
    let list = folder.tfs("list v").text();
    assert!(list.contains(" f1\n") && list.contains(" f2\n"), "{list}");
}

/// A put reads its content before it holds the image, and a get lets it go before it writes.
#[test]
fn commands_joined_by_a_pipe_do_not_wait_for_each_other() {
    let folder = with_volume("locks_pipe");
    folder.write("f", &some(65_024));
    folder.tfs("put v f").granted();
    let ran = folder.shell("tfs get v f - | tfs put v - --name copy");
    assert_eq!((ran.status, ran.err.as_str()), (0, ""));
    assert!(folder.tfs("get v copy -").granted() == some(65_024));
}

/// The trace stands when the image is read; then the content waits for a reader of the pipe.
#[test]
fn a_get_that_waits_for_its_reader_does_not_hold_the_image() {
    let folder = with_volume("locks_reader");
    folder.tfs("put v f1").granted();
    folder.shell("mkfifo pipe").granted();
    let mut getting = folder.start("get v f1 pipe --record t");
    while fs::metadata(folder.path("t")).map_or(0, |found| found.len()) == 0 {
        assert!(getting.try_wait().unwrap().is_none(), "it has ended");
        thread::yield_now();
    }
    folder.tfs("put v f2 --wait 0").granted();
    assert!(folder.read("pipe") == some(100));
    Ran::new(getting.wait_with_output().unwrap()).granted();
}

#[test]
fn of_two_that_make_a_file_one_is_told_that_it_exists() {
    let folder = with_volume("locks_make");
    folder.tfs("put v f1").granted();
    folder.write("rom", &sample());
    fs::create_dir(folder.path("to")).unwrap();
    for (line, status) in [
        ("make new --size 64K", 0),
        ("get v f1 out", 0),
        ("get v f1 --to to", 0),
        ("extract v all", 0),
        ("build to built", 0),
        ("rom extract rom tree", 7),
    ] {
        let runs = folder.at_once((0..10).map(|_| line.to_string()));
        let (made, others): (Vec<Ran>, Vec<Ran>) =
            runs.into_iter().partition(|ran| ran.status == status);
        assert_eq!((made.len(), others.len()), (1, 9), "{line}");
        for ran in others {
            assert!(ran.err.contains(": exists already"), "{}", ran.err);
            assert_eq!(ran.status, 3);
        }
    }
    assert_eq!(folder.tfs("check new").text(), "consistent\n");
}

#[test]
fn all_that_replace_a_file_at_once_are_done() {
    let folder = with_volume("locks_force");
    let line = "make new --size 64K --force --wait 3600";
    all_granted(folder.at_once((0..10).map(|_| line.to_string())));
    assert_eq!(folder.tfs("check new").text(), "consistent\n");
}

/// Each holds all host files that it replaces.
#[test]
fn gets_of_the_same_files_in_any_order_do_not_block_each_other() {
    let folder = with_volume("locks_order");
    folder.tfs("put v f1 f2 f3").granted();
    fs::create_dir(folder.path("to")).unwrap();
    folder.tfs("get v f1 f2 f3 --to to").granted();
    let lines = ["f1 f2 f3", "f3 f2 f1"].map(|names| format!("get v {names} --to to -f -w 20"));
    all_granted(folder.at_once((0..30).map(|number| lines[number % 2].clone())));
    for number in 1..4 {
        assert!(folder.read(&format!("to/f{number}")) == some(100 * number));
    }
}

#[test]
fn a_wait_is_a_number_of_seconds() {
    let folder = with_volume("locks_wait");
    for wait in ["", "x", "-1", "1.5", "3601", "4294967296"] {
        let ran = folder.run(&["check", "v", "--wait", wait]);
        let why = format!("tfs: check: --wait {wait}: no number from 0 to 3600\n");
        assert_eq!((ran.status, ran.err), (2, why));
    }
    for wait in ["--wait 3600", "--wait=0x1", "-w 0", "-w5", "-jw5"] {
        assert_eq!(folder.tfs(&format!("check v {wait}")).status, 0, "{wait}");
    }
    let help = folder.tfs("--help").text();
    assert!(help.contains("-w, --wait SECONDS"), "{help}");
}
