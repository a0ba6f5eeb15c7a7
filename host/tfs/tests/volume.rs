//! The commands on a volume, granted.

mod bench;

use bench::{some, Folder};

#[test]
fn the_numbers_of_the_rules() {
    let folder = Folder::new("numbers");
    folder
        .tfs("make pump.img --size 65536 --label PUMP")
        .granted();
    let image = folder.read("pump.img");
    assert_eq!(image.len(), 65_536);
    assert_eq!(&image[..9], b"\0\0\x0e\xa1PUMP\0");
    assert_eq!(folder.tfs("free pump.img").text(), "64000\n");
    folder.write("TIMING", &some(1000));
    folder.tfs("put pump.img TIMING").granted();
    assert_eq!(folder.tfs("list pump.img").text(), " 0    3  1000 TIMING\n");
    assert_eq!(folder.tfs("free pump.img").text(), "62464\n");
    assert_eq!(folder.tfs("check pump.img").text(), "consistent\n");
}

#[test]
fn what_is_put_is_got_back() {
    let folder = Folder::new("put_get");
    folder.tfs("make v --size=2M").granted();
    let sizes = [0, 1, 511, 512, 513, 5000, 65_023, 65_024];
    for size in sizes {
        folder.write("in", &some(size));
        folder.tfs(&format!("put v in --name f{size}")).granted();
    }
    assert_eq!(folder.tfs("check v").text(), "consistent\n");
    for size in sizes {
        folder.tfs(&format!("get v f{size} out --force")).granted();
        assert!(folder.read("out") == some(size), "{size}");
        assert!(
            folder.tfs(&format!("get v f{size} -")).granted() == some(size),
            "{size}"
        );
        folder.tfs(&format!("get v f{size}")).granted();
        assert!(folder.read(&format!("f{size}")) == some(size), "{size}");
    }
}

#[test]
fn the_list_has_slot_inode_number_size_and_name() {
    let folder = Folder::new("list");
    folder.tfs("make v --size 64K").granted();
    assert_eq!(folder.tfs("list v").text(), "");
    folder.write("a", &some(600));
    folder.tfs("put v a").granted();
    folder.tfs("put v a --name b").granted();
    folder
        .run(&["put", "v", "a", "--name", "a b\\\u{e9}\n"])
        .granted();
    folder.tfs("remove v a").granted();
    let lines = " 1    6   600 b\n 2    9   600 a b\\x5c\\xc3\\xa9\\x0a\n";
    assert_eq!(folder.tfs("list v").text(), lines);
}

#[test]
fn remove_gives_the_room_back() {
    let folder = Folder::new("remove");
    folder.tfs("make v --size 64K").granted();
    let empty = folder.read("v");
    folder.write("zeros", &[0; 3000]);
    folder.tfs("put v zeros").granted();
    assert_eq!(folder.tfs("free v").text(), "60416\n");
    folder.tfs("remove v zeros").granted();
    assert_eq!(folder.tfs("free v").text(), "64000\n");
    assert!(folder.read("v")[..1536] == empty[..1536]);
}

#[test]
fn replace_takes_the_new_content() {
    let folder = Folder::new("replace");
    folder.tfs("make v --size 64K").granted();
    folder.write("f", &some(50_000));
    folder.tfs("put v f --replace").granted();
    folder.write("f", &some(60_000)[9..]);
    folder.tfs("put v f --replace").granted();
    assert!(folder.tfs("get v f -").granted() == some(60_000)[9..]);
    assert_eq!(folder.tfs("list v").text(), " 0    3 59991 f\n");
}

#[test]
fn standard_input_is_put_under_a_name() {
    let folder = Folder::new("standard_input");
    folder.tfs("make v --size 64K").granted();
    folder
        .run_with(&["put", "v", "-", "--name", "in"], &some(700))
        .granted();
    assert!(folder.tfs("get v in -").granted() == some(700));
}

#[test]
fn options_end_where_asked() {
    let folder = Folder::new("options_end");
    folder.tfs("make --size 64K -- --image").granted();
    folder.write("--help", b"text");
    folder.tfs("put -- --image --help").granted();
    assert_eq!(folder.tfs("get -- --image --help -").granted(), b"text");
}

#[test]
fn force_makes_a_new_volume() {
    let folder = Folder::new("force");
    folder.write("v", &some(100_000));
    folder.tfs("make v --size 1536 --force").granted();
    assert_eq!(folder.read("v").len(), 1536);
    assert_eq!(folder.tfs("free v").text(), "0\n");
    assert_eq!(folder.names(), ["v"]);
}

#[test]
fn leftovers_are_ignored_and_kept() {
    let folder = Folder::new("leftovers");
    folder.tfs("make v --size 64K").granted();
    folder.write("TIMING", &some(1000));
    folder.tfs("put v TIMING").granted();
    let mut image = folder.read("v");
    image[1035..1044].copy_from_slice(b"old bytes");
    image[1049..1064].copy_from_slice(b"all of 15 bytes");
    folder.write("v", &image);

    assert_eq!(folder.tfs("check v").text(), "consistent\n");
    assert_eq!(folder.tfs("list v").text(), " 0    3  1000 TIMING\n");
    assert!(folder.tfs("get v TIMING -").granted() == some(1000));
    folder.tfs("put v TIMING --name new").granted();
    assert_eq!(&folder.read("v")[1024..1044], &image[1024..1044]);
    assert_eq!(
        folder.tfs("list v").text(),
        " 0    3  1000 TIMING\n 1    6  1000 new\n"
    );
    folder.tfs("remove v TIMING").granted();
    assert_eq!(folder.read("v")[1024..1044], [0; 20]);
    assert_eq!(folder.tfs("list v").text(), " 1    6  1000 new\n");
}
