use super::*;
use std::io::Write;

/// An empty folder of one test.
fn folder(name: &str) -> PathBuf {
    let name = format!("tfs-temporary-{}-{name}", std::process::id());
    let folder = std::env::temp_dir().join(name);
    fs::create_dir(&folder).unwrap();
    folder
}

/// The number of names in a folder.
fn count(folder: &Path) -> usize {
    fs::read_dir(folder).unwrap().count()
}

fn no_links(_: &Path, _: &Path) -> io::Result<()> {
    Err(ErrorKind::Unsupported.into())
}

#[test]
fn a_file_gets_its_name_where_the_host_has_no_hard_links() {
    let folder = folder("no_links");
    let path = folder.join("f");
    let mut temporary = Temporary::file(&path, 0o666).unwrap();
    temporary.file.write_all(b"ours").unwrap();
    temporary.rename_new(&path, no_links).unwrap();
    drop(temporary);
    assert_eq!(
        (fs::read(&path).unwrap(), count(&folder)),
        (b"ours".to_vec(), 1)
    );
    let other = Temporary::file(&path, 0o666).unwrap();
    let refused = other.rename_new(&path, no_links).unwrap_err();
    assert_eq!(refused.kind(), ErrorKind::AlreadyExists);
    drop(other);
    assert_eq!(
        (fs::read(&path).unwrap(), count(&folder)),
        (b"ours".to_vec(), 1)
    );
    fs::remove_dir_all(&folder).unwrap();
}

/// The empty file that had taken the name goes again.
#[test]
fn a_name_that_cannot_be_taken_over_is_left() {
    let folder = folder("taken_over");
    let path = folder.join("f");
    let temporary = Temporary::file(&path, 0o666).unwrap();
    fs::remove_file(&temporary.path).unwrap();
    assert!(temporary.rename_new(&path, no_links).is_err());
    assert_eq!(count(&folder), 0);
    fs::remove_dir_all(&folder).unwrap();
}

#[test]
fn the_longest_name_has_a_temporary_one() {
    let folder = folder("longest");
    let path = folder.join("n".repeat(255));
    let temporary = Temporary::file(&path, 0o666).unwrap();
    temporary.rename(&path).unwrap();
    assert!(path.is_file());
    fs::remove_dir_all(&folder).unwrap();
}

/// Another command may remove a new file before it is locked.
#[test]
fn a_file_that_was_taken_for_dead_is_made_again() {
    let folder = folder("taken_for_dead");
    let made = Temporary::beside(&folder.join("f"), |path| {
        let file = new_file(path, 0o666)?;
        if path.to_str().unwrap().ends_with("-0") {
            fs::remove_file(path)?;
        }
        Ok(file)
    });
    let made = made.unwrap();
    assert!(made.path.to_str().unwrap().ends_with("-1"));
    assert!(made.path.is_file());
    fs::remove_dir_all(&folder).unwrap();
}

#[test]
fn a_command_leaves_what_it_fills_itself() {
    let folder = folder("own");
    let path = folder.join("f");
    let (one, other) = (Temporary::file(&path, 0o666), Temporary::folder(&path));
    remove_dead_files(&path);
    assert_eq!(count(&folder), 2);
    drop((one, other));
    assert_eq!(count(&folder), 0);
    fs::remove_dir_all(&folder).unwrap();
}
