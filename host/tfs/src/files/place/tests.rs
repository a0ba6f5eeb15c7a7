use super::*;

/// An empty folder of one test.
fn folder(name: &str) -> PathBuf {
    let name = format!("tfs-place-{}-{name}", std::process::id());
    let folder = std::env::temp_dir().join(name);
    fs::create_dir(&folder).unwrap();
    folder
}

fn told<T>(written: Result<T, Failure>) -> String {
    written
        .err()
        .map_or(String::new(), |failure| failure.to_string())
}

/// Another program writes the file after it was found missing.
fn appears(path: &Path) -> impl FnOnce(&File) -> io::Result<()> + '_ {
    move |mut file| {
        fs::write(path, b"theirs")?;
        file.write_all(b"ours")
    }
}

#[test]
fn a_file_that_appears_meanwhile_is_not_replaced() {
    let folder = folder("appears");
    let path = folder.join("f");
    let prepared = prepare(&path, false, appears(&path));
    let why = told(prepared.and_then(Prepared::put_in_place));
    assert_eq!(why, format!("{}: {EXISTS}", path.display()));
    assert_eq!(fs::read(&path).unwrap(), b"theirs");
    assert_eq!(fs::read_dir(&folder).unwrap().count(), 1);
    fs::remove_dir_all(&folder).unwrap();
}

#[test]
fn a_file_that_appears_meanwhile_is_replaced_by_force() {
    let folder = folder("forced");
    let path = folder.join("f");
    assert_eq!(told(write_by(&path, true, appears(&path))), "");
    assert_eq!(fs::read(&path).unwrap(), b"ours");
    assert_eq!(fs::read_dir(&folder).unwrap().count(), 1);
    fs::remove_dir_all(&folder).unwrap();
}

#[test]
fn a_folder_that_appears_meanwhile_is_never_replaced() {
    let folder = folder("folder_appears");
    let path = folder.join("f");
    let why = told(write_by(&path, true, |_| fs::create_dir(&path)));
    assert_eq!(
        why,
        format!("{}: is a folder, which cannot be replaced", path.display())
    );
    assert_eq!(fs::read_dir(&folder).unwrap().count(), 1);
    fs::remove_dir_all(&folder).unwrap();
}

/// Even an empty folder, which a plain rename would replace.
#[test]
fn a_new_folder_replaces_none_that_appears_meanwhile() {
    let folder = folder("folders");
    let path = folder.join("f");
    let filled = make_folder(&path, |inside| {
        fs::write(inside.join("ours"), b"").unwrap();
        fs::create_dir(&path).unwrap();
        Ok(())
    });
    assert_eq!(told(filled), format!("{}: exists already", path.display()));
    assert_eq!(fs::read_dir(&path).unwrap().count(), 0);
    assert_eq!(fs::read_dir(&folder).unwrap().count(), 1);
    fs::remove_dir_all(&folder).unwrap();
}
