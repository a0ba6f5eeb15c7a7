//! A whole volume as a folder of the host.

use super::host_name;
use crate::escapes;
use crate::extracted::{told, Called, Visited};
use crate::failure::{Failure, Outcome};
use crate::files;
use crate::image::Image;
use crate::progress::Progress;
use crate::report::Form;
use crate::volume::files_of;
use crate::words;
use proved::tfs;
use std::io::{self, ErrorKind};
use std::path::{Path, PathBuf};

impl Called for Vec<u8> {
    const MEMBER: &'static str = "name";

    fn line(&self) -> String {
        words::name(self)
    }

    fn escaped(&self) -> String {
        words::name(self)
    }
}

/// Makes a folder with the files of a volume, and tells of each one that is skipped. Escaped, every
/// name is one for a host file.
pub fn extract(path: &Path, folder: &Path, escaped: bool, form: Form) -> Outcome {
    let image = Image::load_volume(path)?;
    let files = files_of(&image)?;
    let total = files.iter().map(|(_, file)| u64::from(file.size)).sum();
    let what = format!("extracting {}", path.display());
    let mut progress = Progress::new(&what, total).of_files(files.len());
    let visited = files::make_folder(folder, |inside| {
        let visit = |(_, file): (u32, tfs::File)| {
            let skipped = match host_file(&file.name, escaped) {
                None => Some("no name for a host file".to_string()),
                Some(host) => place(&image, &file, &inside.join(&host))
                    .map_err(|error| Failure::host(&folder.join(host), error))?,
            };
            progress.add_file(file.size.into());
            let entry = file.name;
            Ok(Visited { entry, skipped })
        };
        files.into_iter().map(visit).collect::<Result<Vec<_>, _>>()
    })?;
    told(&visited, folder, form)
}

/// The host file that a file of this name becomes, if it can become one.
fn host_file(name: &[u8], escaped: bool) -> Option<PathBuf> {
    match escaped {
        true => Some(PathBuf::from(escapes::host_name(name))),
        false => host_name(name).map(Path::to_path_buf),
    }
}

/// Writes a file, or gives the reason to skip it.
fn place(image: &Image, file: &tfs::File, host: &Path) -> io::Result<Option<String>> {
    let mut content = vec![0; file.size as usize];
    let read = tfs::read(&image.bytes, &file.name, 0, &mut content);
    if !read.is_ok_and(|read| read.count == file.size) {
        return Err(io::Error::other("cannot be read whole"));
    }
    match files::fill_new(host, &content, 0o666) {
        // On a host that does not tell large letters from small ones.
        Err(error) if error.kind() == ErrorKind::AlreadyExists => {
            Ok(Some("the name stands already".to_string()))
        }
        made => made.map(|()| None),
    }
}
