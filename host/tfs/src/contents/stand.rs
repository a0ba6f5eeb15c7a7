//! Files made and removed without content of the host.

use super::{among, distinct, each};
use crate::failure::Outcome;
use crate::image::Changing;
use crate::report::Form;
use crate::stores::Change;
use crate::trace::Session;
use crate::words;
use std::path::Path;

/// What is created: a file of zeros.
pub struct Create<'a> {
    pub name: &'a [u8],
    pub size: u32,
    /// Whether the image is changed store by store.
    pub in_place: bool,
}

/// Creates a file of zeros, and tells a program its inode number.
pub fn create(path: &Path, given: &Create<'_>, record: Option<&Path>, form: Form) -> Outcome {
    let &Create { name, size, .. } = given;
    let mut changing = Changing::load(path, given.in_place)?;
    let mut session = Session::open(record, path)?;
    let inode = match session.create(&mut changing.image.bytes, name, size) {
        Err(refusal) => return Err(session.refused(&changing.image, refusal)),
        Ok(inode) => inode,
    };
    session.save_with(path, || changing.save(&[Change::Create(name, size)]))?;
    let members = || {
        vec![
            ("name", words::name(name).into()),
            ("size", size.into()),
            ("inode", inode.into()),
        ]
    };
    Ok(form.told(String::new, members))
}

/// Removes files from a volume, all or none.
pub fn remove(path: &Path, names: &[Vec<u8>], record: Option<&Path>, in_place: bool) -> Outcome {
    distinct("remove", names.iter().map(Vec::as_slice))?;
    let mut changing = Changing::load(path, in_place)?;
    let mut session = Session::open(record, path)?;
    let volume = &mut changing.image.bytes;
    let removed = each(names, |name| {
        session.remove(volume, name)?;
        Ok(Change::Remove(name))
    });
    let changes = match removed {
        Err((name, refusal)) => {
            let failure = session.refused(&changing.image, refusal);
            return Err(among(names.len() > 1, name, failure));
        }
        Ok(changes) => changes,
    };
    session.save_with(path, || changing.save(&changes))?;
    Ok(Vec::new())
}
