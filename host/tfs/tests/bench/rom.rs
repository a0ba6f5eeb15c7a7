//! romfs images built by the tests alone.

use super::some;

/// An entry to put into an image.
pub struct Node {
    file_type: u32,
    name: Vec<u8>,
    info: u32,
    content: Vec<u8>,
    list: Vec<Node>,
}

fn node(file_type: u32, name: &[u8]) -> Node {
    Node {
        file_type,
        name: name.to_vec(),
        info: 0,
        content: Vec::new(),
        list: Vec::new(),
    }
}

pub fn file(name: &[u8], content: &[u8]) -> Node {
    let content = content.to_vec();
    Node {
        content,
        ..node(2, name)
    }
}

pub fn program(name: &[u8], content: &[u8]) -> Node {
    let content = content.to_vec();
    Node {
        content,
        ..node(2 + 8, name)
    }
}

pub fn symbolic_link(name: &[u8], target: &[u8]) -> Node {
    let content = target.to_vec();
    Node {
        content,
        ..node(3, name)
    }
}

pub fn directory(name: &[u8], list: Vec<Node>) -> Node {
    Node {
        list,
        ..node(1, name)
    }
}

/// A directory "." or "..", or a hard link, which leads to the header at an offset.
pub fn dot(name: &[u8], info: u32) -> Node {
    Node {
        info,
        ..node(1, name)
    }
}

pub fn hard_link(name: &[u8], info: u32) -> Node {
    Node {
        info,
        ..node(0, name)
    }
}

pub fn char_device(name: &[u8], major: u32, minor: u32) -> Node {
    let info = major << 16 | minor;
    Node {
        info,
        ..node(5, name)
    }
}

pub fn fifo(name: &[u8]) -> Node {
    node(7, name)
}

/// The offset of the first header of an image.
pub const FIRST: u32 = 32;

/// An image with these entries in its root list.
pub fn image(root: &[Node]) -> Vec<u8> {
    let mut image = b"-rom1fs-\0\0\0\0\0\0\0\0V".to_vec();
    pad(&mut image);
    place(&mut image, root);
    let size = image.len() as u32;
    set(&mut image, 8, size);
    let covered = image.len().min(512);
    seal(&mut image, 0, covered);
    image
}

/// An image with an entry of most types.
pub fn sample() -> Vec<u8> {
    image(&[
        dot(b".", FIRST),
        hard_link(b"..", FIRST),
        file(b"boot.cfg", &some(100)),
        directory(
            b"bin",
            vec![program(b"run", &some(20)), directory(b"low", vec![])],
        ),
        symbolic_link(b"to", b"bin/run"),
        hard_link(b"again", 96),
        char_device(b"tty", 5, 1),
        fifo(b"pipe"),
    ])
}

fn place(image: &mut Vec<u8>, list: &[Node]) {
    for (index, node) in list.iter().enumerate() {
        let at = image.len();
        image.extend_from_slice(&[0; 16]);
        image.extend_from_slice(&node.name);
        image.push(0);
        pad(image);
        let end = image.len();
        image.extend_from_slice(&node.content);
        pad(image);
        let own = image.len() as u32;
        place(image, &node.list);
        let next = if index + 1 < list.len() {
            image.len() as u32
        } else {
            0
        };
        let info = if node.list.is_empty() { node.info } else { own };
        set(image, at, next | node.file_type);
        set(image, at + 4, info);
        set(image, at + 8, node.content.len() as u32);
        seal(image, at, end);
    }
}

fn pad(image: &mut Vec<u8>) {
    image.resize(image.len().next_multiple_of(16), 0);
}

fn set(image: &mut [u8], at: usize, value: u32) {
    image[at..at + 4].copy_from_slice(&value.to_be_bytes());
}

fn seal(image: &mut [u8], start: usize, end: usize) {
    let words = image[start..end].chunks_exact(4);
    let sum = words.fold(0u32, |sum, word| {
        sum.wrapping_add(u32::from_be_bytes([word[0], word[1], word[2], word[3]]))
    });
    set(image, start + 12, sum.wrapping_neg());
}
