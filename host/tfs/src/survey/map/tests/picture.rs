//! The picture is well-formed, stands alone, and shows what the text shows.

use super::super::svg;
use super::{any, marks, sample};
use crate::survey::volume;
use generate::Random;
use std::collections::HashMap;
use std::io::Write;
use std::process::{Command, Stdio};

/// Fails where tags do not match, or text holds what XML does not allow.
fn assert_well_formed(xml: &str) {
    let body = xml.strip_prefix("<?xml version=\"1.0\" encoding=\"UTF-8\"?>");
    let mut open = Vec::new();
    for part in body.unwrap().split('<').skip(1) {
        let (tag, text) = part.split_once('>').unwrap();
        let name = tag.split([' ', '/']).next().unwrap();
        if let Some(closed) = tag.strip_prefix('/') {
            assert_eq!(open.pop(), Some(closed));
        } else if !tag.ends_with('/') {
            open.push(name);
        }
        assert_eq!(tag.matches('"').count() % 2, 0, "{tag}");
        assert!(!text.contains(['>', '"']), "{text}");
        let allowed = |character: char| character == '\n' || !character.is_control();
        assert!(text.chars().all(allowed), "{text:?}");
        let entities = text.split('&').skip(1);
        let known = ["amp;", "lt;", "gt;", "quot;"];
        let is_known = |rest: &str| known.iter().any(|entity| rest.starts_with(entity));
        assert!(entities.into_iter().all(is_known), "{text}");
    }
    assert_eq!(open, Vec::<&str>::new());
}

/// The squares of the blocks: the number in the title, and the sign or a dot for free ones.
fn squares(picture: &str) -> Vec<(usize, char)> {
    let squares = picture.split("<g class=\"block\"><title>block ").skip(1);
    let square = |square: &str| {
        let square = &square[..square.find("</g>").unwrap()];
        let number = square.split(':').next().unwrap().parse().unwrap();
        let sign = square.strip_suffix("</text>");
        (
            number,
            sign.map_or('.', |square| square.chars().last().unwrap()),
        )
    };
    squares.map(square).collect()
}

#[test]
fn a_picture_is_well_formed_and_has_a_square_for_each_block() {
    let mut random = Random::new(73);
    for _ in 0..400 {
        let survey = any(&mut random);
        let picture = svg(&survey, "pump.img");
        assert_well_formed(&picture);
        let signs: Vec<char> = survey.cells().iter().map(|cell| cell.sign()).collect();
        let expected: Vec<(usize, char)> = signs.into_iter().enumerate().collect();
        assert_eq!(squares(&picture), expected);
        assert_eq!(expected.len(), survey.blocks.len());
    }
}

#[test]
fn faults_are_hatched_at_their_blocks_and_nowhere_else() {
    let mut random = Random::new(74);
    let hatchings = HashMap::from([('2', "twice"), ('!', "stray"), ('?', "missing")]);
    for _ in 0..400 {
        let survey = any(&mut random);
        let picture = svg(&survey, "pump.img");
        let marks = marks(&survey);
        for (block, square) in picture.split("<g class=\"block\">").skip(1).enumerate() {
            let square = &square[..square.find("</g>").unwrap()];
            let expected = marks.get(&block).map(|sign| hatchings[sign]);
            let hatched = square.split_once("url(#").map(|(_, rest)| rest);
            let hatched = hatched.map(|rest| rest.split(')').next().unwrap());
            assert_eq!(hatched, expected, "{block}");
        }
    }
}

#[test]
fn a_picture_stands_alone() {
    let picture = svg(&sample(), "pump.img");
    let namespace = "http://www.w3.org/2000/svg";
    assert!(!picture.replace(namespace, "").contains("://"));
    for word in ["href", "<script", "<style", "<image", "@import", " on"] {
        assert!(!picture.contains(word), "{word}");
    }
}

#[test]
fn names_and_titles_survive() {
    let picture = svg(&sample(), "a<b>&\"c\u{1}\u{ffff}ü");
    assert_well_formed(&picture);
    assert!(picture.contains(">a&lt;b&gt;&amp;&quot;c\u{fffd}\u{fffd}ü</text>"));
    assert!(picture.contains(">a&lt;&amp;&quot;\\xff\\x5c</text>"));
    assert!(picture.contains("<title>block 7: content 0 of slot 1 (a&lt;&amp;&quot;\\xff\\x5c), "));
}

#[test]
fn a_picture_tells_whose_reading_it_is_and_the_faults() {
    let picture = svg(&sample(), "pump.img");
    assert!(picture.contains(">read by this tool from the bytes alone: 4 faults</text>"));
    assert!(picture.contains(">volume PUMP: 80 blocks, 9 in use, 70 free</text>"));
}

#[test]
fn an_xml_reader_accepts_a_picture() {
    let script = "import sys, xml.dom.minidom as dom\n\
                  tree = dom.parse(sys.stdin.buffer)\n\
                  print(len(tree.getElementsByTagName('g')))";
    let python = Command::new("python3")
        .args(["-c", script])
        .stdin(Stdio::piped())
        .stdout(Stdio::piped())
        .spawn();
    // A host without the reader has the checks above alone.
    let Ok(mut python) = python else { return };
    let survey = volume(&Random::new(75).bytes(5000 * 512));
    let picture = svg(&survey, "noise & <more>");
    let mut input = python.stdin.take().unwrap();
    input.write_all(picture.as_bytes()).unwrap();
    drop(input);
    let printed = python.wait_with_output().unwrap().stdout;
    assert_eq!(String::from_utf8(printed).unwrap(), "4096\n");
}
