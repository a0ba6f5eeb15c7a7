//! Links in romfs images over several MiB, whose targets are marked window by window, on both programs.

use generate::Random;

const FILES: usize = 72;
const CONTENT: usize = 61_000;
const LABEL: usize = 32;

/// Where the headers of the files and of the links stand.
struct Rom {
    image: Vec<u8>,
    files: Vec<usize>,
    links: Vec<usize>,
}

fn put(image: &mut [u8], at: usize, word: u32) {
    image[at..at + 4].copy_from_slice(&word.to_be_bytes());
}

/// Makes the words from an offset on sum up to 0 by the one at `sum`.
fn seal(image: &mut [u8], from: usize, length: usize, sum: usize) {
    put(image, sum, 0);
    let words = image[from..from + length].chunks_exact(4);
    let total = words.fold(0u32, |total, word| {
        total.wrapping_add(u32::from_be_bytes(word.try_into().unwrap()))
    });
    put(image, sum, total.wrapping_neg());
}

impl Rom {
    /// One list of files, each with a hard link behind it that leads to another file anywhere.
    fn new(random: &mut Random) -> Self {
        let (file, pair) = (
            32 + CONTENT.next_multiple_of(16),
            64 + CONTENT.next_multiple_of(16),
        );
        let full = LABEL + FILES * pair;
        let mut rom = Self {
            image: vec![0; full],
            files: (0..FILES).map(|number| LABEL + number * pair).collect(),
            links: (0..FILES)
                .map(|number| LABEL + number * pair + file)
                .collect(),
        };
        for number in 0..FILES {
            let (at, link) = (rom.files[number], rom.links[number]);
            let next = rom.files.get(number + 1).copied().unwrap_or(0);
            rom.entry(at, link, 2, 0, CONTENT);
            let target = rom.files[random.below(FILES)];
            rom.entry(link, next, 0, target as u32, 0);
        }
        rom.image[..8].copy_from_slice(b"-rom1fs-");
        put(&mut rom.image, 8, full as u32);
        seal(&mut rom.image, 0, 512, 12);
        rom
    }

    fn entry(&mut self, at: usize, next: usize, file_type: u32, info: u32, size: usize) {
        put(&mut self.image, at, next as u32 | file_type);
        put(&mut self.image, at + 4, info);
        put(&mut self.image, at + 8, size as u32);
        self.image[at + 16] = b'n';
        seal(&mut self.image, at, 32, at + 12);
    }

    /// The image with a link that leads elsewhere.
    fn led(&mut self, link: usize, target: usize) -> u32 {
        let at = self.links[link];
        let before = u32::from_be_bytes(self.image[at + 4..at + 8].try_into().unwrap());
        put(&mut self.image, at + 4, target as u32);
        seal(&mut self.image, at, 32, at + 12);
        before
    }
}

/// The refusal of both programs, its number and its place.
fn refused(image: &[u8]) -> Option<(u32, u32)> {
    let proved = proved::romfs::check(image).err();
    let proved = proved.map(|refusal| (refusal.number, refusal.place));
    let reference = reference::romfs::check(image).err();
    let reference = reference.map(|refusal| (refusal.number, refusal.place));
    assert_eq!(proved, reference);
    proved
}

#[test]
fn links_into_every_window_are_accepted() {
    for seed in 0..20 {
        let rom = Rom::new(&mut Random::new(seed));
        assert!(rom.image.len() > 4 << 20);
        assert_eq!(refused(&rom.image), None);
    }
}

/// A bad link is told wherever it stands and wherever it leads.
#[test]
fn one_bad_link_is_found() {
    let mut random = Random::new(1);
    let mut rom = Rom::new(&mut random);
    for link in 0..FILES {
        let other = random.below(FILES);
        let (file, length) = (rom.files[other], rom.image.len());
        let beside = [
            file + 16,
            file + 8,
            rom.links[other],
            0,
            16,
            length,
            length + (9 << 20),
        ];
        for target in beside {
            let before = rom.led(link, target);
            assert_eq!(refused(&rom.image), Some((29, rom.links[link] as u32)));
            rom.led(link, before as usize);
        }
    }
}

/// Of several bad links the lowest is told, though another may lead into an earlier window.
#[test]
fn the_lowest_of_several_bad_links_is_told() {
    let mut random = Random::new(2);
    for _ in 0..200 {
        let mut rom = Rom::new(&mut random);
        let mut lowest = FILES;
        for _ in 0..1 + random.below(5) {
            let link = random.below(FILES);
            let target = rom.files[random.below(FILES)] + 16;
            rom.led(link, target);
            lowest = lowest.min(link);
        }
        assert_eq!(refused(&rom.image), Some((29, rom.links[lowest] as u32)));
    }
}
