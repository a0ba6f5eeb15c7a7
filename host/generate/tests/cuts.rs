//! Changes of volumes, cut after every number of their stores, keep what is promised.

use std::collections::HashMap;

use generate::cuts::{Change, Series};
use generate::tfs::{any_volume, volume, Shape, Volume};
use generate::Random;
use reference::tfs::{check, mend};

/// How many cuts were made, and how many of them a mend had something to do for.
#[derive(Default)]
struct Cuts {
    made: usize,
    mended: usize,
    /// The greatest number of stores.
    most: usize,
}

impl Cuts {
    /// Cuts a series after every number of stores; each cut keeps what is promised.
    fn make(&mut self, series: &Series) {
        for count in 0..=series.stores.len() {
            let cut = series.cut(count);
            assert_eq!(series.holds(count, &cut, check(&cut).err()), Ok(()));
            let mut mended = cut.clone();
            assert_eq!(mend(&mut mended), Ok(()));
            let kept = series.mends(&cut, &mended, check(&mended).err());
            assert_eq!(kept, Ok(()));
            let mut again = mended.clone();
            assert_eq!(mend(&mut again), Ok(()));
            assert!(again == mended);
            self.made += 1;
            self.mended += usize::from(mended != cut);
        }
        self.most = self.most.max(series.stores.len());
    }
}

/// Draws a change of a kind on a volume and cuts it.
fn cut(random: &mut Random, made: &Volume, kind: usize, cuts: &mut Cuts) {
    if let Some(change) = Change::draw(random, made, kind) {
        let series = Series::of_reference(random, change, &made.image);
        assert_eq!(series.is_whole(), Ok(()));
        cuts.make(&series);
    }
}

#[test]
fn every_cut_keeps_what_is_promised() {
    let mut random = Random::new(65);
    let mut cuts: HashMap<usize, Cuts> = HashMap::new();
    for round in 0..3_000 {
        let kind = round % 3;
        let made = match random.below(20) {
            0 => volume(&mut random, Shape::Largest, 140),
            1 => volume(&mut random, Shape::Empty, 132),
            _ => any_volume(&mut random, 140),
        };
        cut(&mut random, &made, kind, cuts.entry(kind).or_default());
    }
    assert!(cuts.values().all(|cuts| cuts.made > 1_000));
    assert!(cuts[&0].mended > 500 && cuts[&1].mended > 500 && cuts[&2].mended == 0);
    assert_eq!((cuts[&0].most, cuts[&1].most, cuts[&2].most), (130, 2, 127));
}

#[test]
fn large_volumes_are_cut_too() {
    let mut random = Random::new(66);
    let mut cuts = Cuts::default();
    for kind in [0, 1, 2] {
        let made = volume(&mut random, Shape::Scattered, 4_096);
        cut(&mut random, &made, kind, &mut cuts);
    }
    assert!(cuts.made > 6);
}

/// The order of a series matters: with two stores exchanged some cut breaks a promise.
#[test]
fn other_orders_break_a_promise() {
    let mut random = Random::new(67);
    let made = volume(&mut random, Shape::Scattered, 60);
    let breaks = |series: &Series| {
        let kept = |count: &usize| {
            let cut = series.cut(*count);
            series.holds(*count, &cut, check(&cut).err()) == Ok(())
        };
        !(0..=series.stores.len()).all(|count| kept(&count))
    };
    for (kind, stores) in [(0, [1, 2]), (0, [1, 3]), (1, [1, 2])] {
        let change = Change::draw(&mut random, &made, kind).expect("a change");
        let mut series = Series::of_reference(&mut random, change, &made.image);
        assert!(!breaks(&series));
        let last = series.stores.len();
        series.stores.swap(last - stores[0], last - stores[1]);
        assert!(breaks(&series), "{kind} {stores:?}");
    }
}

/// The order of content blocks breaks no promise of cuts, but the rules give it.
#[test]
fn other_orders_of_content_are_told() {
    let mut random = Random::new(69);
    let mut made = volume(&mut random, Shape::Empty, 60);
    let image = made.image.clone();
    let bytes = vec![7; 1_300];
    let create = Change::Create(b"NEW".to_vec(), 1_300);
    let created = Series::of_reference(&mut random, create, &image);
    made.image.clone_from(&created.new);
    let write = Change::Write(b"NEW".to_vec(), 0, bytes);
    let written = Series::of_reference(&mut random, write, &made.image);
    for mut series in [created, written] {
        assert_eq!(series.is_whole(), Ok(()));
        series.stores.swap(0, 2);
        assert!(series.is_whole().is_err());
        series.stores.swap(0, 2);
        series.stores.push(series.stores[0].clone());
        assert!(series.is_whole().is_err());
    }
}
