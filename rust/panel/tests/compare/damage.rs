//! Damaged files: both sides give the same refusal, or accept the same.

use second::generate::{order, record_places, Random, Runs, RUNS};
use second::Style;

use crate::both::{compare, Way};
use crate::orders::drawn;
use crate::shrink::list_keeps;
use crate::tally::{in_each_style, Tally};

/// Both sides agree on the bytes.
fn agree(style: Style, way: Way, bytes: &[u8], tally: &mut Tally) {
    list_keeps(bytes, |bytes| {
        compare(style, way, bytes, way.room(bytes)).map(|_| ())
    });
    tally.count();
}

/// The order file and the drawing file of a random order with runs of every sort and each n.
fn files(style: Style, sizes: impl IntoIterator<Item = u16>, seed: u64) -> Vec<(Way, Vec<u8>)> {
    let mut files = Vec::new();
    for n in sizes {
        for runs in RUNS {
            let order = order(n, runs, &mut Random::new(seed + u64::from(n)));
            let (bytes, drawing) = drawn(style, &order);
            files.extend([(Way::Draw, bytes), (Way::Undraw, drawing)]);
        }
    }
    files
}

/// The records of an accepted file.
fn records(bytes: &[u8]) -> Vec<&[u8]> {
    let places = record_places(bytes);
    let ends = places.iter().skip(1).copied().chain([bytes.len()]);
    places
        .iter()
        .zip(ends)
        .map(|(&from, to)| &bytes[from..to])
        .collect()
}

/// The 16-bit number at an offset.
fn number(bytes: &[u8], at: usize) -> u16 {
    u16::from_be_bytes([bytes[at], bytes[at + 1]])
}

/// The file with another number at an offset.
pub fn with_number(bytes: &[u8], at: usize, number: u16) -> Vec<u8> {
    let mut changed = bytes.to_vec();
    changed[at..at + 2].copy_from_slice(&number.to_be_bytes());
    changed
}

/// Numbers that a field of a file of n points may be wrong by, around the field's own.
fn other_numbers(own: u16, n: u16) -> [u16; 25] {
    let (less, more) = (own.wrapping_sub(1), own.wrapping_add(1));
    let guide = own ^ 0x8000;
    let feeder = own ^ 0x4000;
    let both = own | 0xC000;
    [
        0,
        1,
        2,
        3,
        4,
        8,
        9,
        less,
        more,
        guide,
        feeder,
        both,
        n,
        n + 1,
        0x00FF,
        0x0100,
        0x0102,
        1025,
        0x3FFF,
        0x4000,
        0x7FFF,
        0x8000,
        0xBFFF,
        0xC000,
        0xFFFF,
    ]
}

// Each byte changed to every other value.
#[test]
fn each_byte_changed() {
    let what = "damage, each byte to every other value for up to 12 points";
    in_each_style(what, |style, tally| {
        for (way, bytes) in files(style, [3, 4, 5, 6, 8, 12], 60_000) {
            for at in 0..bytes.len() {
                for change in 1..=u8::MAX {
                    let mut changed = bytes.clone();
                    changed[at] ^= change;
                    agree(style, way, &changed, tally);
                }
            }
        }
    });
}

// "counts and entries out of range", coordinates, ends, flags: each number changed.
#[test]
fn each_number_changed() {
    let what = "damage, each number changed for up to 24 points";
    in_each_style(what, |style, tally| {
        for (way, bytes) in files(style, (3..=14).chain([24]), 61_000) {
            let n = number(&bytes, 2);
            for at in (0..bytes.len()).step_by(2) {
                for other in other_numbers(number(&bytes, at), n) {
                    agree(style, way, &with_number(&bytes, at, other), tally);
                }
            }
        }
    });
}

// Cut short at every length; bytes added after the end.
#[test]
fn cut_short_and_bytes_added() {
    let what = "damage, every shorter length and bytes added for up to 60 points";
    in_each_style(what, |style, tally| {
        for (way, bytes) in files(style, (3..=12).chain([25, 60]), 62_000) {
            for length in 0..bytes.len() {
                agree(style, way, &bytes[..length], tally);
            }
            for tail in [&[0][..], &[0x45], &[0x45, 0x4E], &[0xFF; 3], &bytes] {
                agree(style, way, &[&bytes, tail].concat(), tally);
            }
        }
    });
}

// Every two records swapped; each record left out or repeated.
#[test]
fn records_swapped_left_out_repeated() {
    let what = "damage, records swapped, left out, repeated for up to 16 points";
    in_each_style(what, |style, tally| {
        for (way, bytes) in files(style, (3..=10).chain([16]), 63_000) {
            let records = records(&bytes);
            for one in 0..records.len() {
                for two in one + 1..records.len() {
                    let mut swapped = records.clone();
                    swapped.swap(one, two);
                    agree(style, way, &swapped.concat(), tally);
                }
                let mut less = records.clone();
                less.remove(one);
                agree(style, way, &less.concat(), tally);
                let mut more = records.clone();
                more.insert(one, records[one]);
                agree(style, way, &more.concat(), tally);
            }
        }
    });
}

/// So many entries: the boundary 1, 3, 2 over and over, with some other entries.
fn many_entries(count: usize, others: &[(usize, u16)]) -> Vec<u8> {
    let mut entries: Vec<u16> = [1, 3, 2].into_iter().cycle().take(count).collect();
    for &(at, entry) in others {
        entries[at] = entry;
    }
    entries.into_iter().flat_map(u16::to_be_bytes).collect()
}

// Records of many entries, up to the largest count, for each of the first five points.
#[test]
fn records_of_many_entries() {
    let what = "damage, records of up to 65,535 entries";
    in_each_style(what, many_entries_in_each_record);
}

/// The same in one style.
fn many_entries_in_each_record(style: Style, tally: &mut Tally) {
    let (bytes, _) = drawn(style, &order(5, Runs::Whole, &mut Random::new(67_000)));
    let records = records(&bytes);
    let points = records.len() - 6..records.len() - 1;
    for count in [4, 1023, 1024, 1025, 1026, 32_767, 32_768, 65_535] {
        for others in [
            &[(0, 1)][..],
            &[(count - 1, 0)],
            &[(count / 2, 9)],
            &[(3, 2)],
            &[(count - 1, 0x8003)],
            &[(count - 1, 0x4003)],
            &[(0, 0xC001)],
            &[(3, 0xC001)],
            &[(count - 1, 0xC003)],
            &[(count - 1, 0xFFFF)],
            &[(count / 2, 9), (count - 1, 0xC001)],
            &[(count / 2, 0xC000), (count - 1, 9)],
        ] {
            for point in points.clone() {
                let head = (0x5054_0000 + count as u32).to_be_bytes();
                let large = [&head[..], &many_entries(count, others)].concat();
                let mut changed = records.clone();
                changed[point] = &large;
                let changed = changed.concat();
                agree(style, Way::Draw, &changed, tally);
                agree(style, Way::Draw, &changed[..changed.len() - 30], tally);
            }
        }
    }
}

// Files with many bytes after the end.
#[test]
fn many_bytes_added() {
    in_each_style("damage, up to 200,000 bytes added", |style, tally| {
        for (way, bytes) in files(style, [3, 5, 1024], 68_000) {
            for length in [32_768, 65_535, 65_536, 65_537, 200_000] {
                let tail = vec![0x45; length];
                agree(style, way, &[&bytes[..], &tail].concat(), tally);
            }
        }
    });
}

/// The file with damage of a random kind at a random place.
fn damaged(bytes: &[u8], random: &mut Random) -> Vec<u8> {
    let records = records(bytes);
    let mut pieces = records.clone();
    let one = random.below(records.len());
    let two = random.below(records.len());
    match random.below(6) {
        0 => pieces.swap(one, two),
        1 => {
            pieces.remove(one);
        }
        2 => pieces.insert(one, records[two]),
        3 => return bytes[..random.below(bytes.len())].to_vec(),
        4 => {
            let mut changed = bytes.to_vec();
            changed[random.below(bytes.len())] = random.number() as u8;
            return changed;
        }
        _ => {
            let at = 2 * random.below(bytes.len() / 2);
            let others = other_numbers(number(bytes, at), number(bytes, 2));
            return with_number(bytes, at, others[random.below(others.len())]);
        }
    }
    pieces.concat()
}

/// Random damage to orders with runs of every sort, so often for each n.
fn random_damage(what: &'static str, sizes: &[u16], seed: u64, times: u64) {
    in_each_style(what, |style, tally| {
        let files = files(style, sizes.iter().copied(), seed);
        for (index, (way, bytes)) in files.into_iter().enumerate() {
            let mut random = Random::new(seed + index as u64);
            for _ in 0..tally.rounds(times) {
                agree(style, way, &damaged(&bytes, &mut random), tally);
            }
        }
    });
}

// Several numbers changed at once.
#[test]
fn several_numbers_changed() {
    let what = "damage, several numbers changed for up to 30 points";
    in_each_style(what, |style, tally| {
        for (index, (way, bytes)) in files(style, 3..=30, 64_000).into_iter().enumerate() {
            let mut random = Random::new(64_000 + index as u64);
            for _ in 0..tally.rounds(1500) {
                let mut changed = bytes.clone();
                for _ in 0..random.between(2, 4) {
                    let at = 2 * random.below(bytes.len() / 2);
                    let others = other_numbers(number(&bytes, at), number(&bytes, 2));
                    changed = with_number(&changed, at, others[random.below(others.len())]);
                }
                agree(style, way, &changed, tally);
            }
        }
    });
}

// Files of middle size.
#[test]
fn random_damage_of_up_to_200_points() {
    let what = "damage, random for 40 to 200 points";
    random_damage(what, &[40, 100, 200], 65_000, 1200);
}

// The largest files.
#[test]
fn random_damage_of_1024_points() {
    let what = "damage, random for 1,024 points";
    random_damage(what, &[1024], 66_000, 120);
}
