//! Damaged and random images through the library's check, held against the check of docs/CARD.md in this driver.
use crate::generate::{Random, random_lawful};
use crate::law::job_fault;
use crate::source::Options;
use crate::{card, ours, reference};
use std::collections::BTreeMap;

/// Turns a bit, sets a byte, cuts or grows the image, or copies one field over another.
fn damage(random: &mut Random, image: &mut Vec<u8>) {
    let at = random.below(image.len());
    match random.below(8) {
        0 => image[at] = random.next() as u8,
        1 => image[at] = random.pick(&[0, 1, 2, 3, 6, 7, 16, 18, 24, 31, 32, 255]),
        2 => image.truncate(at.max(1)),
        3 => image.extend((0..random.below(40)).map(|_| 0)),
        4 => {
            let other = random.below(image.len());
            image[at] = image[other];
        }
        _ => image[at] ^= 1 << random.below(8),
    }
}

/// An image that has only a head, and then anything.
fn random_image(random: &mut Random) -> Vec<u8> {
    let (modules, records) = (random.below(3), random.below(3));
    let length = 16 + 24 * modules + 18 * records + random.pick(&[0, 0, 0, 1]);
    let mut image: Vec<u8> = (0..length)
        .map(|_| random.pick(&[0, 0, 1, 2, 3, 16, 18, 24, 77]))
        .collect();
    if random.percent(90) {
        image[..4].copy_from_slice(&[16, 0, 1, 0]);
        image[8..16].copy_from_slice(&[modules as u8, 0, 0, 0, records as u8, 0, 0, 0]);
    }
    image
}

fn image(random: &mut Random, options: &Options) -> Vec<u8> {
    if random.percent(15) {
        return random_image(random);
    }
    let modules = 1 + random.below(6);
    let records = random.below(8);
    let mut image = card::write(&random_lawful(random, modules, records, options));
    for _ in 0..random.below(4) {
        damage(random, &mut image);
    }
    image
}

/// An accepted image is written again byte for byte, and classified by the rules.
fn held_to_meaning(image: &[u8], options: &Options) {
    let mut again = vec![0; image.len()];
    assert!(
        ours::rewrite(image, &mut again) == Ok(()) && again == image,
        "not written again: {image:?}"
    );
    let source = card::read(image);
    let expected = match job_fault(&source, options) {
        Some(fault) => Err(fault),
        None => Ok(reference::classify(&source, options)),
    };
    assert!(
        ours::classify(&source, options) == Some(expected),
        "classified otherwise: {image:?}"
    );
}

pub fn images(count: u64, seed: u64) {
    let mut random = Random::new(seed);
    let mut numbers: BTreeMap<u32, u64> = BTreeMap::new();
    for _ in 0..count {
        let options = random.options();
        let image = image(&mut random, &options);
        let expected = card::check(&image);
        assert_eq!(ours::check(&image), expected, "{image:?}");
        match expected {
            Ok(()) => held_to_meaning(&image, &options),
            Err(_) => assert!(ours::table_size(&image) == 0, "a refused card has a table: {image:?}"),
        }
        *numbers
            .entry(expected.map_or_else(|fault| fault.number, |()| 0))
            .or_default() += 1;
    }
    print!("images={count}");
    numbers.iter().for_each(|(number, times)| match number {
        0 => print!(" accepted={times}"),
        number => print!(" refused-{number}={times}"),
    });
    println!();
}
