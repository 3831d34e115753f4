//! Document 01, "What the generator covers" and "Numbers that say no": images of any
//! bits and any length are answered or refused, and a refused image gets the same
//! refusal whichever question is asked.

use independent::random::Random;
use independent::tables::{table, Size};
use independent::{ages, listing, points, print, read};

/// Answers how often the image was refused: once or not at all.
fn ask_everything(image: &[u8]) -> u32 {
    let mut buffer = [0xaa; 4096];
    match read(image) {
        Err(refusal) => {
            assert!((1..=10).contains(&refusal.number));
            assert!(refusal.place <= 8 * image.len() as u64);
            assert_eq!(points(image, 0, 1, 0), Err(refusal));
            assert_eq!(listing(image, 0, &mut buffer), Err(refusal));
            assert_eq!(ages(image, 0), Err(refusal));
            assert_eq!(print(image), format!("{refusal}\n"));
            assert_eq!(buffer, [0xaa; 4096]);
            1
        }
        Ok(table) => {
            let asked = listing(image, 0, &mut buffer);
            assert!(asked.is_ok() || asked.is_err_and(|refusal| refusal.number == 11));
            assert_eq!(ages(image, 0).is_ok(), !table.chains.is_empty());
            0
        }
    }
}

#[test]
fn any_bits() {
    let mut random = Random::new(5);
    let mut refused = 0;
    for _ in 0..20_000 {
        let mut image: Vec<u8> =
            (0..random.below(40)).map(|_| random.next_number() as u8).collect();
        if let Some(first) = image.first_mut() {
            *first = random.choose(&[0x11, 0x12, 0x18, *first]);
        }
        refused += ask_everything(&image);
    }
    assert!(refused > 19_000);
}

#[test]
fn one_bit_changed() {
    let mut random = Random::new(6);
    let (mut refused, mut asked) = (0, 0);
    for _ in 0..300 {
        let size = Size::small(&mut random, 30);
        let image = table(&mut random, &size).image();
        for _ in 0..10 {
            let mut changed = image.clone();
            let byte = random.below(image.len() as u64) as usize;
            changed[byte] ^= 1 << random.below(8);
            refused += ask_everything(&changed);
            asked += 1;
        }
    }
    assert!(0 < refused && refused < asked);
}

#[test]
fn shorter_and_longer() {
    let mut random = Random::new(7);
    for _ in 0..300 {
        let size = Size::any(&mut random, 1_000);
        let image = table(&mut random, &size).image();
        let shorter = random.below(image.len() as u64) as usize;
        assert_eq!(read(&image[..shorter]).unwrap_err().number, 1);
        ask_everything(&image[..shorter]);
        let longer = [image.clone(), vec![0; random.between(1, 600) as usize]].concat();
        let refusal = read(&longer).unwrap_err();
        assert_eq!((refusal.number, refusal.place), (9, 8 * image.len() as u64));
        ask_everything(&longer);
    }
}
