//! Files made at random, by the paper.

use independent::edition::NUMBERS;
use independent::generate::{file, file_of, Order};
use independent::random::Random;
use independent::{check, Layout};

#[test]
fn every_generated_file_is_accepted() {
    for seed in 0..20_000 {
        let file = file(&mut Random::new(seed));
        assert_eq!(check(&file).err(), None, "seed {seed}");
    }
}

#[test]
fn a_generated_file_has_the_edition_and_order_asked_for() {
    for edition in NUMBERS {
        for (order, code) in [(Order::Msf, 1), (Order::Lsf, 2)] {
            for seed in 0..100 {
                let file = file_of(&mut Random::new(seed), edition, order);
                let Layout {
                    edition: found,
                    byte_order,
                    ..
                } = check(&file).expect("accepted");
                assert_eq!((found, byte_order), (edition, code), "seed {seed}");
            }
        }
    }
}

#[test]
fn a_seed_gives_one_file() {
    for seed in 0..100 {
        let twice = [0, 1].map(|_| file(&mut Random::new(seed)));
        assert_eq!(twice[0], twice[1], "seed {seed}");
    }
}
