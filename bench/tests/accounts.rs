//! The recorded accounts under examples/accounts, byte for byte.

use std::fs;

#[test]
fn every_recorded_account_is_the_one_printed() {
    let folder = concat!(env!("CARGO_MANIFEST_DIR"), "/../examples/accounts");
    let mut scripts = 0;
    for entry in fs::read_dir(folder).unwrap() {
        let path = entry.unwrap().path();
        if path.extension().is_some_and(|e| e == "frames") {
            let right = fs::read_to_string(path.with_extension("account")).unwrap();
            assert_eq!(bench::account(&fs::read(&path).unwrap()), right, "{}", path.display());
            scripts += 1;
        }
    }
    assert_eq!(scripts, 18);
}

/// Over many random lists every answer and every fault of the reader comes.
#[test]
fn random_lists_meet_every_answer() {
    let mut seen = [false; 24];
    for seed in 0..4000 {
        let many = 20 + (seed % 7) as usize * 60;
        for line in bench::account(&bench::random::file(seed, many)).lines() {
            let mut words = line.split(' ');
            if words.next() != Some("stop") {
                seen[words.next().unwrap().parse::<usize>().unwrap()] = true;
            }
        }
    }
    assert!((0..14).chain(20..24).all(|number| seen[number]));
}
