//! The worked examples of docs/.

use super::family_based::FamilyBased;
use super::logger::{Event, Logger, Source};
use super::workload::{Spacing, Workload};
use super::{OUTSIDE, run};

/// The example of docs/FORMAT.md.
const SCRIPT: &[&str] = &[
    "0002010201",
    "01000100000000000064",
    "0100020000010000001E",
    "020008",
    "020008",
    "020100",
    "0500",
    "020100",
    "06",
    "0700",
    "0701",
];
const LISTING: &str =
    "1 O 0 0\n2 P 0 1\n3 P 0 2\n4 D 0 1\n5 D 0 2\n6 D 0 1\n7 X 0 0\n8 D 8 0\n9 V 0 2\n10 S 0 70\n11 S 0 30\n";

fn example() -> Vec<u8> {
    let digits = SCRIPT.concat();
    let pairs = (0..digits.len()).step_by(2);
    pairs.map(|i| u8::from_str_radix(&digits[i..i + 2], 16).expect("two hexadecimal digits")).collect()
}

#[test]
fn the_example_of_the_format() {
    let mut listing = [b'.'; 200];
    assert_eq!(run(&example(), &mut listing), LISTING.len() as u64);
    assert_eq!(&listing[..LISTING.len()], LISTING.as_bytes());
    assert!(listing[LISTING.len()..].iter().all(|&byte| byte == b'.'));
}

#[test]
fn a_line_is_written_whole_or_not_at_all() {
    let mut listing = [b'.'; 17];
    assert_eq!(run(&example(), &mut listing), 16 | 20 << 32);
    assert_eq!(&listing, b"1 O 0 0\n2 P 0 1\n.");
}

#[test]
fn a_sum_of_widths_depends_on_its_order() {
    let position = |widths: [u64; 3]| {
        let mut line = Default::default();
        for width in widths {
            Spacing::step(2, 1, &mut line, OUTSIDE, 1 << 56 | width);
        }
        Spacing::show(&line)
    };
    let greatest = 0x4580_0000 << 32;
    assert_eq!(position([0x4580_0000, 0x3980_0000, 0x3980_0000]), greatest | 0x4580_0000);
    assert_eq!(position([0x3980_0000, 0x3980_0000, 0x4580_0000]), greatest | 0x4580_0001);
}

/// A message goes from host 0 to 1 to 2, and f is 1: the determinant of host 0's receipt stops at host 1.
#[test]
fn a_determinant_stops_where_enough_hosts_hold_it() {
    let mut logger = FamilyBased::new(3, 1);
    let event = |host| Event { host, receipt: 1 };
    logger.note(event(0), Source { sender: OUTSIDE, ssn: 1 });
    logger.carry(0, 1);
    logger.note(event(1), Source { sender: 0, ssn: 1 });
    logger.carry(1, 2);
    logger.note(event(2), Source { sender: 1, ssn: 1 });
    logger.lose(0);
    assert!(logger.find(event(0)).is_some());
    logger.lose(1);
    assert_eq!(logger.find(event(0)), None);
    assert_eq!(logger.find(event(1)), Some(Source { sender: 0, ssn: 1 }));
    assert_eq!(logger.find(event(2)), Some(Source { sender: 1, ssn: 1 }));
}
