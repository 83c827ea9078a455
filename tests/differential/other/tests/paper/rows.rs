//! The rows of "Rows to try", the cases marked P and the runs, and what `links` prints for the example.

use crate::world::{to_concentrator, Answer, World, BIND, GROUP, P1, P2};
use other_reading::links;

fn with(bind: [u8; 8], at: usize, octet: u8) -> [u8; 8] {
    let mut bind = bind;
    bind[at] = octet;
    bind
}

#[test]
fn p1_to_p4() {
    let mut world = World::of_the_rows();
    assert_eq!(world.add_bind(&P1), [0]);
    assert_eq!(world.binds[..8], P1);
    assert_eq!(world.add_bind(&P1), [2]);
    let mut world = World::of_the_rows();
    assert_eq!(world.add_bind(&P2), [0]);
    assert_eq!(world.binds[..8], P2);
    let mut world = World::of_the_rows();
    assert_eq!(world.add_bind(&with(P1, 0, 0x80)), [0]);
    assert_eq!(world.binds[..8], P1);
    assert!(world.binds[8..].iter().all(|&octet| octet == 0xFF));
}

#[test]
fn p5_to_p9() {
    let mut world = World::of_the_rows();
    assert_eq!(world.command((4, 1), BIND, 1, &P1), [1]);
    assert_eq!(world.add_bind(&P1[..7]), [2]);
    assert_eq!(world.add_bind(&[0, 3, 1, 0x82, 0, 0, 5, 2]), [2]);
    assert_eq!(world.add_bind(&[0, 3, 1, 0x82, 0, 0, 3, 1]), [2]);
    assert_eq!(world.add_bind(&[0, 3, 1, 0x82, 0, 0, 5, 1]), [0]);
}

#[test]
fn p10_to_p12() {
    let mut world = World::of_the_rows();
    let msg = to_concentrator((3, 1), BIND, 1, &P1);
    assert_eq!(world.send(&msg[..14]).0, 10);
    let mut other = msg.clone();
    other[9] = 0x11;
    assert_eq!(world.send(&other).0, 12);
    let mut other = msg;
    other[9] = 0x03;
    other[3..6].copy_from_slice(&[0x80, 1, 0]);
    assert_eq!(world.send(&other).0, 15);
}

#[test]
fn run_500_octets_accepted_501_not() {
    let mut world = World::of_the_rows();
    let mut msg = to_concentrator((3, 1), BIND, 1, &[0; 485]);
    msg[3..6].copy_from_slice(&[0, 4, 2]);
    assert_eq!(world.send(&msg), Answer(1, vec![0, 4, 2]));
    msg.push(0);
    msg[13..15].copy_from_slice(&486u16.to_be_bytes());
    assert_eq!(world.send(&msg).0, 10);
}

#[test]
fn run_full_table() {
    let mut world = World::of_the_rows();
    for uid in 0..64 {
        assert_eq!(world.add_bind(&with(P1, 4, uid)), [0]);
    }
    assert_eq!(world.add_bind(&with(P1, 4, 64)), [0xFE]);
    assert_eq!(world.add_bind(&with(P1, 4, 9)), [2]);
    assert_eq!(world.command((3, 1), BIND, 2, &with(P1, 4, 9)), [0]);
    assert_eq!(world.add_bind(&with(P1, 4, 64)), [0]);
    assert_eq!(world.binds[72..80], with(P1, 4, 64));
}

#[test]
fn run_names() {
    let mut world = World::of_the_rows();
    let mut name = [b'n'; 15];
    name[0] = 14;
    assert_eq!(world.command((3, 0), GROUP, 1, &name), [0xFE]);
    name[0] = 13;
    assert_eq!(world.command((3, 0), GROUP, 1, &name[..14]), [0, 0, 2]);
    assert_eq!(world.command((3, 0), GROUP, 1, &[]), [2]);
    assert_eq!(world.command((3, 0), GROUP, 1, &name), [2]);
}

#[test]
fn the_printed_example() {
    let mut world = World::of_the_rows();
    world.binds[..8].copy_from_slice(&P1);
    world.binds[8..16].copy_from_slice(&P2);
    let msg = [0, 3, 1, 0x7F, 0xFF, 0xFF, 0, 0, 7, 1, 0x82, 0, 1, 0, 0];
    let input = [
        &world.devices[..],
        &world.binds,
        &world.groups,
        &world.members,
        &msg,
    ]
    .concat();
    assert_eq!(links(&input), "outcome 1 count 2\n0004:02\n0005:01\n");
    assert_eq!(links(&input[..3711]), "short input\n");
    assert_eq!(links(&input[..3712]), "outcome 10 count 0\n");
}
