//! Every call stays within the stack that `include/ewplander.h` gives for it.

use outside::channel::Memory;
use outside::{open, seal};
use std::hint::black_box;
use std::ptr::{from_ref, without_provenance};

const HEADER: &str = include_str!("../../../include/ewplander.h");

/// The bytes painted: more than any call takes, so that one which takes too much is seen to.
const AREA: usize = 65_536;

const PAINT: u8 = 0xa5;

/// The length of the longest text and the longest associated data.
const LONGEST: usize = 65_536;

/// Paints the stack below the caller's frame, and gives the lowest painted address.
#[inline(never)]
fn paint() -> usize {
    let mut area = [PAINT; AREA];
    black_box(&mut area).as_ptr().addr()
}

/// How deep below this frame a call writes; a piece of the frame itself is counted in, and so are
/// those of the safe calls around it.
#[inline(never)]
fn depth(call: &mut dyn FnMut()) -> usize {
    let here = 0u8;
    let top = from_ref(black_box(&here)).addr();
    let floor = paint();
    // Hidden from the compiler, which could make the call's frame a part of this one.
    black_box(call)();
    let painted = |&at: &usize| {
        // SAFETY: the area lies in this thread's own stack, so it can be read; the frame that was
        // painted is gone, so no object of Rust's is there.
        unsafe { without_provenance::<u8>(at).read_volatile() == PAINT }
    };
    let untouched = (floor..top).take_while(painted).count();
    top - floor - untouched
}

/// The bytes of stack that the header gives for a call.
fn given(name: &str) -> usize {
    let comment = HEADER.split_once(&format!(" * {name}: "));
    let comment = comment.and_then(|(_, rest)| rest.split_once("*/"));
    let line = comment.and_then(|(comment, _)| comment.split_once("Stack: up to "));
    let (number, _) = line
        .and_then(|(_, line)| line.split_once(" bytes."))
        .unwrap_or_else(|| panic!("{name}: the header gives no stack"));
    number.replace(',', "").parse().expect("a number of bytes")
}

/// The deepest of these runs of one call is within what the header gives.
fn check(name: &str, depths: &[usize]) {
    let (deepest, given) = (*depths.iter().max().unwrap(), given(name));
    println!("{name}: {deepest} bytes of stack, {given} given");
    assert!(deepest <= given, "{name}");
}

#[test]
fn the_measure_sees_an_array() {
    const SIZE: usize = 20_000;
    let seen = depth(&mut || {
        let mut array = [0u8; SIZE];
        black_box(&mut array);
    });
    assert!((SIZE..SIZE + 4_096).contains(&seen), "{seen}");
}

#[test]
fn at_once() {
    let (ad, text) = (vec![3; LONGEST], vec![4; LONGEST]);
    let mut sealed = vec![0; LONGEST + 16];
    let mut opened = vec![0; LONGEST];
    let mut sealing = |key: &[u8], iv: &[u8], tag_len, due| {
        depth(&mut || assert_eq!(seal(key, iv, &ad, &text, tag_len, &mut sealed), due))
    };
    let sealing = [
        sealing(&[1; 16], &[2; 12], 11, (3, 0)),
        sealing(&[1; 16], &[2; 12], 12, (0, LONGEST + 12)),
        sealing(&[1; 32], &[2; 128], 16, (0, LONGEST + 16)),
    ];
    let mut opening = |key: &[u8], iv: &[u8], tag_len, due| {
        depth(&mut || assert_eq!(open(key, iv, &ad, &sealed, tag_len, &mut opened), due))
    };
    let opening = [
        opening(&[1; 16], &[2; 12], 11, (3, 0)),
        opening(&[1; 16], &[2; 12], 16, (8, 0)),
        opening(&[1; 32], &[2; 128], 16, (0, LONGEST)),
    ];
    assert!(opened == text);
    check("ewplander_seal", &sealing);
    check("ewplander_open", &opening);
}

#[test]
fn channel() {
    let (ad, text) = (vec![3; LONGEST], vec![4; LONGEST]);
    let mut out = vec![0; LONGEST];
    let mut channel = Memory::filled(0);
    let mut opening = |key: &[u8], tag_len, due| {
        depth(&mut || assert_eq!(channel.open(key, *b"mark", tag_len), due))
    };
    let opening = [
        opening(&[1; 24], 16, 1),
        opening(&[1; 16], 12, 0),
        opening(&[1; 32], 16, 0),
    ];
    let none_open = [
        depth(&mut || assert_eq!(channel.feed(&text, &mut out), (9, 0))),
        depth(&mut || assert_eq!(channel.finish(), (9, [0; 16]))),
        depth(&mut || assert_eq!(channel.abandon(), 9)),
    ];
    let mut beginning = vec![
        depth(&mut || assert_eq!(channel.begin(300, &ad), 0)),
        depth(&mut || assert_eq!(channel.begin(301, &ad), 9)),
    ];
    // The second piece starts and ends inside a block.
    let mut feed =
        |piece: &[u8], due| depth(&mut || assert_eq!(channel.feed(piece, &mut out), due));
    let feeding = [
        none_open[0],
        feed(&text[..5], (0, 5)),
        feed(&text[10..], (0, LONGEST - 10)),
        feed(&text[..5], (0, 5)),
        feed(&text[..1], (5, 0)),
    ];
    let finishing = [
        none_open[1],
        depth(&mut || assert_eq!(channel.finish().0, 0)),
    ];
    beginning.extend([
        depth(&mut || assert_eq!(channel.begin(300, &ad), 11)),
        depth(&mut || assert_eq!(channel.begin(172, &ad), 10)),
        depth(&mut || assert_eq!(channel.begin(173, &ad), 0)),
    ]);
    let abandoning = [
        none_open[2],
        depth(&mut || assert_eq!(channel.abandon(), 0)),
    ];
    check("ewplander_channel_open", &opening);
    check("ewplander_channel_begin", &beginning);
    check("ewplander_channel_feed", &feeding);
    check("ewplander_channel_finish", &finishing);
    check("ewplander_channel_abandon", &abandoning);
}
