//! Traces and their listings, worked out by hand from the rules. `/` stands for a line end.

use baseline::{HeapSet, play, play_into};

fn bytes(text: &str) -> Vec<u8> {
    text.replace('/', "\n").into_bytes()
}

fn gives(trace: &str, listing: &str) {
    let (trace, listing) = (bytes(trace), String::from_utf8(bytes(listing)).unwrap());
    assert_eq!(String::from_utf8(play(&trace)).unwrap(), listing);
    let mut out = Vec::new();
    play_into::<HeapSet>(&trace, &mut out);
    assert_eq!(String::from_utf8(out).unwrap(), listing);
}

fn faults(table: &[(&str, &str)]) {
    for (trace, fault) in table {
        let answer = String::from_utf8(play(&bytes(trace))).unwrap();
        assert_eq!(answer, format!("{fault}\n"), "for {trace:?}");
    }
}

#[test]
fn film_and_touch() {
    gives(
        "sfq1 quantum/c film root 2/c touch root 1/l 8/a film 10/a touch 4/d/p/e/d/d/p/e/d/",
        "a 0/a 0/d 0 film 10 0/p 0 8/e 0 8/d 0 touch 4 0/d 6/p 0 4/e 0 4/d 0 film 2 2882880/g 0 0/\
         s root 12/s film 8/s touch 4/",
    );
}

/// Classes: film 1 (weight 2) with one 3 (weight 1) and two 4 (weight 3) below it; ui 2 (weight 1).
///
/// - one and two wake film; all start at 0. film before ui, one before two.
/// - one is done: film's F is 6 × 360,360 = 2,162,160, and so its S, as two still waits.
/// - ui at 0 is next; done, its F is 3 × 720,720 = 2,162,160. It wakes again at that, above the root's v of 0.
/// - film and ui are equal, so film is served, by two. Draws 2 and 3 fall into the outage; a block cannot end there.
/// - film rests: its v and the F of one and two go to 0, its own F of 4,324,320 stays, as the root is busy.
/// - film wakes at 4,324,320, one at 0. ui is given up at 2,162,160 and keeps that, then is done, then one is due.
/// - The turn left open is given up with its unit.
#[test]
fn two_levels_of_blocks_with_an_outage() {
    gives(
        "sfq1 block/c film root 2/c ui root 1/c one film 1/c two film 3/l 6/o 2 2/\
         a one 6/a two 6/a ui 3/d/p/e/d/p/p/e/a ui 3/d/p/p/e/p/e/a one 1/d/g/d/p/e/d/p/",
        "a 0/a 0/a 0/d 0 one 6 0/p 0 6/e 0 6/d 0 ui 3 0/p 0 3/p 0 0/e 0 3/a 0/\
         d 0 two 6 0/p 0 0/p 0 0/e 10/p 0 6/e 0 6/a 0/d 0 ui 3 2162160/g 0 0/\
         d 0 ui 3 2162160/p 0 3/e 0 3/d 0 one 1 0/p 0 1/g 0 1/\
         s root 19/s film 13/s ui 6/s one 7/s two 6/",
    );
}

#[test]
fn the_root_alone_is_a_leaf_without_tags() {
    gives(
        "sfq1 quantum/l 5/a root 7/d/p/e/d/p/e/d/",
        "a 0/d 0 root 7 0/p 0 5/e 0 5/d 0 root 2 0/p 0 2/e 0 2/d 7/s root 7/",
    );
}

/// Once nothing is backlogged, tags begin at 0 again.
#[test]
fn tags_are_0_after_rest() {
    gives(
        "sfq1 quantum/c x root 1/l 9/a x 4/a x 4/d/p/e/d/p/e/a x 4/d/",
        "a 0/a 0/d 0 x 4 0/p 0 4/e 0 4/d 0 x 4 2882880/p 0 4/e 0 4/a 0/d 0 x 4 0/g 0 0/s root 8/s x 8/",
    );
}

/// During b's turn at start tag 0, a wakes with the same tag and the lower number.
/// b then goes on at 5 × 720,720 = 3,603,600, and a is served first.
#[test]
fn a_lower_number_wakes_beside_the_open_turn() {
    gives(
        "sfq1 quantum/c a root 1/c b root 1/l 9/a b 5/a b 5/d/a a 5/p/e/d/g/d/p/e/d/",
        "a 0/a 0/d 0 b 5 0/a 0/p 0 5/e 0 5/d 0 a 5 0/g 0 0/d 0 a 5 0/p 0 5/e 0 5/d 0 b 5 3603600/g 0 0/\
         s root 10/s a 5/s b 5/",
    );
    gives(
        "sfq1 quantum/c a root 1/c b root 1/l 9/a b 5/d/a a 5/p/e/d/",
        "a 0/d 0 b 5 0/a 0/p 0 5/e 0 5/d 0 a 5 0/g 0 0/s root 5/s a 0/s b 5/",
    );
}

/// x has charged 2 (F = 1,441,440) and rests while y is at v = 0: it wakes at F.
/// After y's turns v is 4,324,320, above x's F of 2,162,160: it wakes at v.
#[test]
fn a_class_wakes_at_the_greater_of_virtual_time_and_finish_tag() {
    gives(
        "sfq1 quantum/c x root 1/c y root 1/l 9/a x 2/a y 6/a y 6/a y 6/d/p/e/a x 1/d/p/e/d/p/e/d/p/a x 1/e/d/",
        "a 0/a 0/a 0/a 0/d 0 x 2 0/p 0 2/e 0 2/a 0/d 0 y 6 0/p 0 6/e 0 6/d 0 x 1 1441440/p 0 1/e 0 1/\
         d 0 y 6 4324320/p 0 6/a 0/e 0 6/d 0 x 1 4324320/g 0 0/s root 15/s x 3/s y 12/",
    );
}

#[test]
fn calls_without_a_grant_and_submissions_refused() {
    gives(
        "sfq1 quantum/c n root 1/c leaf n 16/l 1/p/e/g/d/a x 1/a n 1/a root 0/a leaf 0/a leaf 65536/\
         a leaf 4294967295/a leaf 65535/a leaf00000 0/d/d/p/g/g/d/",
        "p 9/e 9/g 9/d 7/a 1/a 2/a 2/a 3/a 3/a 3/a 0/a 1/d 0 leaf 65535 0/d 6/p 0 1/g 0 1/g 9/\
         d 0 leaf 65535 45045/g 0 0/s root 1/s n 1/s leaf 1/",
    );
}

#[test]
fn a_quantum_may_end_with_nothing_done_and_a_block_may_not() {
    gives("sfq1 quantum/l 1/a root 2/d/e/d/g/", "a 0/d 0 root 2 0/e 0 0/d 0 root 2 0/g 0 0/s root 0/");
    gives("sfq1 block/l 1/a root 2/d/e/p/e/p/p/e/", "a 0/d 0 root 2 0/e 10/p 0 1/e 10/p 0 1/p 0 0/e 0 2/s root 2/");
}

/// Work that is given up is charged, and the item stays whole.
#[test]
fn given_up_work_is_done_again() {
    gives(
        "sfq1 quantum/c x root 4/l 3/a x 5/d/p/g/d/p/e/d/p/e/",
        "a 0/d 0 x 5 0/p 0 3/g 0 3/d 0 x 5 540540/p 0 3/e 0 3/d 0 x 2 1081080/p 0 2/e 0 2/s root 8/s x 8/",
    );
}

#[test]
fn the_257th_item_is_refused() {
    let trace = format!(
        "sfq1 block/c x root 1/c y root 1/l 9/{}{}d/p/e/a y 1/a y 1/",
        "a x 1/".repeat(200),
        "a y 1/".repeat(57)
    );
    let listing = format!("{}a 5/d 0 x 1 0/p 0 1/e 0 1/a 0/a 5/s root 1/s x 1/s y 0/", "a 0/".repeat(256));
    gives(&trace, &listing);
}

#[test]
fn a_header_and_a_rate_suffice() {
    gives("sfq1 block/l 65535/", "s root 0/");
}

#[test]
fn first_lines() {
    let wrong = [
        "",
        "/",
        "s",
        "sfq1 quantum",
        "sfq1 block",
        "sfq1 quanta/",
        "sfq1  block/",
        "sfq1 block /",
        " sfq1 block/",
        "sfq1 Block/",
        "sfq2 block/",
        "sfq1/",
        "sfq1 block\r/",
        "sfq1 block l/",
        "l 8/",
        "c x root 1/",
    ];
    for trace in wrong {
        faults(&[(trace, "! text 1 0 20")]);
    }
}

#[test]
fn wrong_forms() {
    let wrong = [
        "/",
        " /",
        "c/",
        "c x root/",
        "c x root 1 1/",
        "c x root one/",
        "c x root 01/",
        "c x root 4294967296/",
        "c x root 99999999999/",
        "c abcdefghijk root 1/",
        "c x abcdefghijk 1/",
        "c X root 1/",
        "c x-y root 1/",
        "c  x root 1/",
        "c x  root 1/",
        "c x root 1 /",
        " c x root 1/",
        "c x root 1\r/",
        "c x\troot 1/",
        "l/",
        "l x/",
        "l 00/",
        "l 8 8/",
        "o 1/",
        "o 1 2 3/",
        "o a 1/",
        "a x/",
        "a x y/",
        "a x 1 1/",
        "a x 01/",
        "d 1/",
        "d /",
        "dd/",
        "p p/",
        "end/",
        "e  /",
        "g1/",
        "add x 1/",
        "s root 0/",
        "! x/",
        "x/",
        "c x root 1",
        "l 8",
        "d",
        "c",
        " ",
        "a é 1/",
        "\0/",
    ];
    for line in wrong {
        faults(&[(&format!("sfq1 quantum/{line}"), "! text 2 0 21")]);
        faults(&[(&format!("sfq1 quantum/l 8/d/{line}"), "! text 4 0 21")]);
    }
    for byte in (0..=255u8).filter(|b| !b.is_ascii_lowercase() && !b.is_ascii_digit()) {
        let trace = [b"sfq1 block\nl 1\na x".as_slice(), &[byte], b"y 1\n"].concat();
        assert_eq!(play(&trace), b"! text 3 0 21\n");
    }
}

#[test]
fn lines_out_of_their_part() {
    faults(&[
        ("sfq1 block/", "! text 1 0 22"),
        ("sfq1 block/c x root 1/", "! text 2 0 22"),
        ("sfq1 block/d/p/", "! text 3 0 22"),
        ("sfq1 block/o 1 1/", "! text 2 0 22"),
        ("sfq1 block/l 8/c x root 1/", "! text 3 0 22"),
        ("sfq1 block/l 8/l 8/", "! text 3 0 22"),
        ("sfq1 block/l 8/l 0/", "! text 3 0 22"),
        ("sfq1 block/o 1 1/l 8/", "! text 3 0 22"),
        ("sfq1 block/d/l 0/", "! text 3 0 22"),
        ("sfq1 block/l 8/d/o 0 0/", "! text 4 0 22"),
        ("sfq1 block/l 8/o 1 1/c 999999999 x 0/", "! text 4 0 22"),
        ("sfq1 block/l 8/o 1 1/l 8/", "! text 4 0 22"),
        ("sfq1 block/l 8/d/c x root 1/d/", "! text 4 0 22"),
    ]);
}

#[test]
fn class_and_link_lines_refused() {
    faults(&[
        ("sfq1 block/c ninebytes root 1/l 8/", "! tree 2 2 14"),
        ("sfq1 block/c tenbytes10 x 0/l 8/", "! tree 2 2 14"),
        ("sfq1 block/c root root 1/l 8/", "! tree 2 2 15"),
        ("sfq1 block/c x root 1/c x y 0/l 8/", "! tree 3 2 15"),
        ("sfq1 block/c x x 0/l 8/", "! tree 2 3 12"),
        ("sfq1 block/c x ninebytes 1/l 8/", "! tree 2 3 12"),
        ("sfq1 block/c x y 1/c y root 1/l 8/", "! tree 2 3 12"),
        ("sfq1 block/c x root 0/l 8/", "! tree 2 4 13"),
        ("sfq1 block/c x root 17/l 8/", "! tree 2 4 13"),
        ("sfq1 block/c x root 4294967295/l 8/", "! tree 2 4 13"),
        ("sfq1 block/l 0/", "! link 2 2 18"),
        ("sfq1 block/l 65536/", "! link 2 2 18"),
        ("sfq1 block/l 4294967295/", "! link 2 2 18"),
        ("sfq1 block/l 8/o 0 0/", "! link 3 0 17"),
        ("sfq1 block/l 8/o 5 5/o 9 1/", "! link 4 0 17"),
        ("sfq1 block/l 8/o 4294967295 1/", "! link 3 0 17"),
        ("sfq1 block/l 8/o 1 4294967295/", "! link 3 0 17"),
        ("sfq1 block/o 0 0/l 8/", "! link 2 0 17"),
    ]);
    gives("sfq1 block/c eight888 root 16/l 1/o 0 4294967295/", "s root 0/s eight888 0/");
    gives("sfq1 block/l 1/o 5 5/o 10 1/o 4294967294 1/", "s root 0/");
}

#[test]
fn the_first_faulty_line_is_told() {
    faults(&[
        ("sfq1 block/c x root 0/nonsense/", "! tree 2 4 13"),
        ("sfq1 block/l 8/c x root 1/nonsense/", "! text 3 0 22"),
        ("sfq1 block/nonsense/c x root 0/", "! text 2 0 21"),
        ("sfq1 block/c x root 0", "! text 2 0 21"),
        ("sfq1 block/d/c x root 0/", "! text 3 0 22"),
        ("sfq1 block/c x root 17/d", "! tree 2 4 13"),
        ("sfq1 block/d/d", "! text 3 0 21"),
    ]);
}

#[test]
fn no_class_lies_deeper_than_7() {
    let chain: String =
        (1..=7).map(|i| format!("c x{i} {} 1/", if i == 1 { "root".into() } else { format!("x{}", i - 1) })).collect();
    faults(&[
        (&format!("sfq1 block/{chain}c x8 x7 0/l 1/"), "! tree 9 3 16"),
        (&format!("sfq1 block/{chain}c x8 x6 0/l 1/"), "! tree 9 4 13"),
    ]);
    gives(
        &format!("sfq1 block/{chain}l 9/a x7 2/a x6 2/d/p/e/"),
        "a 0/a 2/d 0 x7 2 0/p 0 2/e 0 2/s root 2/s x1 2/s x2 2/s x3 2/s x4 2/s x5 2/s x6 2/s x7 2/",
    );
}

#[test]
fn no_more_than_64_classes_and_16_outages() {
    let classes: String = (1..=63).map(|i| format!("c x{i} root 1/")).collect();
    let sums: String = (1..=63).map(|i| format!("s x{i} 0/")).collect();
    gives(&format!("sfq1 block/{classes}l 1/a x63 1/d/"), &format!("a 0/d 0 x63 1 0/g 0 0/s root 0/{sums}"));
    faults(&[(&format!("sfq1 block/{classes}c ninebytes x 0/l 1/"), "! tree 65 0 11")]);
    let outages: String = (0..16).map(|i| format!("o {i} 1/")).collect();
    let pulses = "p/".repeat(17);
    gives(
        &format!("sfq1 block/l 1/{outages}a root 1/d/{pulses}e/"),
        &format!("a 0/d 0 root 1 0/{}p 0 1/e 0 1/s root 1/", "p 0 0/".repeat(16)),
    );
    faults(&[(&format!("sfq1 block/l 1/{outages}o 16 1/"), "! link 19 0 17")]);
}

#[test]
fn sizes_at_the_limit() {
    // 15 bytes before the events; `a b 1/` has 6 and an unknown name, `d/` has 2.
    let of_size = |size: usize| {
        let mut trace = bytes("sfq1 block/l 1/");
        if size.is_multiple_of(2) {
            trace.extend_from_slice(b"a bb 1\n");
        }
        while trace.len() < size {
            trace.extend_from_slice(b"d\n");
        }
        trace
    };
    for size in [32_766, 32_767, 32_768] {
        let trace = of_size(size);
        assert_eq!(trace.len(), size);
        let dispatches = trace.iter().filter(|b| **b == b'd').count();
        let first = if size.is_multiple_of(2) { "a 1\n" } else { "" };
        assert_eq!(play(&trace), format!("{first}{}s root 0\n", "d 7\n".repeat(dispatches)).into_bytes());
    }
    assert_eq!(play(&of_size(32_769)), b"! text 0 0 19\n");
    assert_eq!(play(&vec![b'x'; 32_769]), b"! text 0 0 19\n");
    assert_eq!(play(&vec![b'x'; 32_768]), b"! text 1 0 20\n");
}
