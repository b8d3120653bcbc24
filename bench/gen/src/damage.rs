use crate::plan::{MAX_CLASSES, word};
use crate::rng::Rng;
use crate::{MAX_BYTES, fill, join, length};

type Lines = Vec<Vec<u8>>;

/// Damages a trace in its lines and words.
pub fn lines(rng: &mut Rng, lines: &mut Lines) {
    const WAYS: [fn(&mut Rng, &mut Lines); 22] = [
        swap_lines,
        drop_line,
        repeat_line,
        move_line,
        stray_line,
        odd_space,
        odd_words,
        odd_word,
        odd_number,
        odd_number,
        odd_number,
        first_letter,
        header,
        rate_lines,
        rate_lines,
        class_words,
        class_words,
        class_words,
        many_classes,
        deep_classes,
        odd_outage,
        many_outages,
    ];
    if lines.len() > 1 {
        rng.pick(&WAYS)(rng, lines);
    }
}

/// Damages a trace in its bytes.
pub fn bytes(rng: &mut Rng, bytes: &mut Vec<u8>) {
    const ODD: [u8; 16] = [0, 9, 10, 13, 32, 47, 48, 57, 58, 64, 65, 96, 97, 122, 123, 255];
    let at = rng.index(bytes.len().max(1)).min(bytes.len());
    let byte = if rng.chance(50) { rng.pick(&ODD) } else { rng.random() as u8 };
    match rng.below(8) {
        0 | 1 if !bytes.is_empty() => bytes[at] ^= 1 << rng.below(8),
        2 if !bytes.is_empty() => bytes[at] = byte,
        3 => bytes.insert(at, byte),
        4 if !bytes.is_empty() => drop(bytes.remove(at)),
        5 => bytes.truncate(at),
        6 => drop(bytes.pop()),
        _ => to_the_limit(rng, bytes),
    }
}

/// Bytes that never were a trace.
pub fn noise(rng: &mut Rng) -> Vec<u8> {
    let len = rng.pick(&[0, 1, 11, 200, MAX_BYTES as u64, MAX_BYTES as u64 + 1]);
    (0..len).map(|_| rng.random() as u8).collect()
}

/// Any line but the first; the ones before the events more often.
fn any_line(rng: &mut Rng, lines: &Lines) -> usize {
    let ahead = 1 + lines[1..].iter().take_while(|line| matches!(line.first(), Some(b'c' | b'l' | b'o'))).count();
    if ahead > 1 && rng.chance(60) { 1 + rng.index(ahead - 1) } else { 1 + rng.index(lines.len() - 1) }
}

/// A line that begins with that letter, if there is one.
fn line_of(rng: &mut Rng, lines: &Lines, letter: u8) -> Option<usize> {
    let found: Vec<usize> = (1..lines.len()).filter(|i| lines[*i].first() == Some(&letter)).collect();
    if found.is_empty() { None } else { Some(rng.pick(&found)) }
}

fn words(line: &[u8]) -> Vec<Vec<u8>> {
    line.split(|b| *b == b' ').map(<[u8]>::to_vec).collect()
}

fn put_words(line: &mut Vec<u8>, words: &[Vec<u8>]) {
    *line = words.join(&b' ');
}

fn swap_lines(rng: &mut Rng, lines: &mut Lines) {
    let (a, b) = (any_line(rng, lines), any_line(rng, lines));
    lines.swap(a, b);
}

fn drop_line(rng: &mut Rng, lines: &mut Lines) {
    let at = any_line(rng, lines);
    lines.remove(at);
}

fn repeat_line(rng: &mut Rng, lines: &mut Lines) {
    let at = any_line(rng, lines);
    lines.insert(at, lines[at].clone());
}

fn move_line(rng: &mut Rng, lines: &mut Lines) {
    let from = any_line(rng, lines);
    let line = lines.remove(from);
    let to = 1 + rng.index(lines.len());
    lines.insert(to, line);
}

/// An empty line, or one that begins like none.
fn stray_line(rng: &mut Rng, lines: &mut Lines) {
    let line: &[u8] = rng.pick(&[&b""[..], b" ", b"s root 0", b"d 0", b"# c", b"sfq1 block", b"c", b"l", b"o 1"]);
    let at = any_line(rng, lines);
    lines.insert(at, line.to_vec());
}

/// A space too many, or none where one belongs.
fn odd_space(rng: &mut Rng, lines: &mut Lines) {
    let at = any_line(rng, lines);
    let line = &mut lines[at];
    let spaces: Vec<usize> = (0..line.len()).filter(|i| line[*i] == b' ').collect();
    match rng.below(4) {
        0 => line.insert(0, b' '),
        1 => line.push(b' '),
        2 if !spaces.is_empty() => line.insert(rng.pick(&spaces), b' '),
        _ if !spaces.is_empty() => drop(line.remove(rng.pick(&spaces))),
        _ => line.push(b'\r'),
    }
}

/// A word too many, too few or in another place.
fn odd_words(rng: &mut Rng, lines: &mut Lines) {
    let at = any_line(rng, lines);
    let mut all = words(&lines[at]);
    let place = rng.index(all.len());
    match rng.below(3) {
        0 => drop(all.remove(place)),
        1 => all.insert(place + 1, b"1".to_vec()),
        _ => all.swap(0, place),
    }
    put_words(&mut lines[at], &all);
}

fn odd_word(rng: &mut Rng, lines: &mut Lines) {
    let at = any_line(rng, lines);
    let mut all = words(&lines[at]);
    let place = rng.index(all.len());
    let len = rng.pick(&[0, 1, 8, 9, 10, 11, 12]);
    all[place] = match rng.below(4) {
        0 => b"A".to_vec(),
        1 => b"root".to_vec(),
        2 => [all[place].as_slice(), &[rng.pick(b"_-.\t{`/:\0\x80\xff")]].concat(),
        _ => word(rng, len).into_bytes(),
    };
    put_words(&mut lines[at], &all);
}

/// A number at the edge of what its line takes, or one of a wrong form.
fn odd_number(rng: &mut Rng, lines: &mut Lines) {
    const FORMS: [&str; 16] = [
        "0",
        "00",
        "01",
        "007",
        "4294967295",
        "4294967296",
        "4294967297",
        "9999999999",
        "10000000000",
        "42949672950",
        "18446744073709551616",
        "-1",
        "+1",
        "1a",
        "a1",
        "0x1",
    ];
    let at = any_line(rng, lines);
    let edges: &[&str] = match lines[at].first() {
        Some(b'c') => &["0", "1", "16", "17"],
        Some(b'o') => &["0", "1", "4294967294", "4294967295"],
        _ => &["0", "1", "65535", "65536"],
    };
    let number = if rng.chance(50) { rng.pick(edges) } else { rng.pick(&FORMS) };
    let mut all = words(&lines[at]);
    let numbers: Vec<usize> = (1..all.len()).filter(|i| all[*i].first().is_some_and(u8::is_ascii_digit)).collect();
    if !numbers.is_empty() {
        all[rng.pick(&numbers)] = number.as_bytes().to_vec();
        put_words(&mut lines[at], &all);
    }
}

fn first_letter(rng: &mut Rng, lines: &mut Lines) {
    let at = any_line(rng, lines);
    if let Some(letter) = lines[at].first_mut() {
        *letter = rng.pick(b"cloadpegsxC0 ");
    }
}

fn header(rng: &mut Rng, lines: &mut Lines) {
    let line: &[u8] = rng.pick(&[
        &b""[..],
        b"sfq1",
        b"sfq1 ",
        b"sfq1 quanta",
        b"sfq1 quantum ",
        b"sfq1  block",
        b"sfq2 block",
        b"SFQ1 block",
        b"sfq1 block 1",
        b"sfq1 blocks",
        b"l 8",
        b"c x root 1",
        b"sfq1 block",
        b"sfq1 quantum",
    ]);
    lines[0] = line.to_vec();
}

/// Another rate, none, one line more, or the one line elsewhere.
fn rate_lines(rng: &mut Rng, lines: &mut Lines) {
    let rate = rng.pick(&[&b"l 0"[..], b"l 1", b"l 65535", b"l 65536", b"l 4294967295"]).to_vec();
    let Some(at) = line_of(rng, lines, b'l') else { return };
    match rng.below(4) {
        0 => lines[at] = rate,
        1 => drop(lines.remove(at)),
        2 => {
            let to = 1 + rng.index(lines.len());
            lines.insert(to, rate);
        }
        _ => {
            let line = lines.remove(at);
            let to = 1 + rng.index(lines.len());
            lines.insert(to, line);
        }
    }
}

/// Name, parent and weight of a class, each right or wrong, so that several checks may apply at once.
fn class_words(rng: &mut Rng, lines: &mut Lines) {
    let (Some(at), Some(other)) = (line_of(rng, lines, b'c'), line_of(rng, lines, b'c')) else { return };
    let mut all = words(&lines[at]);
    let other = words(&lines[other]);
    if all.len() < 4 || other.len() < 4 {
        return;
    }
    let len = rng.pick(&[8, 9, 10, 11]);
    match rng.below(4) {
        0 => all[1] = word(rng, len).into_bytes(),
        1 => all[1] = other[1 + rng.index(2)].clone(), // another class or its parent
        _ => {}
    }
    match rng.below(6) {
        0 => all[2] = all[1].clone(),
        1 => all[2] = other[1].clone(), // perhaps a later class, or one too deep
        2 => all[2] = b"nowhere".to_vec(),
        _ => {}
    }
    if rng.chance(40) {
        all[3] = rng.pick(&["0", "1", "16", "17"]).into();
    }
    put_words(&mut lines[at], &all);
}

/// Classes up to the bound and at most two above it; the last may be wrong in another way, too.
fn many_classes(rng: &mut Rng, lines: &mut Lines) {
    let standing = lines.iter().filter(|line| line.first() == Some(&b'c')).count() as u64;
    let wanted = MAX_CLASSES - 1 + rng.below(3);
    if standing < wanted {
        let last =
            rng.pick(&["c last root 1", "c last root 0", "c lastclass root 1", "c root root 1", "c last none 1"]);
        lines.insert(1 + standing as usize, last.into());
    }
    for i in standing + 1..wanted {
        lines.insert(1, format!("c more{i} root 1").into_bytes());
    }
}

/// A chain of 7 to 9 classes before the others.
fn deep_classes(rng: &mut Rng, lines: &mut Lines) {
    let depth = rng.between(7, 9);
    let weight = rng.pick(&[0, 1]);
    for i in (1..=depth).rev() {
        let parent = if i == 1 { "root".into() } else { format!("deep{}", i - 1) };
        let weight = if i == depth { weight } else { 1 };
        lines.insert(1, format!("c deep{i} {parent} {weight}").into_bytes());
    }
}

fn odd_outage(rng: &mut Rng, lines: &mut Lines) {
    const OUTAGES: [&str; 9] = [
        "o 0 0",
        "o 0 1",
        "o 1000 0",
        "o 4294967294 1",
        "o 4294967295 1",
        "o 4294967295 0",
        "o 1 4294967294",
        "o 1 4294967295",
        "o 4294967295 4294967295",
    ];
    let Some(rate) = line_of(rng, lines, b'l') else { return };
    let outages = lines[rate + 1..].iter().take_while(|line| line.first() == Some(&b'o')).count();
    let at = rate + rng.index(outages + 2); // also right before the rate
    lines.insert(at, rng.pick(&OUTAGES).as_bytes().to_vec());
}

/// 15 to 18 outages in place of those that stand.
fn many_outages(rng: &mut Rng, lines: &mut Lines) {
    lines.retain(|line| line.first() != Some(&b'o'));
    let Some(rate) = line_of(rng, lines, b'l') else { return };
    for i in (0..rng.between(15, 18)).rev() {
        lines.insert(rate + 1, format!("o {} 1", 2 * i).into_bytes());
    }
}

/// Lengthens a trace by calls to a size around the limit.
fn to_the_limit(rng: &mut Rng, bytes: &mut Vec<u8>) {
    let size = MAX_BYTES - 2 + rng.index(5);
    let mut more = Lines::new();
    if bytes.len() + 20 < size {
        fill(&mut more, size - bytes.len());
        debug_assert_eq!(length(&more) + bytes.len(), size);
        bytes.extend(join(&more));
    }
}
