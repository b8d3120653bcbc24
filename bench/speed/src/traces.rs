use tracegen::{MAX_BYTES, Rng};

/// A trace of nearly the greatest length, by what is told of it.
pub struct Sample {
    pub name: &'static str,
    pub bytes: Vec<u8>,
}

pub fn samples() -> Vec<Sample> {
    let deep: Vec<String> =
        (1..=63).map(|i: usize| if i == 1 { "root".into() } else { format!("c{}", i.min(7) - 1) }).collect();
    let flat = vec!["root".to_string(); 63];
    let mut spoilt = busy("quantum", &flat);
    let last = spoilt.len() - 1;
    spoilt[last] = b' ';
    vec![
        Sample { name: "63 flat, quanta", bytes: busy("quantum", &flat) },
        Sample { name: "63 flat, blocks", bytes: busy("block", &flat) },
        Sample { name: "57 at depth 7, quanta", bytes: busy("quantum", &deep) },
        Sample { name: "2 flat, quanta", bytes: busy("quantum", &flat[..2]) },
        Sample { name: "a fault in the last line", bytes: spoilt },
        Sample { name: "submissions only", bytes: submissions() },
    ]
}

/// Three items for each leaf, then whole turns with a submission each, up to the limit.
fn busy(kind: &str, parents: &[String]) -> Vec<u8> {
    let mut rng = Rng::new(3);
    let mut text = format!("sfq1 {kind}\n");
    for (i, parent) in parents.iter().enumerate() {
        text += &format!("c c{} {parent} {}\n", i + 1, 1 + i % 16);
    }
    text += "l 256\no 40 8\n";
    let names = (1..=parents.len()).map(|i| format!("c{i}"));
    let leaves: Vec<String> = names.filter(|name| !parents.contains(name)).collect();
    for leaf in leaves.iter().cycle().take(3 * leaves.len()) {
        text += &format!("a {leaf} {}\n", rng.between(1, 256));
    }
    loop {
        let turn = format!("a {} {}\nd\np\ne\n", leaves[rng.index(leaves.len())], rng.between(1, 256));
        if text.len() + turn.len() > MAX_BYTES {
            return text.into_bytes();
        }
        text += &turn;
    }
}

/// 256 are accepted and the rest refused, all to the last of 63 classes.
fn submissions() -> Vec<u8> {
    let mut text = String::from("sfq1 block\n");
    for i in 1..=63 {
        text += &format!("c name{i} root 1\n");
    }
    text += "l 1\n";
    while text.len() + 11 <= MAX_BYTES {
        text += "a name63 7\n";
    }
    text.into_bytes()
}

#[cfg(test)]
mod tests {
    use super::*;

    #[test]
    fn samples_are_long_and_right() {
        for sample in samples() {
            assert!(sample.bytes.len() > MAX_BYTES - 32 && sample.bytes.len() <= MAX_BYTES, "{}", sample.name);
            let listing = baseline::play(&sample.bytes);
            assert_eq!(listing[0] == b'!', sample.name.contains("fault"), "{}", sample.name);
        }
    }
}
