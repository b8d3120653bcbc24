/// Drops lines of a trace, many at a time and then one by one, as long as `differs` says yes.
pub fn minimise(trace: &[u8], mut differs: impl FnMut(&[u8]) -> bool) -> Vec<u8> {
    let mut lines: Vec<&[u8]> = trace.split_inclusive(|b| *b == b'\n').collect();
    let mut chunk = lines.len().div_ceil(2);
    while chunk > 0 {
        let before = lines.len();
        let mut at = 0;
        while at < lines.len() {
            let mut fewer = lines.clone();
            fewer.drain(at..(at + chunk).min(lines.len()));
            if differs(&fewer.concat()) {
                lines = fewer;
            } else {
                at += chunk;
            }
        }
        let again = chunk == 1 && lines.len() < before;
        chunk = if again { 1 } else { chunk / 2 };
    }
    lines.concat()
}

#[cfg(test)]
mod tests {
    use super::*;

    fn has(trace: &[u8], line: &[u8]) -> bool {
        trace.split_inclusive(|b| *b == b'\n').any(|other| other == line)
    }

    #[test]
    fn only_needed_lines_stay() {
        let mut trace = b"head\n".to_vec();
        for i in 0..100 {
            trace.extend_from_slice(format!("line {i}\n").as_bytes());
        }
        let least = minimise(&trace, |t| t.starts_with(b"head\n") && has(t, b"line 17\n") && has(t, b"line 80\n"));
        assert_eq!(least, b"head\nline 17\nline 80\n");
        assert_eq!(minimise(&trace, |t| t.len() >= 8), b"line 99\n");
        assert_eq!(minimise(&trace, |_| true), b"");
        assert_eq!(minimise(b"", |_| true), b"");
    }
}
