/// Whether the text is `YYYY-MM-DDTHH:MM:SS`, a fraction of at most nine digits or none, and `Z`, and
/// there is such a day.
pub fn is_time(text: &str) -> bool {
    let bytes = text.as_bytes();
    let is_form = bytes.len() >= 20
        && bytes
            .iter()
            .zip(b"0000-00-00T00:00:00")
            .all(|(byte, form)| match form {
                b'0' => byte.is_ascii_digit(),
                sign => byte == sign,
            });
    if !is_form {
        return false;
    }
    let number = |at: usize| u32::from(bytes[at] - b'0') * 10 + u32::from(bytes[at + 1] - b'0');
    let year = number(0) * 100 + number(2);
    (1..=12).contains(&number(5))
        && (1..=days(year, number(5))).contains(&number(8))
        && number(11) < 24
        && number(14) < 60
        && number(17) < 60
        && is_ending(&bytes[19..])
}

fn days(year: u32, month: u32) -> u32 {
    let is_leap = year % 4 == 0 && (year % 100 != 0 || year % 400 == 0);
    match month {
        2 if is_leap => 29,
        2 => 28,
        4 | 6 | 9 | 11 => 30,
        _ => 31,
    }
}

fn is_ending(bytes: &[u8]) -> bool {
    match bytes {
        [b'Z'] => true,
        [b'.', digits @ .., b'Z'] => {
            (1..=9).contains(&digits.len()) && digits.iter().all(u8::is_ascii_digit)
        }
        _ => false,
    }
}
