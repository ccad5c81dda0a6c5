//! White space, words and numbers in bytes.

pub fn is_space(byte: u8) -> bool {
    matches!(byte, 9..=13 | b' ')
}

pub fn trim(text: &[u8]) -> &[u8] {
    let start = text.iter().position(|byte| !is_space(*byte)).unwrap_or(text.len());
    let end = text.iter().rposition(|byte| !is_space(*byte)).map_or(start, |last| last + 1);
    &text[start..end]
}

pub fn words(text: &[u8]) -> impl Iterator<Item = &[u8]> {
    text.split(|byte| is_space(*byte)).filter(|word| !word.is_empty())
}

/// The number that some decimal digits denote, if it is below 2^64.
pub fn number(digits: &[u8]) -> Option<u64> {
    let add = |number: u64, byte: &u8| {
        let digit = char::from(*byte).to_digit(10)?;
        number.checked_mul(10)?.checked_add(u64::from(digit))
    };
    if digits.is_empty() { None } else { digits.iter().try_fold(0, add) }
}

pub fn number_from_1(digits: &[u8]) -> Option<u64> {
    number(digits).filter(|number| *number > 0)
}

pub fn push_number(out: &mut Vec<u8>, mut number: u64) {
    if number < 10 {
        out.push(b'0' + number as u8);
        return;
    }
    let start = out.len();
    let end = start + digit_count(number);
    out.extend_from_slice(&[b'0'; 20]);
    for digit in out[start..end].iter_mut().rev() {
        *digit = b'0' + (number % 10) as u8;
        number /= 10;
    }
    out.truncate(end);
}

pub fn digit_count(number: u64) -> usize {
    number.checked_ilog10().unwrap_or(0) as usize + 1
}

/// Appends the numbers with one space between them.
pub fn push_numbers(out: &mut Vec<u8>, numbers: &[u64]) {
    for (index, number) in numbers.iter().enumerate() {
        if index > 0 {
            out.push(b' ');
        }
        push_number(out, *number);
    }
}
