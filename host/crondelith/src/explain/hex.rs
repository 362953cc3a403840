//! Bytes as hex digits.

use std::str::FromStr;

/// Bytes that are given as hex digits, two for each. Blanks and colons may stand between bytes.
#[derive(Clone, Debug, PartialEq, Eq)]
pub struct Hex(pub Vec<u8>);

impl FromStr for Hex {
    type Err = String;

    fn from_str(text: &str) -> Result<Self, String> {
        let is_gap = |character: char| character == ':' || character.is_whitespace();
        let groups = text.split(is_gap).map(group).collect::<Result<Vec<_>, _>>()?;
        Ok(Self(groups.concat()))
    }
}

/// Bytes without anything between.
fn group(text: &str) -> Result<Vec<u8>, String> {
    let digit = |digit: char| digit.to_digit(16).ok_or_else(|| format!("'{digit}' isn't a hex digit"));
    let digits = text.chars().map(digit).collect::<Result<Vec<_>, _>>()?;
    if digits.len() % 2 != 0 {
        return Err(format!("'{text}' has an odd number of digits, and a byte has two"));
    }
    Ok(digits.chunks(2).map(|pair| (pair[0] << 4 | pair[1]) as u8).collect())
}

#[cfg(test)]
mod tests {
    use super::Hex;

    #[test]
    fn digits_are_bytes_with_or_without_something_between() {
        for text in ["0200fF", "02 00 ff", "02:00:FF", " 0200:\tFf\n"] {
            assert_eq!(text.parse(), Ok(Hex(vec![2, 0, 255])), "{text}");
        }
        assert_eq!("".parse(), Ok(Hex(Vec::new())));
    }

    #[test]
    fn what_is_no_hex_has_a_reason() {
        for (text, reason) in [
            ("020", "'020' has an odd number of digits, and a byte has two"),
            ("0 2", "'0' has an odd number of digits, and a byte has two"),
            ("0x02", "'x' isn't a hex digit"),
            ("0ä", "'ä' isn't a hex digit"),
        ] {
            assert_eq!(text.parse::<Hex>(), Err(reason.to_owned()));
        }
    }
}
