//! Values in their kind, as text and as bytes.

use reference::points::{Kind, Row, Tlp};

/// A value as text, which [`parse`] reads back.
#[must_use]
pub fn show(kind: Kind, bytes: &[u8]) -> String {
    let shown = match kind {
        Kind::Text => Some(show_text(bytes)),
        Kind::Unsigned => unsigned(bytes).map(|number| number.to_string()),
        Kind::Signed => bytes
            .first()
            .map(|&byte| i8::from_le_bytes([byte]).to_string()),
        Kind::Single => bytes
            .try_into()
            .ok()
            .map(|bytes| format!("{:?}", f32::from_le_bytes(bytes))),
        Kind::Double => bytes
            .try_into()
            .ok()
            .map(|bytes| format!("{:?}", f64::from_le_bytes(bytes))),
        Kind::Tlp => bytes
            .try_into()
            .ok()
            .map(|[point_type, logical, parameter]: [u8; 3]| {
                format!("{point_type},{logical},{parameter}")
            }),
    };
    shown.unwrap_or_else(|| hex(bytes))
}

/// The bytes of a value given as text: a number, a text with or without
/// quotes, a TLP as `TYPE,LOGICAL,PARAMETER`. Only what cannot be sent is
/// refused; whether the value is in its range is for the device to say.
pub fn parse(row: &Row, text: &str) -> Result<Vec<u8>, String> {
    let bytes = match row.kind {
        Kind::Text => parse_text(text, row.length()),
        Kind::Unsigned => text
            .parse::<u32>()
            .ok()
            .and_then(|number| fit(number, row.length())),
        Kind::Signed => text.parse().ok().map(|n: i8| n.to_le_bytes().to_vec()),
        Kind::Single => text.parse().ok().map(|n: f32| n.to_le_bytes().to_vec()),
        Kind::Double => text.parse().ok().map(|n: f64| n.to_le_bytes().to_vec()),
        Kind::Tlp => parse_tlp(text, ',').map(|tlp| tlp.to_bytes().to_vec()),
    };
    bytes.ok_or_else(|| format!("'{text}' is not {}", wanted(row)))
}

/// Three numbers with a separator between them.
#[must_use]
pub fn parse_tlp(text: &str, separator: char) -> Option<Tlp> {
    let numbers = text
        .split(separator)
        .map(|number| number.parse().ok())
        .collect::<Option<Vec<u8>>>()?;
    Some(Tlp::from_bytes(numbers.try_into().ok()?))
}

/// Bytes in hexadecimal.
#[must_use]
pub fn hex(bytes: &[u8]) -> String {
    let pairs: Vec<String> = bytes.iter().map(|byte| format!("{byte:02X}")).collect();
    pairs.join(" ")
}

/// A text without the spaces that pad it.
fn show_text(bytes: &[u8]) -> String {
    let length = bytes
        .iter()
        .rposition(|&byte| byte != b' ')
        .map_or(0, |last| last + 1);
    format!("\"{}\"", bytes[..length].escape_ascii())
}

fn parse_text(text: &str, length: usize) -> Option<Vec<u8>> {
    let inner = text
        .strip_prefix('"')
        .and_then(|text| text.strip_suffix('"'))
        .unwrap_or(text);
    let mut bytes = inner.as_bytes().to_vec();
    if bytes.len() > length {
        return None;
    }
    bytes.resize(length, b' ');
    Some(bytes)
}

fn unsigned(bytes: &[u8]) -> Option<u32> {
    let mut wide = [0; 4];
    wide.get_mut(..bytes.len())?.copy_from_slice(bytes);
    Some(u32::from_le_bytes(wide))
}

/// The low bytes of a number whose other bytes are zero.
fn fit(number: u32, length: usize) -> Option<Vec<u8>> {
    let bytes = number.to_le_bytes();
    let (low, high) = bytes.split_at_checked(length)?;
    high.iter().all(|&byte| byte == 0).then(|| low.to_vec())
}

fn wanted(row: &Row) -> String {
    let length = row.length;
    match row.kind {
        Kind::Text => format!("a text of at most {length} bytes"),
        Kind::Unsigned => format!("an unsigned number of {length} bytes"),
        Kind::Signed => "a number from -128 to 127".to_string(),
        Kind::Single | Kind::Double => "a number such as -1.5 or 2e7".to_string(),
        Kind::Tlp => "a TLP such as 98,0,23".to_string(),
    }
}

#[cfg(test)]
mod tests {
    use super::*;
    use reference::points::{Found, POINTS};
    use reference::store::STORE_LENGTH;

    fn row(tlp: [u8; 3]) -> &'static Row {
        Found::of(Tlp::from_bytes(tlp)).unwrap().row
    }

    #[test]
    fn values_as_text() {
        assert_eq!(show(Kind::Text, b"Soft Pt 1  "), "\"Soft Pt 1\"");
        assert_eq!(show(Kind::Unsigned, &[16, 39]), "10000");
        assert_eq!(show(Kind::Signed, &[255]), "-1");
        assert_eq!(show(Kind::Single, &1.5f32.to_le_bytes()), "1.5");
        assert_eq!(show(Kind::Double, &(-0.0f64).to_le_bytes()), "-0.0");
        assert_eq!(show(Kind::Tlp, &[98, 0, 23]), "98,0,23");
        assert_eq!(show(Kind::Single, &[1, 2]), "01 02");
    }

    #[test]
    fn text_as_values() {
        assert_eq!(parse(row([98, 0, 33]), "255"), Ok(vec![255]));
        assert_eq!(parse(row([98, 0, 23]), "10000"), Ok(vec![16, 39]));
        assert_eq!(parse(row([124, 0, 13]), "98,0,1"), Ok(vec![98, 0, 1]));
        assert_eq!(parse(row([97, 0, 0]), "\"Tag\""), Ok(b"Tag       ".into()));
        assert_eq!(parse(row([97, 0, 0]), "Tag"), Ok(b"Tag       ".into()));
        assert_eq!(parse(row([122, 0, 9]), "-1"), Ok(vec![255]));
        for (tlp, text) in [
            ([98, 0, 33], "256"),
            ([98, 0, 33], "-1"),
            ([98, 0, 1], "one"),
            ([97, 0, 0], "eleven text"),
            ([124, 0, 13], "98,0"),
            ([124, 0, 13], "98,0,256"),
            ([122, 0, 9], "128"),
        ] {
            assert!(parse(row(tlp), text).is_err(), "{text}");
        }
    }

    #[test]
    fn what_is_shown_is_read_back() {
        let mut store = [0; STORE_LENGTH];
        assert_eq!(reference::fill(&mut store), 0);
        for point in &POINTS {
            for (number, row) in (0..).zip(point.rows) {
                let tlp = Tlp::from_bytes([point.point_type.0, 0, number]);
                let value = Found::of(tlp).unwrap().value(&store);
                assert_eq!(parse(row, &show(row.kind, value)), Ok(value.to_vec()));
            }
        }
    }
}
