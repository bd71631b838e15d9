//! How numbers, addresses, values and moments are spelled on the command line.

use poll::request::Request;
use poll::value::{parse, parse_tlp};
use reference::clock::Clock;
use reference::frame::Address;
use reference::points::{Found, Parameter, Point, PointType, Tlp};
use std::time::Duration;

pub fn number(word: &str) -> Result<u8, String> {
    word.parse()
        .map_err(|_| format!("'{word}' is not a number from 0 to 255"))
}

pub fn address(word: &str) -> Result<Address, String> {
    let (unit, group) = word
        .split_once(',')
        .ok_or(format!("'{word}' is not UNIT,GROUP"))?;
    Ok(Address {
        unit: number(unit)?,
        group: number(group)?,
    })
}

pub fn wait(word: &str) -> Result<Duration, String> {
    word.parse()
        .map(Duration::from_millis)
        .map_err(|_| format!("'{word}' is not a number of milliseconds"))
}

pub fn tlp(point_type: &str, logical: &str, parameter: &str) -> Result<Tlp, String> {
    Ok(Tlp::from_bytes([
        number(point_type)?,
        number(logical)?,
        number(parameter)?,
    ]))
}

pub fn point(word: &str) -> Result<&'static Point, String> {
    Point::of(PointType(number(word)?)).map_err(|_| format!("the point type {word} is not known"))
}

/// The bytes of a value for a parameter, which needs its row.
pub fn value(tlp: Tlp, text: &str) -> Result<Vec<u8>, String> {
    let [point_type, logical, parameter] = tlp.to_bytes();
    let name = format!("{point_type}/{logical}/{parameter}");
    let found = Found::of(tlp).map_err(|_| format!("the kind of {name} is not known"))?;
    parse(found.row, text).map_err(|why| format!("{name}, {}: {why}", found.row.name))
}

pub fn block(start: Tlp, values: &[&str]) -> Result<Vec<Vec<u8>>, String> {
    let parameters = start.parameter.0..=u8::MAX;
    values
        .iter()
        .zip(parameters)
        .map(|(text, parameter)| {
            let parameter = Parameter(parameter);
            value(Tlp { parameter, ..start }, text)
        })
        .collect()
}

pub fn list(entries: &[&str]) -> Result<Request, String> {
    let named =
        |word: &str| parse_tlp(word, '/').ok_or(format!("'{word}' is not TYPE/LOGICAL/PARAMETER"));
    let split: Vec<_> = entries.iter().map(|entry| entry.split_once('=')).collect();
    if split.iter().all(Option::is_none) {
        let list = entries
            .iter()
            .map(|entry| named(entry))
            .collect::<Result<_, _>>()?;
        return Ok(Request::ReadList(list));
    }
    let list = split
        .into_iter()
        .map(|entry| {
            let (name, text) = entry.ok_or("a list is read or written, not both")?;
            let tlp = named(name)?;
            Ok((tlp, value(tlp, text)?))
        })
        .collect::<Result<_, String>>()?;
    Ok(Request::WriteList(list))
}

/// The numbers of a date and a time; whether there is such a moment is for the
/// device to say.
pub fn clock(date: &str, time: &str) -> Result<Clock, String> {
    let wrong = || format!("'{date} {time}' is not YYYY-MM-DD HH:MM:SS");
    let [year, month, day] = three(date, '-').ok_or_else(wrong)?;
    let [hour, minute, second] = three(time, ':').ok_or_else(wrong)?;
    let byte = |number: u16| u8::try_from(number).map_err(|_| wrong());
    Ok(Clock {
        second: byte(second)?,
        minute: byte(minute)?,
        hour: byte(hour)?,
        day: byte(day)?,
        month: byte(month)?,
        year,
    })
}

fn three(text: &str, separator: char) -> Option<[u16; 3]> {
    let numbers: Option<Vec<u16>> = text.split(separator).map(|n| n.parse().ok()).collect();
    numbers?.try_into().ok()
}

pub fn bytes(digits: &str) -> Result<Vec<u8>, String> {
    let wrong = || format!("'{digits}' is not pairs of hexadecimal digits");
    let pairs = digits.as_bytes().chunks_exact(2);
    if !pairs.remainder().is_empty() {
        return Err(wrong());
    }
    let byte = |pair: &[u8]| {
        let pair = std::str::from_utf8(pair).ok()?;
        u8::from_str_radix(pair, 16).ok()
    };
    pairs.map(|pair| byte(pair).ok_or_else(wrong)).collect()
}
