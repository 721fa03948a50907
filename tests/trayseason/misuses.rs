//! Arguments that are not one date in the form YYYY-MM-DD.

use std::ffi::OsString;
use std::os::unix::ffi::OsStringExt;

const DATE: &[u8; 10] = b"2026-11-15";

pub fn misuses() -> Vec<Vec<OsString>> {
    let single = [lengths(), forms(), bytes()].concat();
    numbers().into_iter().chain(single.into_iter().map(|argument| vec![OsString::from_vec(argument)])).collect()
}

/// No argument, and more than one, though a date is among them.
fn numbers() -> Vec<Vec<OsString>> {
    let date = "2026-11-15";
    let arguments: [&[&str]; 8] = [
        &[],
        &[date, date],
        &[date, ""],
        &["", date],
        &["--", date],
        &[date, "--help"],
        &["2026", "11", "15"],
        &[date, "a", date],
    ];
    arguments.map(|arguments| arguments.iter().map(OsString::from).collect()).to_vec()
}

/// Every length to 40 but 10, and lengths that 8 or 16 bits would take for 10.
fn lengths() -> Vec<Vec<u8>> {
    let lengths = (0..=40).filter(|&length| length != 10).chain([256, 266, 65_536, 65_546, 120_000]);
    lengths.map(|length| DATE.iter().copied().cycle().take(length).collect()).collect()
}

/// Other ways to write a date, most of them of ten bytes.
fn forms() -> Vec<Vec<u8>> {
    let forms = [
        "--help",
        "-h",
        "today",
        "2026/11/15",
        "2026.11.15",
        "2026 11 15",
        "2026_11_15",
        "2026:11:15",
        "2026111500",
        "2026-1-015",
        "2026-011-5",
        "202-611-15",
        "15-11-2026",
        "11-15-2026",
        "-026-11-15",
        "+026-11-15",
        "2026-+1-15",
        "2026--1-15",
        "2026-11--5",
        "2026-11- 5",
        " 2026-11-5",
        "2026-11-5 ",
        "2026-11-15 ",
        " 2026-11-15",
        "2026-11-15\n",
        "2026-11-15T",
        "2026-11-1e",
        "0x7ea-b-0f",
        "YYYY-MM-DD",
        "----------",
        "2026\u{2010}1-5",
        "2026\u{2013}11\u{2013}15",
        "\u{ff12}6-11-15",
        "\u{662}\u{660}-11-15",
    ];
    forms.map(|form| form.as_bytes().to_vec()).to_vec()
}

/// A date with one byte that is not of the form: those beside the digits and the hyphen, with their high bit, and a few others.
fn bytes() -> Vec<Vec<u8>> {
    let others =
        [b'/', b':', b',', b'.', b'-', b'0', b'9', b'a', b'O', b'l', b' ', b'\n', 1, b'-' | 128, b'0' | 128, 255];
    let mut dates = Vec::new();
    for place in 0..DATE.len() {
        let hyphen = DATE[place] == b'-';
        let wrong = |byte: &u8| if hyphen { *byte != b'-' } else { !byte.is_ascii_digit() };
        for byte in others.into_iter().filter(wrong) {
            let mut date = DATE.to_vec();
            date[place] = byte;
            dates.push(date);
        }
    }
    dates
}
