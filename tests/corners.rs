//! Scripts at the edges of the rules for the script program (docs/RULES.md), with the listings worked out by hand.
use crate::listing::{FIRST, HEADER};
use crate::perform::NAMES;

/// A name, a script and its listing.
pub type Corner = (String, Vec<u8>, Vec<u8>);

/// A script and its listing, both whole.
fn whole(name: &str, script: &[u8], listing: &str) -> Corner {
    (name.to_string(), script.to_vec(), listing.into())
}

/// The lines behind a good first line, and what is printed behind the header.
fn behind(name: &str, lines: &[u8], printed: &str) -> Corner {
    (name.to_string(), [FIRST.as_bytes(), lines].concat(), (HEADER.to_string() + printed).into())
}

/// A broken line: it gets 30, and opens nothing.
fn broken(name: &str, line: &[u8]) -> Corner {
    let lines = [line, b"\nvalue,0,0,0,0\n"].concat();
    behind(&format!("{name}: {}", line.escape_ascii()), &lines, "1,30,0\n2,1,0\n")
}

fn whole_case() -> Corner {
    whole(
        "the whole case",
        b"call,a,b,c,d\nopen,2,0,0,0\ninitiate,0,0,0,0\ninitiate,0,0,0,0\nbegin,1,0,0,0\nlock,1,0,2,0\n\
          write,1,0,7,0\ndepend,3,1,2,0\nabort,2,0,0,0\nvalue,0,0,0,0\n",
        "line,answer,number\n1,0,0\n2,0,1\n3,0,2\n4,0,0\n5,0,0\n6,0,0\n7,0,0\n8,0,2\n9,0,0\n",
    )
}

/// Empty input and first lines that are right.
fn first_lines() -> Vec<Corner> {
    vec![
        whole("empty input", b"", "line,answer,number\n"),
        whole("a first line alone", b"call,a,b,c,d\n", "line,answer,number\n"),
        whole("a first line without a newline", b"call,a,b,c,d", "line,answer,number\n"),
        whole("a first line, then a newline", b"call,a,b,c,d\n\n", "line,answer,number\n1,30,0\n"),
        whole(
            "a first line twice",
            b"call,a,b,c,d\ncall,a,b,c,d\nopen,1,0,0,0\n",
            "line,answer,number\n1,30,0\n2,0,0\n",
        ),
    ]
}

/// First lines that are not the right one.
const FIRSTS: [&[u8]; 20] = [
    b"",
    b"\r",
    b" ",
    b"call",
    b"call,a,b,c",
    b"call,a,b,c,",
    b"call,a,b,c,d,",
    b"call,a,b,c,d,e",
    b"call,a,b,c,d ",
    b" call,a,b,c,d",
    b"call, a, b, c, d",
    b"call,a,b,c,d\r",
    b"call,a,b,c,d\0",
    b"Call,a,b,c,d",
    b"call,a,b,c,e",
    b"call,0,0,0,0",
    b"open,2,0,0,0",
    b"line,answer,number",
    b"\xef\xbb\xbfcall,a,b,c,d",
    b"\xff",
];

/// Broken first lines: nothing behind them counts.
fn broken_first_lines() -> Vec<Corner> {
    let ended = "line,answer,number\n0,30,0\n";
    let mut corners = vec![whole("a newline alone", b"\n", ended), whole("two newlines", b"\n\n", ended)];
    for first in FIRSTS {
        let name = format!("first line {}", first.escape_ascii());
        corners.push(whole(&name, &[first, b"\nopen,2,0,0,0\nvalue,0,0,0,0\n"].concat(), ended));
        corners.push(whole(&name, &[first, b"\ncall,a,b,c,d\nopen,2,0,0,0\n"].concat(), ended));
    }
    corners.push(whole("a broken first line without a newline", b"call,a,b,c", ended));
    for length in [52, 53, 64, 65, 4_096, 65_536, 100_000] {
        let long = vec![b'x'; length];
        let name = format!("a first line that ends, or begins, with {length} bytes more");
        corners.push(whole(&name, &[&long, FIRST.as_bytes(), b"open,2,0,0,0\n"].concat(), ended));
        corners.push(whole(&name, &[b"call,a,b,c,d", &long[..], b"\nopen,2,0,0,0\n"].concat(), ended));
    }
    corners
}

/// Empty lines, the last newline, and places counted through broken lines.
fn line_ends() -> Vec<Corner> {
    vec![
        behind("an empty line between", b"open,2,0,0,0\n\nvalue,1,0,0,0\n", "1,0,0\n2,30,0\n3,0,0\n"),
        behind("an empty line first", b"\nopen,2,0,0,0\n", "1,30,0\n2,0,0\n"),
        behind("an empty line at the end", b"open,2,0,0,0\n\n", "1,0,0\n2,30,0\n"),
        behind("two empty lines at the end", b"open,2,0,0,0\n\n\n", "1,0,0\n2,30,0\n3,30,0\n"),
        behind("no last newline", b"open,2,0,0,0\ninitiate,0,0,0,0", "1,0,0\n2,0,1\n"),
        behind("no last newline behind a broken line", b"open,2,0,0,0\ninitiate,0,0,0", "1,0,0\n2,30,0\n"),
        behind("no last newline behind one byte", b"open,2,0,0,0\n0", "1,0,0\n2,30,0\n"),
        behind("a carriage return at the end of input", b"open,2,0,0,0\r", "1,30,0\n"),
        behind("a carriage return for a newline", b"open,2,0,0,0\rvalue,0,0,0,0\n", "1,30,0\n"),
        behind("a space for a line", b"open,2,0,0,0\n \nvalue,0,0,0,0\n", "1,0,0\n2,30,0\n3,0,0\n"),
        behind(
            "places through broken lines",
            b"x\nopen,2,0,0,0\nopen,2,0,0\ninitiate,0,0,0,0\nbegin,01,0,0,0\nbegin,1,0,0,0\nbegin,1,0,0,0\n\n\
              status,1,0,0,0\nstatus,1,0,0,1\nopen,0,0,0,0\nstatus,2,0,0,0\n",
            "1,30,0\n2,0,0\n3,30,0\n4,0,1\n5,30,0\n6,0,0\n7,7,0\n8,30,0\n9,0,2\n10,30,0\n11,2,0\n12,3,0\n",
        ),
    ]
}

/// Long lines. The longest good one has 50 bytes.
fn line_lengths() -> Vec<Corner> {
    let longest: &[u8] = b"open,1,0,0,0\npermit,4294967295,4294967295,4294967295,4294967295\n";
    let mut corners = vec![behind("a good line of 50 bytes", longest, "1,0,0\n2,3,0\n")];
    for length in [63, 64, 65, 66, 127, 128, 129, 4_095, 4_096, 4_097, 65_535, 65_536, 65_537, 100_000] {
        let x = vec![b'x'; length];
        let zeros = [b"open,2,0,0,", &vec![b'0'; length - 11][..]].concat();
        let spaces = [b"open,2,0,0,0", &vec![b' '; length - 12][..]].concat();
        let commas = [b"open,2,0,0,0", &vec![b','; length - 12][..]].concat();
        for (name, line) in [("x", &x), ("zeros", &zeros), ("spaces", &spaces), ("commas", &commas)] {
            assert_eq!(line.len(), length);
            let name = format!("a line of {length} bytes, {name}");
            let lines = [line, &b"\nvalue,0,0,0,0\n"[..]].concat();
            corners.push(behind(&name, &lines, "1,30,0\n2,1,0\n"));
            corners.push(behind(&format!("{name}, without a newline"), line, "1,30,0\n"));
        }
        // What is behind the line's first bytes is no line of its own.
        let name = format!("a call behind {length} bytes");
        corners.push(behind(&name, &[&x, &b"open,2,0,0,0\nvalue,0,0,0,0\n"[..]].concat(), "1,30,0\n2,1,0\n"));
        corners.push(behind(&name, &[&x, &b"\nopen,2,0,0,0\nvalue,0,0,0,0"[..]].concat(), "1,30,0\n2,0,0\n3,0,0\n"));
    }
    corners
}

/// Fields that are no numbers. Two that wrap round, in 32 or 64 bits, would be 2.
const NO_NUMBERS: [&[u8]; 30] = [
    b"02",
    b"00",
    b"000",
    b"0000000002",
    b"00000000002",
    b"",
    b"+1",
    b"-1",
    b"-0",
    b" 2",
    b"2 ",
    b" ",
    b"2\t",
    b"2\r",
    b"2\0",
    b"\0",
    b"2.",
    b"2.0",
    b"1e1",
    b"0x2",
    b"2_0",
    b"a",
    b"\"2\"",
    b"\xef\xbc\x92",
    b"\xb2",
    b"4294967298",
    b"9999999999",
    b"10000000000",
    b"99999999999999999999",
    b"18446744073709551618",
];

fn no_numbers() -> Vec<Corner> {
    let mut corners = vec![broken("one too many", b"value,4294967296,0,0,0")];
    for field in NO_NUMBERS {
        corners.push(broken("no number", &[b"open,", field, b",0,0,0"].concat()));
        corners.push(broken("no number in an unused field", &[b"open,2,0,0,", field].concat()));
        corners.push(broken("no number in the last of four fields", &[b"permit,1,2,0,", field].concat()));
    }
    corners
}

/// Numbers at the upper end, and 0.
fn numbers() -> Vec<Corner> {
    let lines: &[u8] = b"open,1,0,0,0\ninitiate,0,0,0,0\nbegin,1,0,0,0\nlock,1,0,2,0\nwrite,1,0,4294967295,0\n\
        read,1,0,0,0\nwrite,1,0,1000000000,0\nvalue,0,0,0,0\nwrite,1,0,999999999,0\nvalue,0,0,0,0\n\
        write,1,0,4294967296,0\nvalue,0,0,0,0\nwrite,1,0,0,0\nvalue,0,0,0,0\nwrite,1,0,4294967290,0\nvalue,0,0,0,0\n";
    let printed = "1,0,0\n2,0,1\n3,0,0\n4,0,0\n5,0,0\n6,0,4294967295\n7,0,0\n8,0,1000000000\n9,0,0\n\
        10,0,999999999\n11,30,0\n12,0,999999999\n13,0,0\n14,0,0\n15,0,0\n16,0,4294967290\n";
    let largest: &[u8] = b"open,4294967295,0,0,0\nopen,256,0,0,0\nvalue,4294967295,0,0,0\nvalue,255,0,0,0\n\
        status,4294967295,0,0,0\ninitiate,4294967295,0,0,0\ninitiate,0,0,0,0\nlock,1,255,4294967295,0\n\
        delegate,1,1,4294967295,0\ndelegate,1,1,65535,0\n";
    vec![
        behind("values up to 4294967295", lines, printed),
        behind(
            "4294967295 as an argument",
            largest,
            "1,2,0\n2,0,0\n3,4,0\n4,0,0\n5,3,0\n6,3,0\n7,0,1\n8,5,0\n9,4,0\n10,6,0\n",
        ),
    ]
}

/// Too few or too many fields, or commas elsewhere.
fn field_counts() -> Vec<Corner> {
    let lines: [&[u8]; 16] = [
        b"open",
        b"open,",
        b"open,2",
        b"open,2,0,0",
        b"open,2,0,0,",
        b"open,2,0,0,0,",
        b"open,2,0,0,0,0",
        b",open,2,0,0,0",
        b"open,,2,0,0,0",
        b"open,,2,0,0",
        b"open 2 0 0 0",
        b"open;2;0;0;0",
        b"open,2,0,0;0",
        b",",
        b",,,,",
        b"2,0,0,0,open",
    ];
    lines.iter().map(|line| broken("fields", line)).collect()
}

/// How many fields each call reads, in the order of NAMES.
const READS: [usize; 15] = [1, 1, 1, 1, 3, 2, 3, 4, 3, 3, 1, 1, 1, 1, 1];

/// Each call before open gets 1, and open itself 2 for its 300 entries; with something in an unused field the line is broken.
fn unused_fields() -> Vec<Corner> {
    let mut corners = vec![];
    for (name, reads) in NAMES.into_iter().zip(READS) {
        let line = |fields: [&str; 4]| format!("{name},{}\n", fields.join(","));
        let mut fields = ["0"; 4];
        fields[..reads].fill("300");
        let answer = if name == "open" { 2 } else { 1 };
        corners.push(behind(&format!("{name} before open"), line(fields).as_bytes(), &format!("1,{answer},0\n")));
        for unused in reads..4 {
            for number in ["1", "10", "256", "4294967295"] {
                let mut fields = fields;
                fields[unused] = number;
                let named = format!("{name} with {number} in unused field {}", unused + 1);
                corners.push(behind(&named, line(fields).as_bytes(), "1,30,0\n"));
            }
        }
    }
    corners
}

/// Names that are no call's.
fn no_names() -> Vec<Corner> {
    let names: [&[u8]; 16] = [
        b"", b" ", b"open ", b" open", b"ope", b"opens", b"pen", b"oopen", b"Open", b"OPEN", b"op\0en", b"open\0",
        b"\0open", b"\xefpen", b"call", b"0",
    ];
    let mut corners: Vec<Corner> = names.iter().map(|n| broken("no name", &[n, &b",2,0,0,0"[..]].concat())).collect();
    for (name, reads) in NAMES.into_iter().zip(READS) {
        let rest = ["", ",1,0,0,0", ",1,1,0,0", ",1,1,1,0", ",1,1,1,1"][reads];
        let (less, more, upper) = (&name[..name.len() - 1], format!("{name}{}", &name[..1]), name.to_uppercase());
        for other in [less, &name[1..], &more, &upper] {
            corners.push(broken("no name", format!("{other}{rest}").as_bytes()));
        }
    }
    corners
}

/// Every byte but the newline as a number, and behind a line.
fn every_byte() -> Vec<Corner> {
    let (mut lines, mut printed) = (vec![], String::new());
    for (place, byte) in (1..).zip((0..=255).filter(|b| *b != b'\n')) {
        lines.extend([b"open,", &[byte][..], b",0,0,0\n"].concat());
        let answer = match byte {
            b'0' => 2,
            b'1'..=b'9' => 0,
            _ => 30,
        };
        printed += &format!("{place},{answer},0\n");
    }
    let mut corners = vec![behind("every byte as a number of entries", &lines, &printed)];
    for byte in (0..=255).filter(|b| *b != b'\n') {
        corners.push(broken("a byte more", &[b"open,2,0,0,0", &[byte][..]].concat()));
    }
    corners
}

/// Broken lines among good ones store, lock and end nothing.
fn nothing_done() -> Vec<Corner> {
    let lines: &[u8] = b"open,2,0,0,0\ninitiate,0,0,0,0\nbegin,1,0,0,0\nlock,1,1,2,0\nwrite,1,1,7,0\n\
        write,1,1,8,1\nwrite,1,1,08,0\nwrite,1,1,8\nwrite,1,1,8,0,0\nWrite,1,1,8,0\nwrite,1,1,8,0 \nvalue,1,0,0,0\n\
        abort,1,0,0,1\ncomplete,1,0,1,0\ninitiate,0,0,0,1\nopen,1,0,0,1\nstatus,1,0,0,0\nread,1,1,0,0\ninitiate,0,0,0,0\n";
    let printed = "1,0,0\n2,0,1\n3,0,0\n4,0,0\n5,0,0\n6,30,0\n7,30,0\n8,30,0\n9,30,0\n10,30,0\n11,30,0\n12,0,7\n\
        13,30,0\n14,30,0\n15,30,0\n16,30,0\n17,0,2\n18,0,7\n19,0,2\n";
    vec![
        behind("broken lines do nothing", lines, printed),
        behind("a broken line before open", b"value,0,0,0\nvalue,0,0,0,0\n", "1,30,0\n2,1,0\n"),
        behind("an open refused leaves nothing", b"open,257,0,0,0\nvalue,0,0,0,0\n", "1,2,0\n2,1,0\n"),
        behind(
            "a second open",
            b"open,1,0,0,0\ninitiate,0,0,0,0\nopen,0,0,0,0\ninitiate,0,0,0,0\nopen,2,0,0,0\ninitiate,0,0,0,0\n",
            "1,0,0\n2,0,1\n3,2,0\n4,0,2\n5,0,0\n6,0,1\n",
        ),
    ]
}

pub fn corners() -> Vec<Corner> {
    [
        vec![whole_case()],
        first_lines(),
        broken_first_lines(),
        line_ends(),
        line_lengths(),
        no_numbers(),
        numbers(),
        field_counts(),
        unused_fields(),
        no_names(),
        every_byte(),
        nothing_done(),
    ]
    .concat()
}
