//! The writer and the reader of OpenQASM as plain loops in Rust, with the library's refusals, places and lent memory:
//! what the library is timed against. Of the plain ways that were tried these are the quickest; nothing is judged by them.

const LONGEST: usize = 4096;

#[derive(Clone, Copy, PartialEq)]
pub enum Edition {
    Two,
    Three,
}

impl Edition {
    fn head(self) -> &'static [u8] {
        match self {
            Edition::Two => b"OPENQASM 2.0;\ninclude \"qelib1.inc\";\nqreg q[1];\n",
            Edition::Three => b"OPENQASM 3.0;\ninclude \"stdgates.inc\";\nqubit[1] q;\n",
        }
    }

    fn lines(self) -> &'static [&'static [u8]] {
        match self {
            Edition::Two => &LINES[..6],
            Edition::Three => &LINES,
        }
    }
}

const LINES: [&[u8]; 7] =
    [b"h q[0];\n", b"s q[0];\n", b"t q[0];\n", b"x q[0];\n", b"sdg q[0];\n", b"tdg q[0];\n", b"gphase(pi/4);\n"];

#[derive(Clone, Copy, PartialEq, Debug)]
pub struct Answer {
    pub refusal: u8,
    pub place: usize,
    pub bytes: usize,
}

fn refused(refusal: u8, place: usize) -> Answer {
    Answer { refusal, place, bytes: 0 }
}

pub fn write(edition: Edition, word: &[u8], buf: &mut [u8]) -> Answer {
    if word.len() > LONGEST {
        return refused(1, 0);
    }
    let head = edition.head();
    let (mut bytes, mut phase) = (head.len(), None);
    for (place, g) in word.iter().enumerate() {
        match g {
            b'I' => {}
            b'H' | b'S' | b'X' | b'T' => bytes += 8,
            b'W' => {
                bytes += 14;
                phase = phase.or(Some(place));
            }
            _ => return refused(2, place),
        }
    }
    if let (Edition::Two, Some(place)) = (edition, phase) {
        return refused(10, place);
    }
    if bytes > buf.len() {
        return refused(7, 0);
    }
    let mut at = put(buf, 0, head);
    for g in word.iter().rev() {
        at = match g {
            b'I' => at,
            b'W' => put(buf, at, b"gphase(pi/4);\n"),
            g => put(buf, at, &[g.to_ascii_lowercase(), b' ', b'q', b'[', b'0', b']', b';', b'\n']),
        };
    }
    Answer { refusal: 0, place: 0, bytes }
}

/// Where the line ends.
fn put(buf: &mut [u8], at: usize, line: &[u8]) -> usize {
    let end = at + line.len();
    buf[at..end].copy_from_slice(line);
    end
}

/// The bytes of the statement that stands first, and how many letters it is.
fn statement(edition: Edition, text: &[u8]) -> Option<(usize, usize)> {
    match text {
        [b'h' | b's' | b't' | b'x', b' ', b'q', b'[', b'0', b']', b';', b'\n', ..] => Some((8, 1)),
        [b's', b'd', b'g', b' ', b'q', b'[', b'0', b']', b';', b'\n', ..] => Some((10, 3)),
        [b't', b'd', b'g', b' ', b'q', b'[', b'0', b']', b';', b'\n', ..] => Some((10, 4)),
        _ if edition == Edition::Three && text.starts_with(b"gphase(pi/4);\n") => Some((14, 1)),
        _ => None,
    }
}

/// How far the text goes along with one of these.
fn along(text: &[u8], lines: &[&[u8]]) -> usize {
    let common = |line: &&[u8]| text.iter().zip(*line).take_while(|(a, b)| a == b).count();
    lines.iter().map(common).max().unwrap_or(0)
}

pub fn read(text: &[u8], buf: &mut [u8]) -> Answer {
    let editions = [Edition::Two, Edition::Three];
    let Some(edition) = editions.into_iter().find(|e| text.starts_with(e.head())) else {
        return refused(9, along(text, &editions.map(Edition::head)));
    };
    let head = edition.head().len();
    let (mut at, mut bytes) = (head, 0);
    while at < text.len() {
        let Some((size, letters)) = statement(edition, &text[at..]) else {
            return refused(9, at + along(&text[at..], edition.lines()));
        };
        at += size;
        bytes += letters;
    }
    if bytes > LONGEST {
        return refused(1, 0);
    }
    if bytes > buf.len() {
        return refused(7, 0);
    }
    put_letters(&text[head..], &mut buf[..bytes]);
    Answer { refusal: 0, place: 0, bytes }
}

/// The first statement's letters come last; the second byte of a right statement tells what it is.
fn put_letters(lines: &[u8], buf: &mut [u8]) {
    let (mut at, mut end) = (0, buf.len());
    while at < lines.len() {
        match (lines[at], lines[at + 1]) {
            (g, b' ') => {
                end -= 1;
                buf[end] = g.to_ascii_uppercase();
                at += 8;
            }
            (b's', _) => {
                end -= 3;
                put(buf, end, b"SSS");
                at += 10;
            }
            (b't', _) => {
                end -= 4;
                put(buf, end, b"TSSS");
                at += 10;
            }
            _ => {
                end -= 1;
                buf[end] = b'W';
                at += 14;
            }
        }
    }
}
