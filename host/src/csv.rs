//! Comma-separated values by RFC 4180; lines end in a line feed, and are read with a carriage return before it too.
use std::io::{self, BufRead, Read};

/// So long a line may be: longer ones are of no table.
const LONGEST_LINE: usize = 1 << 20;

/// Adds a field to a line, in quotes where it needs them.
pub fn push_field(line: &mut Vec<u8>, field: &[u8]) {
    let special = |byte: &u8| matches!(byte, b',' | b'"' | b'\n' | b'\r');
    if !field.iter().any(special) {
        return line.extend(field);
    }
    line.push(b'"');
    for &byte in field {
        if byte == b'"' {
            line.push(b'"');
        }
        line.push(byte);
    }
    line.push(b'"');
}

/// Why a line cannot be had.
pub enum Error {
    System(io::Error),
    Text(&'static str),
}

/// Reads line by line.
pub struct Reader<R> {
    from: R,
    /// The number of the last line that was read.
    pub line: usize,
}

impl<R: BufRead> Reader<R> {
    pub fn of(from: R) -> Self {
        Reader { from, line: 0 }
    }

    /// The fields of the next line; a line goes on for as long as its quotes are open.
    pub fn next(&mut self) -> Result<Option<Vec<Vec<u8>>>, Error> {
        let mut text = Vec::new();
        loop {
            let room = (LONGEST_LINE - text.len()) as u64;
            let read = (&mut self.from).take(room).read_until(b'\n', &mut text);
            match read.map_err(Error::System)? {
                0 if text.is_empty() => return Ok(None),
                0 if text.len() == LONGEST_LINE => return Err(Error::Text("it is too long")),
                0 if is_open(&text) => return Err(Error::Text("its quotes are not closed")),
                0 => break,
                _ => (),
            }
            self.line += usize::from(text.ends_with(b"\n"));
            if text.ends_with(b"\n") && !is_open(&text) {
                break;
            }
        }
        let text = text.strip_suffix(b"\n").unwrap_or(&text);
        fields(text.strip_suffix(b"\r").unwrap_or(text)).map(Some)
    }
}

/// Whether a quote is open at the end of the text.
fn is_open(text: &[u8]) -> bool {
    text.iter().filter(|&&byte| byte == b'"').count() % 2 == 1
}

/// Parts a line.
fn fields(line: &[u8]) -> Result<Vec<Vec<u8>>, Error> {
    let mut found = Vec::new();
    let mut rest = line;
    loop {
        let (field, after) = match rest {
            [b'"', quoted @ ..] => quoted_field(quoted)?,
            _ => plain_field(rest)?,
        };
        found.push(field);
        match after {
            [] => return Ok(found),
            [b',', more @ ..] => rest = more,
            _ => return Err(Error::Text("text follows a closing quote")),
        }
    }
}

/// A field without quotes, and what follows it.
fn plain_field(text: &[u8]) -> Result<(Vec<u8>, &[u8]), Error> {
    let end = text.iter().position(|&byte| byte == b',');
    let (field, after) = text.split_at(end.unwrap_or(text.len()));
    match field.contains(&b'"') {
        true => Err(Error::Text("a quote stands in a field without quotes")),
        false => Ok((field.to_vec(), after)),
    }
}

/// A field after its opening quote, and what follows it; two quotes stand for one.
fn quoted_field(text: &[u8]) -> Result<(Vec<u8>, &[u8]), Error> {
    let mut field = Vec::new();
    let mut rest = text;
    loop {
        match rest {
            [b'"', b'"', more @ ..] => {
                field.push(b'"');
                rest = more;
            }
            [b'"', after @ ..] => return Ok((field, after)),
            [byte, more @ ..] => {
                field.push(*byte);
                rest = more;
            }
            [] => return Err(Error::Text("its quotes are not closed")),
        }
    }
}

#[cfg(test)]
mod tests {
    use super::*;

    /// All lines of a text, or what is wrong with the first bad one.
    fn lines(text: &[u8]) -> Result<Vec<Vec<Vec<u8>>>, (usize, &'static str)> {
        let mut reader = Reader::of(text);
        let mut all = Vec::new();
        loop {
            match reader.next() {
                Ok(Some(fields)) => all.push(fields),
                Ok(None) => return Ok(all),
                Err(Error::Text(why)) => return Err((reader.line, why)),
                Err(Error::System(error)) => panic!("{error}"),
            }
        }
    }

    #[test]
    fn what_is_written_is_read() {
        let names: [&[u8]; 8] = [
            b"",
            b"plain",
            b"a,b",
            b"\"",
            b"a\"\"b",
            b"two\nlines\r\n",
            b"\xff\xfe",
            b" blank ",
        ];
        for ending in [&b"\n"[..], b"\r\n"] {
            let mut line = Vec::new();
            for (place, name) in names.iter().enumerate() {
                if place > 0 {
                    line.push(b',');
                }
                push_field(&mut line, name);
            }
            line.extend(ending);
            let twice = lines(&[&line[..], &line].concat()).expect("two lines");
            assert_eq!(
                twice,
                [names.map(<[u8]>::to_vec), names.map(<[u8]>::to_vec)]
            );
        }
    }

    #[test]
    fn a_last_line_without_its_end() {
        let expected = [
            [b"a".to_vec(), b"b".to_vec()],
            [b"".to_vec(), b"c".to_vec()],
        ];
        assert_eq!(lines(b"a,b\n,c").expect("two lines"), expected);
    }

    #[test]
    fn what_is_no_table() {
        assert_eq!(lines(b"a\n\"b"), Err((1, "its quotes are not closed")));
        assert_eq!(lines(b"\"a\"b\n"), Err((1, "text follows a closing quote")));
        let inner = "a quote stands in a field without quotes";
        assert_eq!(lines(b"a\"b\"\n"), Err((1, inner)));
        assert_eq!(lines(&vec![b'a'; 2 << 20]), Err((0, "it is too long")));
    }
}
