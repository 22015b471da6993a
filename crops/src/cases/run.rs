//! A call run through the entries of a library, in buffers whose bytes are all the same before.

use super::{Call, File, Image, Key, LENT, Search, Seen, Stock, Words, hash, hash_u32, hash_u64};
use crate::Report;

/// What runs a program on its standard input and gives what it prints.
pub type Program<'a> = &'a dyn Fn(&[u8]) -> Result<Vec<u8>, String>;

/// The entries of the product, of the judge, or of another reading.
#[derive(Clone, Copy)]
pub struct Entries<'a> {
    /// The number that refuses a file, or 0.
    pub host: fn(&[u8]) -> u32,
    pub unpack: fn(&[u8], &mut [u64]) -> u32,
    /// A file, words to unpack into, records, marks, and whether ellipses are told.
    pub search_file: fn(&[u8], &mut [u64], &mut [u32], &mut [u64], bool) -> Report,
    /// Words, width, height, records, marks, and whether ellipses are told.
    pub search_words: fn(&[u64], u32, u32, &mut [u32], &mut [u64], bool) -> Report,
    /// A file, words to unpack into, cells.
    pub cells_file: fn(&[u8], &mut [u64], &mut [u32]) -> u32,
    /// Words, width, height, cells.
    pub cells_words: fn(&[u64], u32, u32, &mut [u32]) -> u32,
    /// None where the program is not there.
    pub program: Option<Program<'a>>,
}

/// What is seen after a call; none if there is no such entry here.
pub fn run(call: &Call, stock: &Stock, entries: &Entries) -> Result<Option<Seen>, String> {
    let seen = match call {
        Call::Host(file) => {
            let answer = (entries.host)(&given(file, stock)?);
            Seen::default().with(Key::Answer, answer)
        }
        Call::Program(file) => match entries.program {
            Some(program) => printed(&program(&given(file, stock)?)?),
            None => return Ok(None),
        },
        Call::Unpack { file, unpack } => {
            let mut words = lent_u64(*unpack);
            let answer = (entries.unpack)(&given(file, stock)?, &mut words);
            let seen = Seen::default().with(Key::Answer, answer);
            seen.buffer(Key::Words, words.len(), hash_u64(&words))
        }
        Call::Search(search) if plain(search) => searched(search, stock, entries)?,
        Call::Cells { image, cells } => cells_read(image, *cells, stock, entries)?,
        Call::Search(_)
        | Call::Fill { .. }
        | Call::Update { .. }
        | Call::Add { .. }
        | Call::Charge { .. }
        | Call::Submit { .. }
        | Call::Take { .. } => return Ok(None),
    };
    Ok(Some(seen))
}

/// A search with nothing lent but words, marks and records, by the entries for live crops.
fn plain(search: &Search) -> bool {
    !search.archive && search.counts.is_none() && search.page.is_none()
}

fn lent_u64(length: usize) -> Vec<u64> {
    vec![u64::from_le_bytes([LENT; 8]); length]
}

fn lent_u32(length: usize) -> Vec<u32> {
    vec![u32::from_le_bytes([LENT; 4]); length]
}

/// A crop's bytes, with the kind that is asked for.
fn given(file: &File, stock: &Stock) -> Result<Vec<u8>, String> {
    let mut bytes = stock.file(&file.id)?.to_vec();
    if let (Some(kind), Some(first)) = (file.kind, bytes.first_mut()) {
        *first = *first & 0xf | kind << 4;
    }
    Ok(bytes)
}

/// A crop's words and the dimensions that are handed over: cut first, then flipped.
fn given_words(words: &Words, stock: &Stock) -> Result<(Vec<u64>, u32, u32), String> {
    let (mut image, width, height) = stock.image(&words.id)?;
    if let Some(length) = words.cut {
        image.resize(length, 0);
    }
    if let Some(bit) = words.flip {
        let word = image.get_mut(bit / 64);
        *word.ok_or_else(|| format!("flip: there is no bit {bit}"))? ^= 1 << (bit % 64);
    }
    let (width, height) = words.size.unwrap_or((width, height));
    Ok((image, width, height))
}

/// Answer, lines and text of the program.
fn printed(text: &[u8]) -> Seen {
    let lines = text.iter().filter(|byte| **byte == b'\n').count();
    let first = text.split(|byte| *byte == b' ').nth(1);
    let answer = first.map(String::from_utf8_lossy).unwrap_or_default();
    Seen::default()
        .with(Key::Answer, answer)
        .with(Key::Lines, lines)
        .buffer(Key::Text, text.len(), hash(text.iter().copied()))
}

fn searched(search: &Search, stock: &Stock, entries: &Entries) -> Result<Seen, String> {
    let (mut marks, mut records) = (lent_u64(search.marks), lent_u32(search.records));
    let mut seen = Seen::default();
    let report = match &search.image {
        Image::File { file, unpack } => {
            let (file, mut words) = (given(file, stock)?, lent_u64(*unpack));
            let report =
                (entries.search_file)(&file, &mut words, &mut records, &mut marks, search.ellipse);
            seen = seen.buffer(Key::Words, words.len(), hash_u64(&words));
            report
        }
        Image::Words(words) => {
            let (words, width, height) = given_words(words, stock)?;
            (entries.search_words)(
                &words,
                width,
                height,
                &mut records,
                &mut marks,
                search.ellipse,
            )
        }
    };
    Ok(seen
        .with(Key::Answer, report.answer)
        .with(Key::Found, report.found)
        .with(Key::Kept, report.kept)
        .with(Key::Marked, report.marked)
        .buffer(Key::Marks, marks.len(), hash_u64(&marks))
        .buffer(Key::Records, records.len(), hash_u32(&records)))
}

fn cells_read(
    image: &Image,
    cells: usize,
    stock: &Stock,
    entries: &Entries,
) -> Result<Seen, String> {
    let mut cells = lent_u32(cells);
    let mut seen = Seen::default();
    let answer = match image {
        Image::File { file, unpack } => {
            let (file, mut words) = (given(file, stock)?, lent_u64(*unpack));
            let answer = (entries.cells_file)(&file, &mut words, &mut cells);
            seen = seen.buffer(Key::Words, words.len(), hash_u64(&words));
            answer
        }
        Image::Words(words) => {
            let (words, width, height) = given_words(words, stock)?;
            (entries.cells_words)(&words, width, height, &mut cells)
        }
    };
    let seen = seen.with(Key::Answer, answer);
    Ok(seen.buffer(Key::Cells, cells.len(), hash_u32(&cells)))
}
