//! What an entry is given: the left side of a line.

use super::fields::{Fields, length, number, numbers};

/// A crop file, perhaps with other upper bits in its first byte.
#[derive(Clone, Debug, PartialEq, Eq)]
pub struct File {
    pub id: String,
    pub kind: Option<u8>,
}

/// The unpacked words of a crop, perhaps with other dimensions, another length, or one bit flipped.
#[derive(Clone, Debug, PartialEq, Eq)]
pub struct Words {
    pub id: String,
    pub size: Option<(u32, u32)>,
    pub cut: Option<usize>,
    pub flip: Option<usize>,
}

#[derive(Clone, Debug, PartialEq, Eq)]
pub enum Image {
    /// A file, and how many words are lent to unpack it into.
    File {
        file: File,
        unpack: usize,
    },
    Words(Words),
}

/// Counts of a crop's rows that are lent.
#[derive(Clone, Debug, PartialEq, Eq)]
pub enum Counts {
    Right,
    Wrong { row: usize, value: u16 },
    Length(usize),
}

/// Lanes of waiting crops: the one last served, and for each lane its length and its places.
#[derive(Clone, Debug, PartialEq, Eq)]
pub struct Lanes {
    pub last: u64,
    pub lanes: [(u64, [u64; 4]); 8],
}

#[derive(Clone, Debug, PartialEq, Eq)]
pub struct Search {
    pub image: Image,
    pub marks: usize,
    pub records: usize,
    pub ellipse: bool,
    pub counts: Option<Counts>,
    /// Bytes lent for the sheet.
    pub page: Option<usize>,
    pub archive: bool,
}

#[derive(Clone, Debug, PartialEq, Eq)]
pub enum Call {
    Host(File),
    Program(File),
    Search(Search),
    Cells {
        image: Image,
        cells: usize,
    },
    Unpack {
        file: File,
        unpack: usize,
    },
    Fill {
        words: Words,
        length: usize,
    },
    Update {
        words: Words,
        counts: Counts,
        x: u32,
        y: u32,
        black: bool,
    },
    Add {
        totals: [u64; 5],
        answer: u32,
        class: u32,
    },
    Charge {
        totals: [u64; 5],
        rates: [u64; 5],
    },
    Submit {
        lanes: Lanes,
        lane: u64,
        crop: u64,
    },
    Take {
        lanes: Lanes,
    },
}

impl Call {
    /// The call of a left side.
    pub fn parse(text: &str) -> Result<Call, String> {
        let mut words = text.split(' ');
        let name = words.next().unwrap_or_default();
        let mut fields = Fields::parse(words)?;
        let call = named(name, &mut fields)?;
        fields.finish(name)?;
        Ok(call)
    }
}

fn named(name: &str, fields: &mut Fields) -> Result<Call, String> {
    Ok(match name {
        "host" => Call::Host(file(fields)?),
        "program" => Call::Program(file(fields)?),
        "search" => Call::Search(search(fields)?),
        "cells" => Call::Cells {
            image: image(fields)?,
            cells: fields.needed_length("cells")?,
        },
        "unpack" => Call::Unpack {
            file: file(fields)?,
            unpack: fields.needed_length("unpack")?,
        },
        "fill" => Call::Fill {
            words: words(fields)?,
            length: fields.needed_length("length")?,
        },
        "update" => update(fields)?,
        "add" => Call::Add {
            totals: fields.five("totals")?,
            answer: fields.needed_number("answer")?,
            class: fields.needed_number("class")?,
        },
        "charge" => Call::Charge {
            totals: fields.five("totals")?,
            rates: fields.five("rates")?,
        },
        "submit" => Call::Submit {
            lanes: lanes(fields)?,
            lane: fields.needed_number("lane")?,
            crop: fields.needed_number("crop")?,
        },
        "take" => Call::Take {
            lanes: lanes(fields)?,
        },
        _ => return Err(format!("unknown call: {name}")),
    })
}

fn file(fields: &mut Fields) -> Result<File, String> {
    let id = fields.needed("file")?.to_string();
    let kind = fields.number::<u8>("kind")?;
    match kind {
        Some(16..) => Err("kind: a number below 16 is needed".to_string()),
        _ => Ok(File { id, kind }),
    }
}

fn words(fields: &mut Fields) -> Result<Words, String> {
    let id = fields.needed("words")?.to_string();
    let size = fields.take("size").map(|value| {
        let sides = value.split_once('x').ok_or("size: no WxH")?;
        Ok::<_, String>((number("size", sides.0)?, number("size", sides.1)?))
    });
    Ok(Words {
        id,
        size: size.transpose()?,
        cut: fields.length("cut")?,
        flip: fields.number("flip")?,
    })
}

fn image(fields: &mut Fields) -> Result<Image, String> {
    if fields.has("words") {
        return words(fields).map(Image::Words);
    }
    if !fields.has("file") {
        return Err("no file= and no words=".to_string());
    }
    Ok(Image::File {
        file: file(fields)?,
        unpack: fields.needed_length("unpack")?,
    })
}

/// A number that is 0 or 1.
fn flag(fields: &mut Fields, key: &str) -> Result<Option<bool>, String> {
    match fields.number::<u8>(key)? {
        None => Ok(None),
        Some(number @ 0..=1) => Ok(Some(number == 1)),
        Some(_) => Err(format!("{key}: 0 or 1 is needed")),
    }
}

fn counts(value: &str) -> Result<Counts, String> {
    let unknown = || format!("counts: none of right, wrong:ROW:VALUE, len:N: {value}");
    match value.split(':').collect::<Vec<_>>()[..] {
        ["right"] => Ok(Counts::Right),
        ["wrong", row, value] => Ok(Counts::Wrong {
            row: number("counts", row)?,
            value: number("counts", value)?,
        }),
        ["len", value] => Ok(Counts::Length(length("counts", value)?)),
        _ => Err(unknown()),
    }
}

fn search(fields: &mut Fields) -> Result<Search, String> {
    let archive = match fields.take("entry") {
        None => false,
        Some("archive") => true,
        Some(other) => return Err(format!("entry: unknown: {other}")),
    };
    Ok(Search {
        image: image(fields)?,
        marks: fields.needed_length("marks")?,
        records: fields.needed_length("records")?,
        ellipse: flag(fields, "ellipse")?.unwrap_or(false),
        counts: fields.take("counts").map(counts).transpose()?,
        page: fields.length("page")?,
        archive,
    })
}

fn update(fields: &mut Fields) -> Result<Call, String> {
    Ok(Call::Update {
        words: words(fields)?,
        counts: counts(fields.needed("counts")?)?,
        x: fields.needed_number("x")?,
        y: fields.needed_number("y")?,
        black: flag(fields, "black")?.ok_or("no black=")?,
    })
}

/// `LAST/LENGTH:P,P,P,P/..`, eight lanes.
fn lanes(fields: &mut Fields) -> Result<Lanes, String> {
    let value = fields.needed("lanes")?;
    let (last, rest) = value.split_once('/').ok_or("lanes: no lane")?;
    let lane = |text: &str| {
        let (length, places) = text.split_once(':').ok_or("lanes: no LENGTH:P,P,P,P")?;
        Ok((number("lanes", length)?, numbers("lanes", places)?))
    };
    let all: Result<Vec<_>, String> = rest.split('/').map(lane).collect();
    let wrong = |list: Vec<_>| format!("lanes: {} lanes, not 8", list.len());
    Ok(Lanes {
        last: number("lanes", last)?,
        lanes: all?.try_into().map_err(wrong)?,
    })
}

#[cfg(test)]
mod tests;
