//! The sets of crops that are timed.

use crops::RECORD_WORDS;
use oracle::generate::{self, Crop, Random};
use oracle::harness::steps::Image;
use oracle::{upright, vectors};

/// Records of a buffer, where a set needs no other number.
const RECORDS: usize = 100;

/// Crops of a generated family.
const HANDFUL: usize = 16;

pub struct Set {
    pub name: &'static str,
    pub crops: Vec<Crop>,
}

impl Set {
    fn of(name: &'static str, crops: Vec<Crop>) -> Self {
        Self { name, crops }
    }

    fn one(name: &'static str, crop: Crop) -> Self {
        Self::of(name, vec![crop])
    }

    /// The size of the one crop, or how many there are and how large on average.
    pub fn size(&self) -> String {
        if let [crop] = self.crops.as_slice() {
            return format!("{} × {}", crop.width, crop.height);
        }
        let pixels = |crop: &Crop| f64::from(crop.width * crop.height);
        let side = (self.crops.iter().map(pixels).sum::<f64>() / self.crops.len() as f64).sqrt();
        format!("{} of {side:.0}² px", self.crops.len())
    }
}

pub fn image(crop: &Crop) -> Image<'_> {
    Image {
        words: &crop.words,
        width: crop.width,
        height: crop.height,
    }
}

/// An image, pixel by pixel.
pub fn painted(width: u32, height: u32, black: impl Fn(u32, u32) -> bool) -> Crop {
    let mut words = vec![0; crops::image_words(width, height)];
    for y in 0..height {
        for x in (0..width).filter(|x| black(*x, y)) {
            crops::set_pixel(&mut words, width, x, y);
        }
    }
    Crop {
        family: "painted",
        width,
        height,
        words,
        capacity_words: RECORDS * RECORD_WORDS,
    }
}

/// Every bit by chance; a width without padding.
pub fn noise(width: u32, height: u32) -> Crop {
    assert_eq!(width % 64, 0, "no padding");
    let mut random = Random::new(1);
    let mut crop = painted(width, height, |_, _| false);
    crop.words.fill_with(|| random.next());
    crop
}

/// The images of Zint's symbols among the stored vectors.
pub fn zint() -> Vec<Crop> {
    let pack = include_bytes!("../../crates/replay/stdin");
    let image = |vector: vectors::Vector| {
        let (width, height) = crops::dimensions(&vector.file).expect("a whole file");
        let mut unpacked = painted(width, height, |_, _| false);
        crops::unpack(&vector.file, &mut unpacked.words);
        unpacked
    };
    (vectors::read(pack).into_iter())
        .filter(|vector| vector.name.starts_with("zint"))
        .map(image)
        .collect()
}

/// The first crops of a family that are as wide, with room for their candidates.
fn family(name: &'static str, least_width: u32) -> Vec<Crop> {
    (0..)
        .map(|seed| generate::family(name, seed))
        .filter(|crop| crop.width >= least_width)
        .map(|crop| with_room(crop, RECORDS))
        .take(HANDFUL)
        .collect()
}

pub fn with_room(crop: Crop, records: usize) -> Crop {
    Crop {
        capacity_words: records * RECORD_WORDS,
        ..crop
    }
}

/// Square eyes of single-pixel rings, fourteen pixels apart, twenty by twenty.
fn grid() -> Crop {
    let away = |place: u32| (place % 14).min(14 - place % 14);
    let eyes = painted(295, 295, |x, y| {
        let ring = away(x).max(away(y));
        let inside = (8..287).contains(&x) && (8..287).contains(&y);
        inside && ring % 2 == 1 && ring < 6
    });
    with_room(eyes, 400)
}

/// Two rows of crosses at the bottom: nothing stops a walk that leaves one between two arms, and many go up to row 0 and down again.
fn crosses() -> Crop {
    painted(192, 2048, |x, y| {
        let (across, down) = ((x % 20).abs_diff(12), (y % 48).abs_diff(32));
        let (least, most) = (across.min(down), across.max(down));
        let inside = x < 180 && (1936..2032).contains(&y);
        inside && least == 0 && most % 2 == 1 && most < 6
    })
}

/// Every window of eleven pixels is a candidate, so that the records are soon full.
fn checkerboard() -> Crop {
    with_room(painted(2048, 250, |x, y| (x + y) % 2 == 1), 1024)
}

/// Zint's upright symbols, each cut to its black pixels.
fn upright_symbols() -> Vec<Crop> {
    let image = |symbol: upright::Symbol| {
        let unpainted = painted(symbol.width, symbol.height, |_, _| false);
        Crop {
            words: symbol.words,
            ..unpainted
        }
    };
    upright::stored().into_iter().map(image).collect()
}

/// A crop with so many times as many columns and rows.
fn enlarged(crop: &Crop, times: u32) -> Crop {
    let black = |x, y| crops::pixel(&crop.words, crop.width, x / times, y / times);
    painted(crop.width * times, crop.height * times, black)
}

/// One colour and noise, wide and tall.
fn plain() -> Vec<Set> {
    let white = |_, _| false;
    let black = |_, _| true;
    vec![
        Set::one("blank, wide", painted(2048, 250, white)),
        Set::one("black, wide", painted(2048, 250, black)),
        Set::one("noise, wide", noise(2048, 250)),
        Set::one("blank, tall", painted(192, 2048, white)),
        Set::one("black, tall", painted(192, 2048, black)),
        Set::one("noise, tall", noise(192, 2048)),
    ]
}

/// The sets that are searched.
pub fn searched() -> Vec<Set> {
    let mut sets = vec![
        Set::of("noise", family("noise", 0)),
        Set::of("bull's-eyes", family("eyes", 0)),
        Set::of("symbols", family("symbols", 0)),
        Set::of("Zint's symbols", zint()),
        Set::of("large symbols", family("symbols", 400)),
    ];
    sets.extend(plain());
    sets.push(Set::one("grid of 400 eyes", grid()));
    sets.push(Set::one("checkerboard", checkerboard()));
    sets
}

/// The first crops of a family of the ellipse check, with room for their candidates.
fn for_ellipses(name: &'static str) -> Vec<Crop> {
    assert!(generate::ELLIPSES.contains(&name), "no family {name}");
    (0..)
        .map(generate::ellipse)
        .filter(|crop| crop.family == name)
        .map(|crop| with_room(crop, RECORDS))
        .take(HANDFUL)
        .collect()
}

/// The sets that are searched with the ellipse check: those that are searched, stretched eyes, and long walks.
pub fn checked() -> Vec<Set> {
    let mut sets = searched();
    sets.push(Set::of("stretched eyes", for_ellipses("stretched")));
    sets.push(Set::of(
        "eyes about four fifths",
        for_ellipses("four fifths"),
    ));
    sets.push(Set::of("eyes cut off", for_ellipses("cut off")));
    sets.push(Set::of("long eyes", for_ellipses("long")));
    sets.push(Set::one("crosses, tall", crosses()));
    sets
}

/// The sets whose cells are read.
pub fn read() -> Vec<Set> {
    let symbols = upright_symbols();
    let large = symbols.iter().map(|crop| enlarged(crop, 2)).collect();
    let mut sets = vec![
        Set::of("Zint's upright symbols", symbols),
        Set::of("the same, twice as large", large),
        Set::of(
            "rectangles of many kinds",
            (0..100).map(generate::filling).collect(),
        ),
        Set::one("blank, small", painted(33, 33, |_, _| false)),
        Set::one("black, small", painted(33, 33, |_, _| true)),
    ];
    sets.extend(plain());
    // Where the rectangle takes longest: most words are 0, before the first black pixel or to both sides of it.
    let pixel = painted(2048, 250, |x, y| (x, y) == (1024, 249));
    sets.push(Set::one("one pixel, wide", pixel));
    let column = painted(2048, 250, |x, _| x == 1024);
    sets.push(Set::one("one column, wide", column));
    sets
}
