//! Cases in text: a call of an entry and all that is seen after it, on a line.
//!
//! `CALL key=value .. => key=value ..`: left of the arrow what the entry is given, right of it what is seen. A line that begins with `#`
//! or `|` is for the reader. Crops come from a second text with `ID HEX` on each line. Every byte of every lent buffer is [`LENT`]
//! before the call. Calls and keys that no entry here takes yet are known too: their lines are skipped.
//!
//! | Call | Keys |
//! |---|---|
//! | host, program | a file |
//! | search | an image; marks, records: words lent; ellipse=1, counts, page (bytes lent), entry=archive |
//! | cells | an image; cells: words lent |
//! | unpack | a file with unpack |
//! | fill | words; length: entries lent |
//! | update | words; counts, x, y, black (0 or 1) |
//! | add | totals (five), answer, class |
//! | charge | totals, rates (five) |
//! | submit | lanes, lane, crop |
//! | take | lanes |
//!
//! An image is a file, `file=ID` with `kind=K` for the upper bits of its first byte and `unpack=N` words to unpack into, or
//! `words=ID` with `size=WxH` for the dimensions handed over, `cut=N` for the length and `flip=B` for one bit. Counts are `right`,
//! `wrong:ROW:VALUE` or `len:N`; lanes `LAST/LENGTH:P,P,P,P/..`, eight of them. A buffer is seen as `LENGTH:HASH` ([`hash`]).

mod call;
mod fields;
mod hash;
mod run;
mod seen;
mod stock;
mod text;

pub use call::{Call, Counts, File, Image, Lanes, Search, Words};
pub use hash::{hash, hash_u32, hash_u64};
pub use run::{Entries, Program, run};
pub use seen::{Key, Seen};
pub use stock::Stock;
pub use text::{Problem, Verdict, compared, written};

/// Each byte of a lent buffer before the call.
pub const LENT: u8 = 0xa5;
