//! The two kinds of certificates, and what each is worth.

/// What was done to the crop of a certificate.
#[derive(Clone, Copy, Debug, PartialEq, Eq)]
pub enum Kind {
    Blanked,
    Redacted,
}

impl Kind {
    pub fn word(self) -> &'static str {
        match self {
            Kind::Blanked => "blanked",
            Kind::Redacted => "redacted",
        }
    }

    pub fn of_word(word: &str) -> Option<Self> {
        [Kind::Blanked, Kind::Redacted]
            .into_iter()
            .find(|kind| kind.word() == word)
    }

    /// What the certificate is worth. Each theorem and contract stands with its file, as docs/PROMISES.md has it.
    pub fn worth(self) -> &'static str {
        match self {
            Kind::Blanked => BLANKED,
            Kind::Redacted => REDACTED,
        }
    }

    /// What precedes the rows of the crop.
    pub fn crop(self) -> &'static str {
        match self {
            Kind::Blanked => {
                "blanked crop, in hexadecimal, its header and then a row to a line, 1 is black:"
            }
            Kind::Redacted => {
                "redacted crop, in hexadecimal, its header and then a row to a line, 1 is black:"
            }
        }
    }
}

const BLANKED: &str = "\
# What this proves
# A theorem: every crop of this size that is not refused and has the colours below at the kept pixels, searched with such records lent
# and, as here, with the ellipse check on or off (off where no line says that it is on), gives this run, whatever its other pixels are:
# the same answer and counts, the same word at each place of 400 records, and the same marks. It is proved for all such crops, not tried
# on some. The deleted crop is one of them: its own search marked the kept pixels, and only others were made white.
# By these theorems, which `rt ci` proves:
#   `runs_agree` (crates/detector/specs/Demand3.antt): two accepted runs over crops of one size, with equal records lent and under one
#     setting of the ellipse check, that agree at every bit marked by the first are one
#   `marked_when_steps_read` (crates/detector/specs/Demand3.antt): a bit is marked exactly when the steps of the search read it
#   `file_run_lem` (crates/detector/specs/Demand3.antt), `words_run_lem` (crates/detector/specs/Demand3.antt): each search of a crop
#     file, or of an image in words, that is not refused is such a run
# And by the equations of the entries, for every input:
#   `maxicode_search_file` (crates/tunnel/src/lib.rt): its report, records and marks are `file_run` (crates/detector/specs/Detector.antt)
#   `maxicode_search_words` (crates/tunnel/src/lib.rt): the same of words, `words_run` (crates/detector/specs/Detector.antt)
# Not part of the theorem: that the deleted crop had these colours at the kept pixels, for which whoever blanked it answers; the
# program that wrote this text; the prover and the compiler's back end (docs/PROMISES.md, What is assumed).
# Kept pixels can still be seen: a row kept from side to side shows whatever stood in it.
";

const REDACTED: &str = "\
# What this shows
# No theorem about the deleted crop: two runs of the proved search. The search of the crop from which this one was made, and the search of
# the crop below, with such records lent and, as here, with the ellipse check on or off (off where no line says that it is on), gave the
# same answer, found, kept, and word at each place of 400 records. Black pixels of the crop below were black in that crop, for which
# whoever redacted it answers.
# Another crop with these black pixels may give another result: a second bull's-eye beside the first changes the counts and can change
# the class. So this certificate cannot answer for what was deleted. A blanked crop can; it still shows half the rows of any text.
# What a search of the crop below gives is what a definition of its steps gives, for every input:
#   `maxicode_search_file` (crates/tunnel/src/lib.rt): its report, records and marks are `file_run` (crates/detector/specs/Detector.antt)
";
