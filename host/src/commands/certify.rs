//! `bullseye certify`: a blanked crop with its run and the theorems that make it the deleted crop's, in one text; or a redacted one.
use super::{Command, Searched, ellipse_help};
use crate::{
    arguments::{self, Arguments},
    blanking::blanked,
    certificate::{self, Certificate, Difference, Kind, PRODUCT},
    files,
    image::Image,
    output::{Problem, deliver, failed, of_file, print},
    redacting::redaction,
};
use bullseye::redact::Extent;
use std::{
    ffi::{OsStr, OsString},
    path::Path,
};

pub const COMMAND: Command = Command {
    name: "certify",
    what: "a blanked crop with its run and what proves it, as a text; or a redacted one; or the check of either",
    help: concat!(
        "\
Usage: bullseye certify [--ellipse] CROP [-o FILE]
       bullseye certify [--ellipse] --redacted [--least] CROP [-o FILE]
       bullseye certify --check FILE

Searches the crop, makes every pixel white that the search did not read, searches again, and writes a certificate when both agree: a
text with the blanked crop, its answer, counts and records, which pixels are kept, of how many, how many rows are kept from side to
side, the product's version, and the theorems that make it a proof. It says what it is worth: every crop that agrees at the kept
pixels gives this run, the deleted one among them.

--redacted writes the certificate of the crop as `bullseye redact` (with --least, `redact --least`) makes it: that crop, its answer,
counts and records. It is no theorem about the deleted crop, and says so: two runs of the proved search agree.

--check searches the certificate's crop again, as the certificate says with the ellipse check or without, and says whether every line
agrees. Of a certificate that another version wrote, lines that begin with # and the words of the answer are not compared.

",
        ellipse_help!(),
        "\
CROP is a crop file, FILE a certificate; - is standard input.
-o FILE  writes there instead of to standard output

Exit status: 0 written, or all agree; 1 the crop is refused, or a line or the two searches differ, or a file cannot be read or
written; 2 bad usage, or FILE is no certificate.

Example: bullseye certify examples/parcel.crop -o parcel.txt
"
    ),
    run,
};

fn run(args: &[OsString]) -> Result<bool, Problem> {
    let takes = ["-o", "--check", "--redacted", "--least", "--ellipse"];
    let (path, options) = arguments::one(args, &takes)?;
    let usage = |text: &str| Err(Problem::Usage(text.into()));
    match &options {
        Arguments { check: true, .. } if options.output.is_some() => {
            usage("--check writes no file for -o")
        }
        Arguments { check: true, .. } if options.redacted || options.least || options.ellipse => {
            usage("--check reads from FILE how it was made")
        }
        Arguments { check: true, .. } => check(&path),
        _ if options.least && !options.redacted => usage("--least stands with --redacted"),
        _ => write(&path, &options),
    }
}

/// Blanks or redacts a crop and writes its certificate.
fn write(path: &OsStr, options: &Arguments) -> Result<bool, Problem> {
    let name = one_line(&Path::new(path).display().to_string());
    let crop = Searched::of(path, options.ellipse)?;
    let text = match options.redacted {
        true => redacted(path, &name, &crop, options.extent())?,
        false => certificate(path, (PRODUCT, &name), crop)?,
    };
    deliver(text.as_bytes(), options.output.as_deref())?;
    Ok(true)
}

/// The certificate of a crop that is to be blanked; there is none when a search of the blanked one differs.
fn certificate(
    path: &OsStr,
    written: (&str, &str),
    Searched { image, run }: Searched,
) -> Result<String, Problem> {
    let failed = |reason: &str| Problem::Failed(of_file(path, reason));
    let done = blanked(image, &run).map_err(|unknown| failed(&unknown.to_string()))?;
    match (done.difference, Image::of_file(&done.file)) {
        (None, Ok(image)) => Ok(certificate::text(Kind::Blanked, written, &image, &run)),
        (Some(what), _) => Err(failed(&format!("the searches differ in {what}"))),
        (None, Err(refusal)) => Err(failed(&refusal)),
    }
}

/// The certificate of a crop that is to be redacted; there is none when a search of the redacted one differs.
fn redacted(path: &OsStr, name: &str, crop: &Searched, extent: Extent) -> Result<String, Problem> {
    let failed = |reason: &str| Problem::Failed(of_file(path, reason));
    let done = redaction(crop, extent).map_err(|unknown| failed(&unknown.to_string()))?;
    match done.difference {
        None => {
            let Searched { image, run } = Searched::of_bytes(path, &done.file, crop.run.ellipse)?;
            let written = (PRODUCT, name);
            Ok(certificate::text(Kind::Redacted, written, &image, &run))
        }
        Some(what) => Err(failed(&format!("the searches differ in {what}"))),
    }
}

/// A name without the marks that would end its line.
fn one_line(name: &str) -> String {
    name.replace(char::is_control, "\u{fffd}")
}

/// Makes a certificate again from its own crop, and says whether it is the same.
fn check(path: &OsStr) -> Result<bool, Problem> {
    let bytes =
        files::read_some(path, certificate::LONGEST).map_err(|error| failed(path, &error))?;
    let Certificate {
        product,
        name,
        kind,
        ellipse,
        file,
    } = certificate::parse(&bytes)
        .map_err(|reason| Problem::Trouble(of_file(path, &format!("no certificate: {reason}"))))?;
    let searched = Searched::of_bytes(path, &file, ellipse)?;
    let written = (product.as_str(), name.as_str());
    let given = match kind {
        Kind::Blanked => certificate(path, written, searched)?,
        Kind::Redacted => certificate::text(kind, written, &searched.image, &searched.run),
    };
    let said = String::from_utf8_lossy(&bytes);
    let difference = certificate::difference(&said, &given, product == PRODUCT);
    let verdict = difference.as_ref().map_or("all agree".into(), words);
    let versions = match product == PRODUCT {
        true => String::new(),
        false => format!(" (written by {product}, checked by {PRODUCT})"),
    };
    let line = format!("{}: {verdict}{versions}\n", Path::new(path).display());
    print(line.as_bytes())?;
    Ok(difference.is_none())
}

/// A difference in words.
fn words(difference: &Difference) -> String {
    let quoted = |line: &Option<String>| match line {
        Some(line) => format!("`{line}`"),
        None => "nothing".into(),
    };
    format!(
        "differs in {} line{}, first in line {}: it says {}, the search gives {}",
        difference.lines,
        if difference.lines == 1 { "" } else { "s" },
        difference.line,
        quoted(&difference.says),
        quoted(&difference.gives)
    )
}
