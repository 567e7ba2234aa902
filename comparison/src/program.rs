//! Pages for random standard inputs against the model's: those of the
//! programs `reduce` and `payee`.

use std::io::{self, Write};
use std::ops::Range;
use std::path::{Path, PathBuf};
use std::process::{Command, Stdio};

use crate::compare::{made_small, Difference};
use crate::draft::Case;
use crate::model::{page_of, Form};
use crate::random;

/// What has a page for every standard input, of lines and of texts.
pub trait Pages {
    fn page(&self, form: Form, input: &[u8]) -> io::Result<Vec<u8>>;

    /// What differs in the page of a case. A case that no input can state, its
    /// book or line being too long to be announced, has none.
    fn check(&self, case: &Case) -> Option<String> {
        let input = case.input()?;
        let due = page_of(case.form, &input);
        match self.page(case.form, &input) {
            Ok(found) => (found != due).then(|| {
                let [due, found] = [due, found].map(|page| shown(&page));
                format!("page\n  due   {due}\n  found {found}")
            }),
            Err(error) => Some(format!("page\n  the program has none: {error}")),
        }
    }
}

/// Where the two programs are.
pub struct Programs {
    reduce: PathBuf,
    payee: PathBuf,
}

impl Programs {
    /// The programs of a folder; both must be there.
    pub fn of(folder: &Path) -> io::Result<Programs> {
        let named = |name: &str| {
            let path = folder.join(name);
            match path.is_file() {
                true => Ok(path),
                false => Err(io::Error::other(format!("no program {}", path.display()))),
            }
        };
        Ok(Programs {
            reduce: named("reduce")?,
            payee: named("payee")?,
        })
    }
}

impl Pages for Programs {
    fn page(&self, form: Form, input: &[u8]) -> io::Result<Vec<u8>> {
        let program = match form {
            Form::Line => &self.reduce,
            Form::Text => &self.payee,
        };
        let mut child = Command::new(program)
            .stdin(Stdio::piped())
            .stdout(Stdio::piped())
            .spawn()?;
        // A program that stops reading is told by its page.
        let _ = child.stdin.take().map(|mut stdin| stdin.write_all(input));
        let done = child.wait_with_output()?;
        match done.status.success() {
            true => Ok(done.stdout),
            false => Err(io::Error::other(done.status.to_string())),
        }
    }
}

fn shown(page: &[u8]) -> String {
    String::from_utf8_lossy(page).escape_debug().to_string()
}

/// Compares the numbered cases of a seed up to the first difference; answers
/// how many were compared.
pub fn compare_pages(
    subject: &dyn Pages,
    seed: u64,
    numbers: Range<u64>,
) -> (u64, Option<Difference>) {
    let mut pages = 0;
    for number in numbers {
        let case = random::numbered(seed, number);
        pages += u64::from(case.input().is_some());
        if subject.check(&case).is_some() {
            let difference = made_small(number, case, &mut |case| subject.check(case));
            return (pages, Some(difference));
        }
    }
    (pages, None)
}
