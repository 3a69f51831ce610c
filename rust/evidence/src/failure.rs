//! What a comparison prints where it fails: the seed and the round, the call, the first word that differs and the file in which the
//! log was left.

use crate::random::Random;
use std::fmt::Display;
use std::path::PathBuf;

/// A call on a log, as a failure names it.
#[derive(Clone, Copy, Debug)]
pub struct Call<'a> {
    /// The function called.
    pub name: &'static str,
    /// What the log and the arguments were made from.
    pub random: &'a Random,
    /// The log.
    pub log: &'a [u8],
    /// The numbers that the call was given and the lengths of its slices, each with its name.
    pub arguments: &'a [(&'static str, u64)],
}

/// The first word that is not as expected.
#[derive(Clone, Debug)]
pub struct Difference {
    name: String,
    expected: u64,
    found: u64,
    /// How many words of the same slice are not as expected, this one included.
    words: usize,
}

/// The difference of a number, if it is not as expected.
pub fn number(name: &str, found: u32, expected: u32) -> Option<Difference> {
    (found != expected).then(|| Difference {
        name: name.to_string(),
        expected: expected.into(),
        found: found.into(),
        words: 1,
    })
}

/// The first difference of words, if they are not all as expected. The name is that of the word at an index.
pub fn words<T: Copy + PartialEq + Into<u64>>(
    name: impl Fn(usize) -> String,
    found: &[T],
    expected: &[T],
) -> Option<Difference> {
    assert_eq!(found.len(), expected.len(), "words to compare");
    // Quick where nothing differs.
    if found == expected {
        return None;
    }
    let mut differing = (0..found.len()).filter(|&at| found[at] != expected[at]);
    let first = differing.next()?;
    Some(Difference {
        name: name(first),
        expected: expected[first].into(),
        found: found[first].into(),
        words: 1 + differing.count(),
    })
}

/// What the words of a slice are.
#[derive(Clone, Copy, Debug, PartialEq)]
pub enum Meaning {
    /// One for each worker, or any.
    Plain,
    /// Cut, start and identifier of each worker.
    Plan,
    /// Words with these names.
    Named(&'static [&'static str]),
    /// For each step of a list its answer and this many positions.
    Steps(usize),
}

impl Meaning {
    /// The name of the word at an index of a slice.
    pub fn word(self, slice: &str, index: usize) -> String {
        let word = format!("{slice}[{index}]");
        match self {
            Meaning::Plain => word,
            Meaning::Plan => {
                let name = ["cut", "start", "identifier"][index % 3];
                format!("{word}, the {name} of worker {}", index / 3)
            }
            Meaning::Named(names) => match names.get(index) {
                Some(name) => format!("{word}, the {name}"),
                None => word,
            },
            Meaning::Steps(workers) => {
                let step = index / (workers + 1);
                match index % (workers + 1) {
                    0 => format!("{word}, the answer of step {step} of the list"),
                    after => format!(
                        "{word}, the position of worker {} after step {step} of the list",
                        after - 1
                    ),
                }
            }
        }
    }
}

impl Call<'_> {
    /// Fails where there is a difference, with the first.
    pub fn same<const N: usize>(&self, differences: [Option<Difference>; N]) {
        let Some(first) = differences.into_iter().flatten().next() else {
            return;
        };
        let others = match first.words {
            1 => String::new(),
            words => format!(", and {} more in this slice", words - 1),
        };
        let Difference {
            name,
            expected,
            found,
            ..
        } = first;
        self.fail(&format!(
            "{name}: expected {expected}, found {found}{others}"
        ));
    }

    /// Fails where a number that the call returned is not as expected.
    pub fn returned(&self, found: u32, expected: u32) {
        self.same([number("number returned", found, expected)]);
    }

    /// Fails where a condition does not hold.
    pub fn holds(&self, condition: bool, what: impl FnOnce() -> String) {
        if !condition {
            self.fail(&what());
        }
    }

    /// What the call gave; fails where it was refused.
    pub fn accepted<T, E: Display>(&self, result: Result<T, E>) -> T {
        result.unwrap_or_else(|refusal| self.fail(&format!("refused: {refusal}")))
    }

    fn fail(&self, what: &str) -> ! {
        let arguments: Vec<String> = self
            .arguments
            .iter()
            .map(|(name, value)| format!("{name} {value}"))
            .collect();
        let file = file();
        let left = match std::fs::write(&file, self.log) {
            Ok(()) => format!("left in {}", file.display()),
            Err(error) => format!("not left in {}: {error}", file.display()),
        };
        panic!(
            "{} did something else than expected\n  round  {}\n  call   {}({})\n  first  {what}\n  log    {} bytes, {left}",
            self.name,
            self.random,
            self.name,
            arguments.join(", "),
            self.log.len(),
        );
    }
}

/// A file of this thread's own.
fn file() -> PathBuf {
    let thread = format!("{:?}", std::thread::current().id());
    let thread: String = thread.chars().filter(char::is_ascii_digit).collect();
    let process = std::process::id();
    std::env::temp_dir().join(format!("planner-mismatch-{process}-{thread}.log"))
}
