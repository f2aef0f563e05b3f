//! A program of the product, asked streams of requests, each in a run of its own,
//! and its lines held against those that must be answered.

use crate::hex_row;
use std::io::{self, Read as _, Write as _};
use std::process::{Command, ExitCode, ExitStatus, Stdio};
use std::time::{Duration, Instant};

/// A program answers `unread` to an image of more words, and then ends.
pub const LONGEST_IMAGE: usize = 131_072;

const DEFAULT_COUNT: usize = 100_000;
const DEFAULT_SEED: u64 = 2_026;

/// Requests for one run of the program: what has to be kept stays small, however
/// long the program holds back its lines.
const IN_ONE_STREAM: usize = 2_000;

/// Differences that are shown; all are counted.
pub const SHOWN: usize = 5;

/// An image of more words is not shown in hex.
const SHOWN_WORDS: usize = 16_384;

/// Of a longer line only the words from the first difference on are shown, and so
/// many of them.
const SHOWN_LINE: usize = 120;
const SHOWN_FROM_DIFFERENCE: usize = 8;

/// So often a comparison says how far it is.
pub const PROGRESS: Duration = Duration::from_secs(10);

pub fn count_and_seed(options: &[String]) -> Option<(usize, u64)> {
    match options {
        [] => Some((DEFAULT_COUNT, DEFAULT_SEED)),
        [count] => Some((count.parse().ok()?, DEFAULT_SEED)),
        [count, seed] => Some((count.parse().ok()?, seed.parse().ok()?)),
        _ => None,
    }
}

/// Words as they stand in a stream, "most significant byte first".
pub fn bytes_of(words: &[u32]) -> Vec<u8> {
    words.iter().flat_map(|word| word.to_be_bytes()).collect()
}

// ---- What is asked -------------------------------------------------------

/// A request as it stands in the stream, and the lines that must be answered.
pub struct Asked {
    pub bytes: Vec<u8>,
    /// How many words of it stand before the image.
    pub head_words: usize,
    pub expected: String,
    /// How the request was made.
    pub made: String,
    /// The heading under which it is counted, by its number.
    pub heading: usize,
    /// What is wrong before any answer is there: the one who says what is expected
    /// is at odds with the maker of the request.
    pub at_odds: Option<String>,
    /// Makes the request whose answer shows more, where there is one.
    pub closer: Option<Box<dyn Fn() -> Asked>>,
}

impl Asked {
    /// What ends the answers with `unread`.
    pub fn unread(bytes: Vec<u8>, made: &str, heading: usize) -> Asked {
        Asked {
            bytes,
            head_words: 1,
            expected: "unread".to_string(),
            made: made.to_string(),
            heading,
            at_odds: None,
            closer: None,
        }
    }

    /// This and another request about the same image, asked as one.
    #[cfg(original)]
    pub fn and(self, other: Asked) -> Asked {
        let closer = self.closer.zip(other.closer);
        Asked {
            bytes: [self.bytes, other.bytes].concat(),
            expected: format!("{}\n{}", self.expected, other.expected),
            made: format!("{}; {}", self.made, other.made),
            closer: closer.map(|(one, two)| {
                let both: Box<dyn Fn() -> Asked> = Box::new(move || one().and(two()));
                both
            }),
            ..self
        }
    }

    /// The image in hex. The first word of every request is its number of words.
    fn image(&self) -> String {
        let words = self.bytes.chunks_exact(4);
        let words = words.map(|w| u32::from_be_bytes([w[0], w[1], w[2], w[3]]));
        let length = words.clone().next().unwrap_or(0) as usize;
        let words = words.skip(self.head_words).take(length);
        shown_image(&words.collect::<Vec<u32>>())
    }

    /// The first line in which an answer differs, as it is expected and as it is.
    fn difference(&self, answered: &[&str]) -> Option<[String; 2]> {
        let answered = answered.iter().copied().chain(std::iter::repeat("nothing"));
        let mut lines = self.expected.lines().zip(answered);
        let (expected, answered) = lines.find(|(expected, answered)| expected != answered)?;
        let mut words = expected.split(' ').zip(answered.split(' '));
        let alike = words.position(|(expected, answered)| expected != answered);
        Some([expected, answered].map(|line| shown_line(line, alike.unwrap_or(0))))
    }
}

/// An image in hex, unless it is long.
pub fn shown_image(words: &[u32]) -> String {
    match words.len() {
        0..=SHOWN_WORDS => hex_row(words),
        length => format!("{length} words"),
    }
}

/// A line, or where it is long, its words from this one on.
fn shown_line(line: &str, from: usize) -> String {
    if line.len() <= SHOWN_LINE || from == 0 {
        return line.chars().take(SHOWN_LINE).collect();
    }
    let mut words = line.split(' ');
    let name = words.next().unwrap_or_default();
    let shown: Vec<&str> = words.skip(from - 1).take(SHOWN_FROM_DIFFERENCE).collect();
    format!("{name} from word {}: {}", from - 1, shown.join(" "))
}

/// Requests cut into streams.
pub fn in_streams(mut asked: impl Iterator<Item = Asked>) -> impl Iterator<Item = Vec<Asked>> {
    std::iter::from_fn(move || {
        let stream: Vec<Asked> = asked.by_ref().take(IN_ONE_STREAM).collect();
        (!stream.is_empty()).then_some(stream)
    })
}

// ---- The program ---------------------------------------------------------

/// Gives the program this input; answers what it wrote and how it ended.
fn run(program: &[String], input: Vec<u8>) -> io::Result<(String, ExitStatus)> {
    let mut child = Command::new(&program[0])
        .args(&program[1..])
        .stdin(Stdio::piped())
        .stdout(Stdio::piped())
        .spawn()?;
    // A thread of its own writes: a program that answers before it has read
    // all would else wait for us while we wait for it. Its end closes the
    // input. A program that reads no further breaks the pipe, which shows in
    // what it leaves unanswered.
    let pipe = child.stdin.take();
    let writer = std::thread::spawn(move || pipe.map(|mut pipe| pipe.write_all(&input)));
    let mut text = Vec::new();
    if let Some(mut output) = child.stdout.take() {
        output.read_to_end(&mut text)?;
    }
    let _ = writer.join();
    Ok((String::from_utf8_lossy(&text).into_owned(), child.wait()?))
}

// ---- The comparison ------------------------------------------------------

pub struct Comparison {
    program: Vec<String>,
    /// What was asked under each heading.
    counts: Vec<(String, usize)>,
    differences: usize,
    /// What is wrong besides: a run that ended badly or wrote too much, or a
    /// request at odds with its maker.
    other_faults: usize,
    /// When something was last said about how far it is.
    told: Instant,
}

impl Comparison {
    /// With the program that this variable names, a word to a line; `oracle/run`
    /// sets it.
    pub fn with(variable: &str, headings: Vec<String>) -> Option<Comparison> {
        let program = std::env::var(variable).ok()?;
        Some(Comparison {
            program: program.lines().map(str::to_string).collect(),
            counts: headings.into_iter().map(|heading| (heading, 0)).collect(),
            differences: 0,
            other_faults: 0,
            told: Instant::now(),
        })
    }

    /// Asks stream after stream. A program that broke down is not asked further.
    pub fn ask_all(&mut self, streams: impl Iterator<Item = Vec<Asked>>) -> io::Result<()> {
        for stream in streams {
            self.ask(&stream)?;
            if self.other_faults > 0 {
                break;
            }
            if self.told.elapsed() >= PROGRESS {
                self.told = Instant::now();
                let (asked, differences) = (self.asked(), self.differences);
                eprintln!("asked so far: {asked}, differences: {differences}");
            }
        }
        Ok(())
    }

    /// Asks all of this in one run of the program.
    fn ask(&mut self, asked: &[Asked]) -> io::Result<()> {
        let input = asked.iter().flat_map(|one| one.bytes.clone()).collect();
        let (text, ended) = run(&self.program, input)?;
        let mut lines = text.lines();
        for one in asked {
            self.counts[one.heading].1 += 1;
            if let Some(what) = &one.at_odds {
                self.fault(what)?;
            }
            let wanted = one.expected.lines().count();
            let answered: Vec<&str> = lines.by_ref().take(wanted).collect();
            self.compare(one, &answered)?;
        }
        if let Some(line) = lines.next() {
            self.fault(&format!("the program wrote more than was asked: {line}"))?;
        }
        // The script that starts a program ends with 1 where `unread` is its first word.
        let unread = ended.code() == Some(1) && text.starts_with("unread");
        if !ended.success() && !unread {
            self.fault(&format!("the program ended with {ended}"))?;
        }
        Ok(())
    }

    fn compare(&mut self, one: &Asked, answered: &[&str]) -> io::Result<()> {
        let Some(difference) = one.difference(answered) else {
            return Ok(());
        };
        self.differences += 1;
        if self.differences > SHOWN {
            return Ok(());
        }
        let mut out = io::stdout();
        writeln!(out, "difference: {}", one.made)?;
        write_difference(difference)?;
        if let Some(closer) = &one.closer {
            self.look_closer(&closer())?;
        }
        writeln!(out, "image {}", one.image())
    }

    /// Asks alone what shows more.
    fn look_closer(&self, closer: &Asked) -> io::Result<()> {
        let (text, _) = run(&self.program, closer.bytes.clone())?;
        let answered: Vec<&str> = text.lines().collect();
        writeln!(io::stdout(), "in the long form:")?;
        match closer.difference(&answered) {
            Some(difference) => write_difference(difference),
            None => writeln!(io::stdout(), "no difference"),
        }
    }

    fn fault(&mut self, what: &str) -> io::Result<()> {
        self.other_faults += 1;
        match self.other_faults {
            1..=SHOWN => writeln!(io::stdout(), "fault: {what}"),
            _ => Ok(()),
        }
    }

    /// How many requests were asked.
    pub fn asked(&self) -> usize {
        self.counts.iter().map(|(_, count)| count).sum()
    }

    /// The counts, and a last line with the differences; `what` says of what.
    pub fn report(&self, what: &str) -> io::Result<ExitCode> {
        let mut out = io::stdout();
        for (heading, count) in &self.counts {
            writeln!(out, "{heading}: {count}")?;
        }
        writeln!(out, "{what}, differences: {}", self.differences)?;
        if self.other_faults > 0 {
            writeln!(out, "other faults: {}", self.other_faults)?;
        }
        match self.differences + self.other_faults {
            0 => Ok(ExitCode::SUCCESS),
            _ => Ok(ExitCode::FAILURE),
        }
    }
}

fn write_difference([expected, answered]: [String; 2]) -> io::Result<()> {
    writeln!(io::stdout(), "expected: {expected}\nanswered: {answered}")
}

/// Headings for these codes, and after them one for what cannot be read.
pub fn headings_by_code(codes: &[u32]) -> Vec<String> {
    let codes = codes.iter().map(|code| format!("code {code}"));
    codes.chain(["unread".to_string()]).collect()
}
