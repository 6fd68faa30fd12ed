//! The command line.

use std::ffi::OsString;

use hallview::characters::shown;

const USAGE: &str = "usage: hallview FLOOR [options]
  FLOOR                a drawing; or, if its name ends in .hall, a hall file, with or
                       without pairs behind it. - reads a drawing from standard input
  --route SOURCE GOAL  the route to draw, by floor numbers or by x,y
  --pair N             the N-th pair of the file, from 1 on (otherwise the first)
  --all                all pairs of the file: a table in the terminal
  --change CELL=COST   gives a cell, by floor number or by x,y, another cost, 0 to 255 or
                       blocked; may stand several times. The floor is drawn before and
                       after, and what is written is the changed one
  --svg FILE           writes the picture as SVG
  --pictures FOLDER    writes a picture for each pair asked for: pair-1.svg and so on
  --hall FILE          writes the hall file
  --input FILE         writes what hallroute reads: the hall file and the pairs asked for
  --drawing FILE       writes the drawing, with the pairs asked for
  --plain              no colours in the terminal
  --quiet              nothing in the terminal
  -h, --help           prints this and ends
In place of a FILE, - is standard output; then nothing else goes there.";

/// What is asked on the command line.
#[derive(Default)]
pub struct Options {
    /// The name of the floor's file.
    pub floor: String,
    pub route: Option<(String, String)>,
    pub pair: Option<usize>,
    pub all: bool,
    pub changes: Vec<String>,
    pub pictures: Option<String>,
    pub svg: Option<String>,
    pub hall: Option<String>,
    pub input: Option<String>,
    pub drawing: Option<String>,
    pub plain: bool,
    pub quiet: bool,
}

/// What the program is to do.
pub enum Task {
    Help(&'static str),
    Draw(Box<Options>),
}

/// Reads the words behind the program's name, or says what is wrong with them.
pub fn read(words: impl Iterator<Item = OsString>) -> Result<Task, String> {
    let words: Result<Vec<String>, OsString> = words.map(OsString::into_string).collect();
    let words = words.map_err(|_| wrong("a word is no text: UTF-8 is".to_string()))?;
    let mut words = words.into_iter();
    let mut options = Options::default();
    while let Some(word) = words.next() {
        let missing = || wrong(format!("behind {word} something is missing"));
        let mut value = || words.next().ok_or_else(missing);
        match word.as_str() {
            "-h" | "--help" => return Ok(Task::Help(USAGE)),
            "--route" => set(&word, &mut options.route, (value()?, value()?))?,
            "--pair" => set(&word, &mut options.pair, pair(&value()?)?)?,
            "--all" => options.all = true,
            "--change" => options.changes.push(value()?),
            "--pictures" => set(&word, &mut options.pictures, value()?)?,
            "--svg" => set(&word, &mut options.svg, value()?)?,
            "--hall" => set(&word, &mut options.hall, value()?)?,
            "--input" => set(&word, &mut options.input, value()?)?,
            "--drawing" => set(&word, &mut options.drawing, value()?)?,
            "--plain" => options.plain = true,
            "--quiet" => options.quiet = true,
            _ if word.starts_with('-') && word != "-" => {
                return Err(wrong(format!("there is no option {}", shown(&word))));
            }
            _ if !options.floor.is_empty() => {
                return Err(wrong(format!("{} is a second floor", shown(&word))));
            }
            _ => options.floor = word,
        }
    }
    check(&options)?;
    Ok(Task::Draw(Box::new(options)))
}

/// Whether the options go together.
fn check(options: &Options) -> Result<(), String> {
    let chosen = [options.route.is_some(), options.pair.is_some(), options.all];
    let problem = if options.floor.is_empty() {
        "no floor is named"
    } else if chosen.iter().filter(|is_chosen| **is_chosen).count() > 1 {
        "--route, --pair and --all each say which pairs: take one of them"
    } else if options.all && options.svg.is_some() {
        "--svg is the picture of one pair: with --all take --pictures FOLDER"
    } else {
        return Ok(());
    };
    Err(wrong(problem.to_string()))
}

/// Keeps what an option says; it says it once.
fn set<T>(word: &str, option: &mut Option<T>, value: T) -> Result<(), String> {
    match option.replace(value) {
        None => Ok(()),
        Some(_) => Err(wrong(format!("{word} stands twice"))),
    }
}

fn pair(text: &str) -> Result<usize, String> {
    text.parse()
        .map_err(|_| wrong(format!("--pair takes a number, not {}", shown(text))))
}

fn wrong(what: String) -> String {
    format!("{what}\n{USAGE}")
}
