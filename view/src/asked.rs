//! What is asked: the pairs, their cards, changes, and what is written of them.

use std::env;
use std::io::{self, IsTerminal};
use std::path::Path;

use hallview::card::Card;
use hallview::changes::{self, Change, Moment};
use hallview::characters::shown;
use hallview::drawing::{self, Drawn};
use hallview::hall::Hall;
use hallview::scene::Scene;
use hallview::words::counted;
use hallview::{gaps, hall_file, svg, table, terminal};

use crate::input;
use crate::options::Options;
use crate::output::{FOLDER, Output};

/// A hall, and the cards of the pairs that are asked for.
struct Answered {
    hall: Hall,
    cards: Vec<Card>,
}

impl Answered {
    fn of(hall: Hall, pairs: &[(usize, usize)]) -> Answered {
        let cards = pairs.iter().map(|pair| Card::of(&hall, *pair));
        Answered {
            cards: cards.collect(),
            hall,
        }
    }
}

/// A floor with the pairs that are asked for, and the cards of those.
pub struct Asked {
    /// The floor with its changes.
    drawn: Drawn,
    changes: Vec<Change>,
    /// The hall as it was before the changes, if there are any, and as it is now.
    before: Option<Answered>,
    now: Answered,
    /// How many pairs came with the floor.
    given: usize,
    /// The name of the floor's file, without folders.
    name: Option<String>,
    planned: Option<String>,
    pub warnings: Vec<String>,
}

impl Asked {
    pub fn of(options: &Options, mut drawn: Drawn) -> Result<Asked, String> {
        let given = drawn.pairs.len();
        drawn.pairs = pairs(options, &drawn)?;
        let changes = changes::read(&drawn.floor, &options.changes)?;
        let read = Hall::build(drawn.floor);
        let hall = read.changed(&changes)?;
        drawn.floor = hall.floor.clone();
        let warnings = [gaps::warning(&hall, &drawn), changes::warning(&hall)];
        let name = Path::new(&options.floor).file_name();
        let name = name.filter(|_| options.floor != "-");
        Ok(Asked {
            before: (!changes.is_empty()).then(|| Answered::of(read, &drawn.pairs)),
            now: Answered::of(hall, &drawn.pairs),
            name: name.map(|name| shown(&name.to_string_lossy())),
            planned: drawn.planned(),
            warnings: warnings.into_iter().flatten().collect(),
            changes,
            given,
            drawn,
        })
    }

    /// What is written: the files asked for, then what the terminal shows, unless it is not
    /// wanted or one of the files goes there.
    pub fn outputs<'a>(&'a self, options: &'a Options) -> Vec<Output<'a>> {
        let files = [
            file("--hall", &options.hall, || self.now.hall.file()),
            file("--input", &options.input, || self.input()),
            file("--drawing", &options.drawing, || {
                drawing::write(&self.drawn).into_bytes()
            }),
            file("--svg", &options.svg, || self.picture(0)),
        ];
        let mut outputs: Vec<Output> = files.into_iter().flatten().collect();
        outputs.extend(self.pictures(options));
        if !options.quiet && !outputs.iter().any(Output::is_standard) {
            let shown = move || self.shown(options).into_bytes();
            outputs.push(Output::new("what the terminal shows", "-", shown));
        }
        outputs
    }

    /// What `hallroute` reads.
    fn input(&self) -> Vec<u8> {
        let pairs = self.drawn.pairs.iter();
        let pairs = pairs.copied().flat_map(hall_file::write_pair);
        self.now.hall.file().into_iter().chain(pairs).collect()
    }

    /// The hall at each moment there is.
    fn moments(&self) -> Vec<(Moment<'_>, &Answered)> {
        match &self.before {
            None => vec![(Moment::Only, &self.now)],
            Some(before) => vec![
                (Moment::Before(&self.changes), before),
                (Moment::After(&self.changes), &self.now),
            ],
        }
    }

    /// What is drawn of a pair, if there is one at this place, at each moment.
    fn scenes(&self, at: usize) -> Vec<Scene<'_>> {
        let moments = self.moments().into_iter();
        moments
            .map(|(moment, answered)| Scene {
                hall: &answered.hall,
                card: answered.cards.get(at),
                moment,
                name: self.name.as_deref(),
                planned: self.planned.as_deref(),
                warnings: match moment {
                    Moment::Before(_) => &[],
                    _ => &self.warnings,
                },
            })
            .collect()
    }

    fn picture(&self, at: usize) -> Vec<u8> {
        svg::draw_each(&self.scenes(at)).into_bytes()
    }

    /// A picture for each pair.
    fn pictures<'a>(&'a self, options: &'a Options) -> Vec<Output<'a>> {
        let Some(folder) = &options.pictures else {
            return vec![];
        };
        let first = options.pair.unwrap_or(1);
        (0..self.drawn.pairs.len())
            .map(|at| {
                let path = Path::new(folder).join(format!("pair-{}.svg", first + at));
                let draw = move || self.picture(at);
                Output::new(FOLDER, &path.to_string_lossy(), draw)
            })
            .collect()
    }

    /// What the terminal shows.
    fn shown(&self, options: &Options) -> String {
        if options.all {
            return self.tables();
        }
        let colours =
            !options.plain && io::stdout().is_terminal() && env::var_os("NO_COLOR").is_none();
        let scenes = self.scenes(0).into_iter();
        let drawn: Vec<String> = scenes.map(|scene| terminal::draw(scene, colours)).collect();
        let drawn = drawn.join("\n");
        let is_chosen = options.route.is_some() || options.pair.is_some();
        if self.given < 2 || is_chosen {
            return drawn;
        }
        let given = self.given;
        drawn + &format!("\nThis is pair 1 of {given}; --pair 2 shows the next, --all lists all.\n")
    }

    /// The pairs as a table for each moment.
    fn tables(&self) -> String {
        let moments = self.moments().into_iter();
        let table = |(moment, answered): (Moment, &Answered)| {
            let hall = &answered.hall;
            terminal::heading(moment)
                + &table::draw(hall, &answered.cards)
                + &terminal::told(moment, hall)
        };
        moments.map(table).collect::<Vec<String>>().join("\n")
    }
}

fn file<'a>(
    option: &'static str,
    name: &Option<String>,
    bytes: impl Fn() -> Vec<u8> + 'a,
) -> Option<Output<'a>> {
    let name = name.as_ref()?;
    Some(Output::new(option, name, bytes))
}

/// The pairs that are asked for, by floor number.
fn pairs(options: &Options, drawn: &Drawn) -> Result<Vec<(usize, usize)>, String> {
    if let Some((source, goal)) = &options.route {
        let floor = &drawn.floor;
        return Ok(vec![(floor.named(source)?, floor.named(goal)?)]);
    }
    let name = input::shown_name(&options.floor);
    if options.all && drawn.pairs.is_empty() {
        return Err(format!("{name} has no pairs"));
    }
    if options.all {
        return Ok(drawn.pairs.clone());
    }
    let Some(wanted) = options.pair else {
        return Ok(drawn.pairs.first().copied().into_iter().collect());
    };
    let pair = wanted.checked_sub(1).and_then(|at| drawn.pairs.get(at));
    pair.map(|pair| vec![*pair]).ok_or(format!(
        "{name} has {}: there is no pair {wanted}",
        counted(drawn.pairs.len(), "pair")
    ))
}
