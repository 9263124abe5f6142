//! `bench [--bars] [--plot FILE] [--plot-wide FILE] [--plot-branch FILE] [--rounds COUNT] [--graphs COUNT] [--part PART]`:
//! times and ratios as tables.
//!
//! The parts are `narrow` (edition 1 against the Rust), `editions` (edition 2
//! against edition 1 on the same content), `scale` (edition 2 against the
//! Rust, up to its largest graph), `order` (the check of both editions with
//! links in any order against plain Rust), `unfounded` (the pass with every atom
//! marked against the pass), `pairs` (two equal graphs of edition 1 compared,
//! against one check), `within` (the pass within an allowance against the pass),
//! `open` (the call on undecided bits against the lone pass) and `branch` (search
//! branches of 64 pairs of masks against lone calls and the Rust on one scratch);
//! without `--part` all are run. With `--bars` it
//! ends with 1 if a bar does not hold; with `--plot` it writes the picture of
//! `narrow`, with `--plot-wide` that of `scale`, with `--plot-branch` that of `branch`; with `--graphs` there are so many
//! graphs of each size of edition 1.

use std::process::ExitCode;

use bench::measure::{EDITION_1, THEORY};
use bench::report::Bar;
use bench::{branches, caches, inputs, measure, open, plot, report};

const USAGE: &str = "bench [--bars] [--plot FILE] [--plot-wide FILE] [--plot-branch FILE] [--rounds COUNT] [--graphs COUNT] \
                     [--part narrow|editions|scale|order|unfounded|pairs|within|open|branch]";

struct Asked {
    bars: bool,
    plot: Option<String>,
    plot_wide: Option<String>,
    plot_branch: Option<String>,
    rounds: usize,
    graphs: Option<usize>,
    part: Option<Part>,
}

#[derive(Clone, Copy, PartialEq, Eq)]
enum Part {
    Narrow,
    Within,
    Editions,
    Scale,
    Order,
    Unfounded,
    Pairs,
    Open,
    Branch,
}

impl Part {
    const ALL: [Self; 9] = [
        Self::Narrow,
        Self::Editions,
        Self::Scale,
        Self::Order,
        Self::Unfounded,
        Self::Pairs,
        Self::Within,
        Self::Open,
        Self::Branch,
    ];

    fn of(word: &str) -> Option<Self> {
        match word {
            "narrow" => Some(Self::Narrow),
            "within" => Some(Self::Within),
            "editions" => Some(Self::Editions),
            "scale" => Some(Self::Scale),
            "order" => Some(Self::Order),
            "unfounded" => Some(Self::Unfounded),
            "pairs" => Some(Self::Pairs),
            "open" => Some(Self::Open),
            "branch" => Some(Self::Branch),
            _ => None,
        }
    }

    /// Tables are printed, pictures written; the bars are for the end.
    fn run(self, asked: &Asked) -> std::io::Result<Vec<Bar>> {
        let draw = |file: &Option<String>, svg: &dyn Fn() -> String| {
            file.as_ref()
                .map_or(Ok(()), |file| std::fs::write(file, svg()))
        };
        match self {
            Self::Narrow => {
                let measured = measure::all(&inputs::all::<u16>(asked.graphs), asked.rounds);
                println!("Edition 1 against the Rust\n");
                println!("{}", report::times(&measured, THEORY));
                println!("{}", report::parts(&measured));
                println!("{}", report::befores(&measured));
                draw(&asked.plot, &|| plot::svg(&measured))?;
                Ok(report::bars(&measured))
            }
            Self::Within => {
                let measured = measure::within(asked.graphs, asked.rounds);
                println!("The pass within an allowance, against the pass\n");
                println!("{}", report::within(&measured));
                Ok(report::within_bars(&measured))
            }
            Self::Editions => {
                let measured = measure::editions(asked.graphs, asked.rounds);
                println!("Edition 2 against edition 1 on the same content\n");
                println!("{}", report::times(&measured, EDITION_1));
                Ok(report::edition_bars(&measured))
            }
            Self::Scale => {
                let measured = measure::scale(asked.rounds);
                let caches = caches::all();
                println!("Edition 2 against the Rust\n");
                println!("{}", report::times(&measured, THEORY));
                println!("{}", report::parts(&measured));
                println!("{}", report::befores(&measured));
                println!("{}", report::caches(&caches));
                draw(&asked.plot_wide, &|| plot::wide(&measured, &caches))?;
                Ok(report::scale_bars(&measured))
            }
            Self::Order => {
                let wide = [&inputs::SIZES[..], &inputs::WIDE_SIZES[1..]].concat();
                let editions = [
                    (1, measure::any_order::<u16>(&inputs::SIZES, asked.rounds)),
                    (2, measure::any_order::<u32>(&wide, asked.rounds)),
                ];
                println!("The check with links in any order, against plain Rust\n");
                println!("{}", report::any_order(&editions));
                Ok(report::any_order_bars(&editions))
            }
            Self::Unfounded => {
                let measured = measure::unfounded(asked.graphs, asked.rounds);
                println!("The pass with every atom marked, against the pass\n");
                println!("{}", report::unfounded(&measured));
                Ok(report::unfounded_bars(&measured))
            }
            Self::Pairs => {
                let each = measure::pairs(&inputs::SIZES, asked.rounds);
                println!("Two equal graphs compared, against one check\n");
                println!("{}", report::pairs(&each));
                Ok(report::pair_bars(&each))
            }
            Self::Open => {
                let rows = open::all(asked.rounds);
                println!("The call on undecided bits against the lone pass\n");
                println!("{}", open::table(&rows));
                Ok(open::bars(&rows))
            }
            Self::Branch => {
                let measured = branches::all(asked.graphs, asked.rounds);
                println!("Search branches of 64 pairs, against lone calls and the Rust\n");
                println!("{}", report::branches(&measured));
                draw(&asked.plot_branch, &|| {
                    plot::branch(&measured, branches::CUTS[1])
                })?;
                Ok(report::branch_bars(&measured))
            }
        }
    }
}

fn count(word: Option<String>) -> Option<usize> {
    word?.parse().ok().filter(|&count| count > 0)
}

fn asked() -> Option<Asked> {
    let mut asked = Asked {
        bars: false,
        plot: None,
        plot_wide: None,
        plot_branch: None,
        rounds: 1_000,
        graphs: None,
        part: None,
    };
    let mut words = std::env::args().skip(1);
    while let Some(word) = words.next() {
        match word.as_str() {
            "--bars" => asked.bars = true,
            "--plot" => asked.plot = Some(words.next()?),
            "--plot-wide" => asked.plot_wide = Some(words.next()?),
            "--plot-branch" => asked.plot_branch = Some(words.next()?),
            "--rounds" => asked.rounds = count(words.next())?,
            "--graphs" => asked.graphs = Some(count(words.next())?),
            "--part" => asked.part = Some(Part::of(&words.next()?)?),
            _ => return None,
        }
    }
    Some(asked)
}

fn main() -> ExitCode {
    let Some(asked) = asked() else {
        eprintln!("{USAGE}");
        return ExitCode::from(2);
    };
    if cfg!(debug_assertions) {
        eprintln!("the Rust is measured with its checks on: use --profile speed");
    }
    let mut bars = Vec::new();
    for part in Part::ALL {
        if asked.part.is_none_or(|one| one == part) {
            match part.run(&asked) {
                Ok(more) => bars.extend(more),
                Err(error) => {
                    eprintln!("a picture was not written: {error}");
                    return ExitCode::from(2);
                }
            }
        }
    }
    for bar in &bars {
        let says = if bar.holds() {
            "holds"
        } else {
            "DOES NOT HOLD"
        };
        println!(
            "{}: {:.2}, at most {:.2}: {says}",
            bar.what, bar.figure, bar.most
        );
    }
    if asked.bars && !bars.iter().all(Bar::holds) {
        return ExitCode::FAILURE;
    }
    ExitCode::SUCCESS
}
