//! The staged walk against the relevancy walk: how many tickets of each family it makes shorter, and by how much, over tickets drawn by many seeds; then how
//! many instructions it takes for an entry, over the puzzles and the tickets of one seed. Usage: staged [--seed N].
mod callgrind;
#[path = "../tests/mutual.rs"]
mod mutual;
include!("modules.rs");

use engines::{Engine, Lent};
use means::Ratios;
use options::Options;
use puzzles::Puzzle;
use random::Random;
use reference::Ticket;
use walk::{Outcome, Verdict};

/// How many seeds are drawn from for lengths, from the one asked for on.
const SEEDS: u64 = 40;

/// Of each seed so many of rules that depend on each other, in so many layers at most.
const MUTUAL: [(&str, usize); 2] = [("mutual rules, 4 layers", 4), ("mutual rules, 8 layers", 8)];
const MUTUAL_TICKETS: u64 = 5;

/// Their limit where instructions are counted; the others have one of their own.
const LIMIT: u32 = 3_000;

/// For lengths a limit is so many times as high.
const HIGHER: u32 = 10;

const BOTH: [Engine; 2] = [Engine::Relevancy, Engine::Staged];

fn main() {
    let options = Options::read(&["--seed", "--program", "--input"]);
    let seed = options.seed();
    if let (Some(program), Some(input)) = (options.get("--program"), options.get("--input")) {
        let engine = BOTH.into_iter().find(|engine| engine.name() == program).expect("an engine");
        let puzzle = of_seed(seed).into_iter().find(|puzzle| puzzle.name == input).expect("a ticket");
        fit(&puzzle.ticket, engine);
        return;
    }
    lengths(seed);
    instructions(seed);
}

fn fit(ticket: &Ticket, engine: Engine) -> Outcome {
    Lent::new(ticket).call(engine, 1).0
}

fn of_seed(seed: u64) -> Vec<Puzzle> {
    [puzzles::all(), families::drawn(seed), mutual_rules(seed)].into_iter().flatten().collect()
}

fn mutual_rules(seed: u64) -> Vec<Puzzle> {
    let random = &mut Random::new(seed);
    let mut member = |family: &'static str, layers: usize, k: u64| {
        let ticket = Ticket { limit: LIMIT.to_be_bytes(), ..mutual::drawn(random, layers) };
        Puzzle { family, name: format!("{family} {seed}.{k}"), ticket }
    };
    MUTUAL.iter().flat_map(|(family, layers)| (0..MUTUAL_TICKETS).map(|k| member(family, *layers, k)).collect::<Vec<_>>()).collect()
}

/// The places of the relevancy walk and of the staged one, the root among them; none where both are cut.
fn places(ticket: &Ticket) -> Option<[u32; 2]> {
    let limit = u32::from_be_bytes(ticket.limit).saturating_mul(HIGHER);
    let ticket = Ticket { limit: limit.to_be_bytes(), ..ticket.clone() };
    let outcomes = BOTH.map(|engine| fit(&ticket, engine));
    let is_cut = |outcome: &Outcome| outcome.verdict == Verdict::Spent;
    if !outcomes.iter().any(is_cut) {
        assert!(outcomes[0].verdict == outcomes[1].verdict, "the verdicts contradict each other");
    }
    (!outcomes.iter().all(is_cut)).then(|| outcomes.map(|outcome| outcome.count + 1 + is_cut(&outcome) as u32))
}

fn lengths(seed: u64) {
    println!("places, by stages over by relevancy, of tickets drawn by the seeds {seed} to {}; a cut walk counts as one place more", seed + SEEDS - 1);
    println!("{:28} tickets  both cut  shorter   equal  longer    least  median    most", "");
    let mut of: Vec<(&str, Option<[u32; 2]>)> = puzzles::all().iter().map(|puzzle| ("puzzles", places(&puzzle.ticket))).collect();
    for seed in seed..seed + SEEDS {
        of.extend(of_seed(seed).iter().skip(puzzles::all().len()).map(|puzzle| (puzzle.family, places(&puzzle.ticket))));
    }
    let mut families: Vec<&str> = Vec::new();
    of.iter().for_each(|(family, _)| if !families.contains(family) { families.push(family) });
    for name in families {
        line(name, of.iter().filter(|(family, _)| *family == name).map(|(_, places)| *places).collect());
    }
    line("all", of.iter().map(|(_, places)| *places).collect());
}

fn line(name: &str, all: Vec<Option<[u32; 2]>>) {
    let ended: Vec<[u32; 2]> = all.iter().copied().flatten().collect();
    let many = |is_so: fn(&[u32; 2]) -> bool| ended.iter().filter(|places| is_so(places)).count();
    let [shorter, equal, longer] = [many(|[one, other]| other < one), many(|[one, other]| one == other), many(|[one, other]| other > one)];
    let mut ratios: Vec<f64> = ended.iter().map(|[one, other]| *other as f64 / *one as f64).collect();
    ratios.sort_by(f64::total_cmp);
    let [least, median, most] = if ratios.is_empty() { [f64::NAN; 3] } else { [ratios[0], ratios[ratios.len() / 2], ratios[ratios.len() - 1]] };
    println!("{name:28} {:7} {:9} {shorter:8} {equal:7} {longer:7} {least:8.3} {median:7.3} {most:7.3}", all.len(), all.len() - ended.len());
}

/// By callgrind: of the staged engine over the relevancy engine, for each place and for the whole ticket.
fn instructions(seed: u64) {
    let (puzzles, word) = (of_seed(seed), seed.to_string());
    let run = |puzzle, engine: Engine| -> Vec<&str> { vec!["--seed", &word, "--program", engine.name(), "--input", puzzle] };
    let runs: Vec<Vec<&str>> = puzzles.iter().flat_map(|puzzle| BOTH.map(|engine| run(&puzzle.name, engine))).collect();
    let counts = callgrind::count_each(&runs);
    let whole = |(puzzle, counts): (&Puzzle, &[u64])| (puzzle.family, counts[1] as f64 / counts[0] as f64);
    let places = |puzzle: &Puzzle, engine| fit(&puzzle.ticket, engine).count as f64 + 1.0;
    let each = |(puzzle, ratio): (&Puzzle, (&'static str, f64))| (ratio.0, ratio.1 * places(puzzle, BOTH[0]) / places(puzzle, BOTH[1]));
    let wholes: Vec<(&str, f64)> = puzzles.iter().zip(counts.chunks(2)).map(whole).collect();
    println!("instructions, by stages over by relevancy, of {} tickets of seed {seed}", puzzles.len());
    print_ratios("for each place", &Ratios::new(puzzles.iter().zip(wholes.iter().copied()).map(each)));
    print_ratios("for the whole", &Ratios::new(wholes));
}

fn print_ratios(what: &str, ratios: &Ratios<&str>) {
    let ((least, low), (most, high)) = (ratios.least(), ratios.most());
    println!("{what:15} geometric mean {:.2}, least {low:.2} ({least}), most {high:.2} ({most})", ratios.geometric_mean());
}
