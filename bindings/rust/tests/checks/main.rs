//! The checks of the crate, over the archive. Each comparison is counted; the last line is 'N passed, M failed'.
//!   checks [TURNS [SEED]]   TURNS random turns are made both ways (20000 if not said), a quarter of it random settings, and as
//!                           many turns of a receiver and texts of a packed table

mod arrivals;
mod backups;
mod calls;
mod closings;
mod damaged;
mod dice;
mod edits;
mod fragments;
mod life;
mod lines;
mod locks;
mod marked;
mod places;
mod plain;
mod receiver;
mod record;
mod same;
mod settings;
mod site;
mod step;
mod tally;
mod texts;
mod words;

/// A part that ends early, at something that should have been done and was not, has failed once more. The others are still run.
fn run(part: &str, all: impl FnOnce() + std::panic::UnwindSafe) {
    tally::check(std::panic::catch_unwind(all).is_ok(), &format!("{part} came to its end"));
}

fn main() {
    let numbers: Vec<u64> = std::env::args().skip(1).filter_map(|word| word.parse().ok()).collect();
    let parts: [(&str, fn()); 11] = [
        ("calls", calls::all),
        ("edits", edits::all),
        ("life", life::all),
        ("locks", locks::all),
        ("words", words::all),
        ("marked", marked::all),
        ("places", places::all),
        ("settings", settings::all),
        ("fragments", fragments::all),
        ("closings", closings::all),
        ("texts", texts::all),
    ];
    let mut before = 0;
    let mut say = |part: &str| {
        let (passed, failed) = tally::counts();
        println!("{part}: {}", passed + failed - before);
        before = passed + failed;
    };
    for (part, all) in parts {
        run(part, all);
        say(part);
    }
    let (turns, seed) = (numbers.first().copied().unwrap_or(20_000), numbers.get(1).copied().unwrap_or(1));
    run("same", move || same::all(turns, seed));
    say("same");
    run("damaged", move || damaged::all(turns / 4, seed));
    say("damaged");
    run("arrivals", move || arrivals::all(turns / 4, seed));
    say("arrivals");
    run("backups", move || backups::all(turns / 4, seed));
    say("backups");
    let (passed, failed) = tally::counts();
    println!("{passed} passed, {failed} failed");
    std::process::exit(i32::from(failed > 0));
}
