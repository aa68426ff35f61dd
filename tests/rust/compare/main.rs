//! Compares the archive with gix-ref's own code. See docs/DIFFERENCES.md, and tools/compare-rust for how it is called.

mod answer;
mod archive;
mod backups;
mod build;
mod case;
mod conflicts;
mod crossed;
mod dice;
mod differences;
mod doubles;
mod fragments;
mod git;
mod image;
mod judge;
mod mended;
mod named;
mod original;
mod places;
mod product;
mod random;
mod record;
mod replay;
mod runs;
mod shown;
mod shrink;
mod singles;
mod site;
mod speed;
mod tally;
mod text;

fn main() {
    silence_expected_panics();
    let site = site::Site::new().expect("a directory can be made");
    let arguments: Vec<String> = std::env::args().skip(1).collect();
    let words: Vec<&str> = arguments.iter().map(String::as_str).collect();
    let number = |text: &str| text.parse().unwrap_or_else(|_| usage());
    let fine = match words[..] {
        ["all", count, seed] => runs::all(&site, number(count), number(seed)),
        ["differences"] => runs::differences(&site).fine(),
        ["git", count, seed] => runs::git(&site, number(count), number(seed)).is_some_and(|tally| tally.fine()),
        ["named"] => runs::named(&site).fine(),
        ["places"] => runs::fine(&runs::places(&site)),
        ["random", count, seed] => runs::random(&site, number(count), number(seed)).fine(),
        ["share", part] => runs::share(&site, number(part)),
        ["quick"] => runs::quick(&site),
        ["record", file] => record::write(&site, file),
        ["replay", file] => replay::replay(file).fine(),
        ["check", file] => record::check(&site, file),
        ["crossed", stride] => runs::fine(&runs::crossed(&site, number(stride))),
        ["singles", stride] => runs::fine(&runs::singles(&site, number(stride))),
        ["doubles", stride] => runs::doubles(&site, number(stride)).fine(),
        ["nested", stride] => runs::fine(&runs::nested(&site, number(stride))),
        ["speed"] => speed::print(&site),
        _ => usage(),
    };
    drop(site);
    std::process::exit(if fine { 0 } else { 1 });
}

fn usage() -> ! {
    eprintln!("usage: compare all COUNT SEED | share PART | record FILE | check FILE | replay FILE");
    eprintln!("       compare git COUNT SEED | differences | named | places | quick | random COUNT SEED");
    eprintln!("       compare crossed STRIDE | singles STRIDE | doubles STRIDE | nested STRIDE | speed");
    std::process::exit(2)
}

/// The Rust's own panics are caught, and are answers. Others are bugs in this program, and are shown.
fn silence_expected_panics() {
    std::panic::set_hook(Box::new(|info| {
        let payload = info.payload();
        let text = payload.downcast_ref::<&str>().copied().or_else(|| payload.downcast_ref::<String>().map(String::as_str));
        if !text.is_some_and(|text| text.starts_with("BUG: ")) {
            eprintln!("{info}");
        }
    }));
}
