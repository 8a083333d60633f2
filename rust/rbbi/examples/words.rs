//! Prints the words of a text, edits it, and prints them again: words RULES TEXT.
use rbbi::{Error, Session, Table, Unit};

fn print(session: &mut Session) {
    let shown: Vec<String> = session
        .segments()
        .map(|s| format!("{}-{}:{}", s.start, s.end, s.status))
        .collect();
    println!("{}", shown.join(" "));
}

fn run(rules: &str, text: &str) -> Result<(), Error> {
    let table = Table::compile(rules)?;
    let mut session = table.session(text, Unit::Utf8)?;
    print(&mut session);
    session.replace(3, 1, "no")?; // can't -> cannot
    print(&mut session);
    Ok(())
}

fn main() -> std::io::Result<()> {
    let words: Vec<String> = std::env::args().collect();
    let (rules, text) = (
        std::fs::read_to_string(&words[1])?,
        std::fs::read_to_string(&words[2])?,
    );
    if let Err(error) = run(&rules, &text) {
        eprintln!("words: {error}");
        std::process::exit(1);
    }
    Ok(())
}
