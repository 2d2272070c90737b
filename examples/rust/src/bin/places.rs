//! Prints the places of a pattern on a board, as the report has them:
//!
//!     places PATTERN.cir BOARD.cir
//!
//! Each file may be of the first edition or of the second. Status: 0 printed; 1 a file is refused; 2 a file cannot be read.

use heronditch_sys::raw::{HERONDITCH_BOARD, HERONDITCH_PATTERN};
use heronditch_sys::{place, radius, read_board, Board, File, Place, Refusal};
use std::process::ExitCode;

fn line(centre: usize, place: &Place, board: &Board) -> String {
    let nodes = (0..board.nodes)
        .filter(|&v| place.nodes[v] == 1)
        .map(|v| format!(" {v}"));
    let links = board
        .links
        .iter()
        .zip(place.links)
        .filter(|(_, marked)| *marked == 1)
        .map(|((start, end), _)| format!(" {start}-{end}"));
    format!(
        "place {centre}:{} /{}",
        nodes.collect::<String>(),
        links.collect::<String>()
    )
}

fn print(pattern: File, board: File) -> Result<(), Refusal> {
    radius(pattern)?;
    let drawn = read_board(board)?;
    let mut found = 0;
    for centre in 0..drawn.nodes {
        if let Some(place) = place(pattern, board, centre)? {
            println!("{}", line(centre, &place, &drawn));
            found += 1;
        }
    }
    println!("end {found} of {}", drawn.nodes);
    Ok(())
}

fn load(name: &str) -> Result<Vec<u8>, ExitCode> {
    std::fs::read(name).map_err(|error| {
        eprintln!("{name}: {error}");
        ExitCode::from(2)
    })
}

fn run(words: &[String]) -> Result<(), ExitCode> {
    let [_, pattern, board] = words else {
        eprintln!("usage: places PATTERN.cir BOARD.cir");
        return Err(ExitCode::from(2));
    };
    let (pattern, board) = (load(pattern)?, load(board)?);
    print(File::new(&pattern), File::new(&board)).map_err(|refusal| {
        let file = [
            (HERONDITCH_PATTERN, " pattern"),
            (HERONDITCH_BOARD, " board"),
        ]
        .into_iter()
        .find(|(number, _)| *number == refusal.file);
        println!(
            "refused {}{}",
            refusal.number,
            file.map_or("", |(_, name)| name)
        );
        eprintln!("{}", refusal.message());
        ExitCode::from(1)
    })
}

fn main() -> ExitCode {
    let words: Vec<String> = std::env::args().collect();
    run(&words).err().unwrap_or(ExitCode::SUCCESS)
}
