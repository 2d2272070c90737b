//! What a finder owes by itself: a merged pattern at the first one's radius
//! has the first one's places, an accepted file writes back to its own bytes,
//! what is written reads back, and the check says yes to every place.

use super::call::{run, Call, Lent, Outcome};
use super::case::{Case, Tables};
use super::finder::Finder;
use super::tally::Tally;
use super::Difference;
use crate::circuit::{Files, Given, Role, Told};

/// What a call comes to with tables as long as needed.
fn outcome(finder: &dyn Finder, call: &Call) -> Outcome {
    let lent = Lent {
        lengths: call.needed(),
        filling: 1,
    };
    run(finder, call, &lent)
}

/// The 16-bit entries of a table.
fn fields(table: &[u32]) -> Vec<u16> {
    table.iter().map(|&entry| entry as u16).collect()
}

/// The bytes of a table.
fn bytes(table: &[u32]) -> Vec<u8> {
    table.iter().map(|&entry| entry as u8).collect()
}

/// All laws on a case.
pub fn check(finder: &dyn Finder, case: &Case, tally: &mut Tally) -> Result<(), Difference> {
    write_back(finder, Role::Pattern, &case.pattern, tally)?;
    write_back(finder, Role::Board, &case.board, tally)?;
    read_back(finder, &case.tables, tally)?;
    one_way_contains(finder, &case.pattern, &case.board, tally)?;
    for &centre in &case.centres {
        merged(finder, &case.pattern, &case.board, centre, tally)?;
        place_checked(finder, &case.pattern, &case.board, centre, tally)?;
    }
    Ok(())
}

/// The one-way table contains the two-way table.
fn one_way_contains(
    finder: &dyn Finder,
    pattern: &[u8],
    board: &[u8],
    tally: &mut Tally,
) -> Result<(), Difference> {
    let files = Files::first(pattern, board);
    let call = Call::MatchOneWay { files };
    let (one, two) = (
        outcome(finder, &call),
        outcome(finder, &Call::Match { files }),
    );
    if two.reply[0] != 0 {
        return Ok(());
    }
    tally.law("one-way tables that contain the two-way table");
    let mut entries = one.tables[0].iter().zip(&two.tables[0]);
    if one.reply[0] == 0 && entries.all(|(one, two)| one & two == *two) {
        return Ok(());
    }
    let text = format!("the one-way table lacks a pair\n{call}\n{}", one.told());
    Err(Difference { text })
}

/// The call that reads a first-edition file in a role.
fn read_call(role: Role, file: &[u8]) -> Call<'_> {
    Call::Read {
        role: role.number(),
        file: Told::first(file),
    }
}

/// An accepted file, read and then written, is the same file.
pub fn write_back(
    finder: &dyn Finder,
    role: Role,
    file: &[u8],
    tally: &mut Tally,
) -> Result<(), Difference> {
    let call = read_call(role, file);
    let read = outcome(finder, &call);
    if read.reply[0] != 0 {
        return Ok(());
    }
    tally.law("accepted files written back");
    let tables: Vec<Vec<u16>> = read.tables.iter().map(|table| fields(table)).collect();
    let written = outcome(
        finder,
        &Call::Write {
            role: role.number(),
            edition: 1,
            given: Given {
                kinds: &tables[0],
                packages: &tables[1],
                starts: &tables[2],
                ends: &tables[3],
            },
        },
    );
    let length = file.len() as u32;
    if written.reply == [0, 0, length, 0, 0, 0] && bytes(&written.tables[0]) == file {
        return Ok(());
    }
    let text = format!(
        "an accepted file does not write back\n{call}\n{}",
        written.told()
    );
    Err(Difference { text })
}

/// A circuit that was written reads back to the same tables.
pub fn read_back(
    finder: &dyn Finder,
    tables: &Tables,
    tally: &mut Tally,
) -> Result<(), Difference> {
    let role = tables.role;
    let call = Call::Write {
        role: role.number(),
        edition: 1,
        given: tables.given(),
    };
    let written = outcome(finder, &call);
    if written.reply[0] != 0 {
        return Ok(());
    }
    tally.law("written circuits read back");
    let file = bytes(&written.tables[0]);
    let read = outcome(finder, &read_call(role, &file));
    let content: Vec<Vec<u16>> = read.tables.iter().map(|table| fields(table)).collect();
    let given = [&tables.kinds, &vec![], &tables.starts, &tables.ends];
    if read.reply[0] == 0 && content.iter().eq(given) {
        return Ok(());
    }
    let text = format!(
        "a written circuit does not read back\n{call}\n{}",
        read.told()
    );
    Err(Difference { text })
}

/// The merged pattern's file and the first pattern's radius, if the pattern is
/// accepted.
fn merged_file(finder: &dyn Finder, pattern: &[u8]) -> Option<(Vec<u8>, u16)> {
    let pattern = Told::first(pattern);
    let radius = outcome(finder, &Call::Radius { pattern }).reply;
    let merged = outcome(finder, &Call::Merge { pattern });
    let mut file = bytes(&merged.tables[1]);
    file.truncate(merged.reply[3] as usize);
    (radius[0] == 0).then_some((file, radius[2] as u16))
}

/// A plain place call.
fn place_call<'a>(
    pattern: &'a [u8],
    board: &'a [u8],
    centre: usize,
    radius: Option<u16>,
) -> Call<'a> {
    Call::Place {
        files: Files::first(pattern, board),
        plain: true,
        centre,
        radius,
    }
}

/// The merged pattern at the first pattern's radius has the same place as the
/// first pattern, or neither has one.
pub fn merged(
    finder: &dyn Finder,
    pattern: &[u8],
    board: &[u8],
    centre: usize,
    tally: &mut Tally,
) -> Result<(), Difference> {
    let Some((file, radius)) = merged_file(finder, pattern) else {
        return Ok(());
    };
    let first_call = place_call(pattern, board, centre, None);
    let second_call = place_call(&file, board, centre, Some(radius));
    let first = outcome(finder, &first_call);
    let second = outcome(finder, &second_call);
    tally.law(match first.reply[0] {
        0 => "merged patterns with the first one's place",
        9 => "merged patterns without a place, like the first",
        _ => "merged patterns refused, like the first",
    });
    if first.reply[0] == second.reply[0] && first.tables[..2] == second.tables[..2] {
        return Ok(());
    }
    let (one, two) = (first.told(), second.told());
    let text =
        format!("the merged pattern has another place\n{first_call}\n{one}\n{second_call}\n{two}");
    Err(Difference { text })
}

/// The check says yes to the place that the place call fills.
pub fn place_checked(
    finder: &dyn Finder,
    pattern: &[u8],
    board: &[u8],
    centre: usize,
    tally: &mut Tally,
) -> Result<(), Difference> {
    let call = place_call(pattern, board, centre, None);
    let place = outcome(finder, &call);
    if place.reply[0] != 0 {
        return Ok(());
    }
    tally.law("places that the check says yes to");
    let (nodes, links) = (bytes(&place.tables[0]), bytes(&place.tables[1]));
    let check = Call::Check {
        files: Files::first(pattern, board),
        centre,
        nodes: &nodes,
        links: &links,
    };
    let checked = outcome(finder, &check);
    if checked.reply == [0, 0, 1, 0, 0, 0] {
        return Ok(());
    }
    let text = format!("a place gets no yes\n{check}\n{}", checked.told());
    Err(Difference { text })
}
