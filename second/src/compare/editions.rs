//! The calls on second-edition files, and on a pattern and a board of every
//! pair of editions but the first twice, which is every case's: circuits with
//! packages, each in both editions.

use super::boards::{board, pattern};
use super::call::Call;
use super::case::{centre, lend, radius, size, Tables};
use super::damage::{spoil, upset};
use super::finder::Finder;
use super::numbers::{self, told};
use super::proposals::proposals;
use super::tally::Tally;
use super::{agree, Difference};
use crate::circuit::{Circuit, Edition, Files, Role};
use crate::graph;
use crate::random::Random;

/// Packages so chosen that some agree in one of their two bytes.
const PACKAGES: [u16; 5] = [0, 3, 256, 259, 65535];

/// Gives the nodes packages: none, by their kinds so that much still matches,
/// or the same with a few others.
fn pack(random: &mut Random, style: usize, circuit: &mut Circuit) {
    let by_kind = |kind: &u16| PACKAGES[usize::from(*kind) % (1 + style)];
    circuit.packages = circuit.kinds.iter().map(by_kind).collect();
    if style == 3 {
        for package in &mut circuit.packages {
            if random.once_in(12) {
                *package = random.pick(&PACKAGES);
            }
        }
    }
}

/// A circuit's file in an edition, now and then damaged. In the first edition
/// the packages are left out.
fn file(random: &mut Random, edition: Edition, role: Role, circuit: &Circuit) -> Vec<u8> {
    let mut circuit = circuit.clone();
    let damaged = random.once_in(7);
    if damaged && random.once_in(2) {
        upset(random, role, &mut circuit);
        return circuit.bytes_in(edition);
    }
    let mut bytes = circuit.bytes_in(edition);
    if damaged {
        spoil(random, &mut bytes);
    }
    bytes
}

/// A number of packages: as many as kinds, and now and then one less or more.
fn given(random: &mut Random, circuit: &Circuit) -> Vec<u16> {
    let mut packages = circuit.all_packages();
    if random.once_in(6) {
        let n = packages.len();
        packages.resize(random.pick(&[n.saturating_sub(1), n + 1]), 3);
    }
    packages
}

/// The pairs of editions, by their places in `EDITIONS`.
const PAIRS: [[usize; 2]; 3] = [[0, 1], [1, 0], [1, 1]];

/// Both editions.
const EDITIONS: [Edition; 2] = [Edition::First, Edition::Second];

/// A circuit without its packages.
fn unpacked(circuit: &Circuit) -> Circuit {
    Circuit {
        packages: Vec::new(),
        ..circuit.clone()
    }
}

/// A pattern and a board with packages, and their files in both editions; the
/// pattern's second-edition file without packages; and tables to write.
struct Drawn {
    pattern: Circuit,
    board: Circuit,
    patterns: [Vec<u8>; 2],
    boards: [Vec<u8>; 2],
    plain: Vec<u8>,
    tables: Tables,
    centre: usize,
    radius: u16,
}

impl Drawn {
    /// A random pattern and board.
    fn random(random: &mut Random) -> Drawn {
        let size = size(random);
        let mut pattern = pattern(random, size);
        let mut board = board(random, size, &pattern);
        let style = random.below(4);
        pack(random, style, &mut pattern);
        pack(random, style, &mut board);
        let field = |number: usize| u16::try_from(number).expect("a 16-bit field");
        let tables = Tables {
            role: random.pick(&[Role::Pattern, Role::Board]),
            kinds: board.kinds.clone(),
            packages: given(random, &board),
            starts: board.links.iter().map(|link| field(link.0)).collect(),
            ends: board.links.iter().map(|link| field(link.1)).collect(),
        };
        Drawn {
            patterns: EDITIONS.map(|e| file(random, e, Role::Pattern, &pattern)),
            boards: EDITIONS.map(|e| file(random, e, Role::Board, &board)),
            plain: unpacked(&pattern).bytes_in(Edition::Second),
            tables,
            centre: centre(random, board.kinds.len()),
            radius: radius(random, graph::radius(&pattern)),
            pattern,
            board,
        }
    }

    /// The two files in a pair of editions.
    fn files(&self, random: &mut Random, [one, other]: [usize; 2]) -> Files<'_> {
        Files {
            pattern: told(random, EDITIONS[one], &self.patterns[one]),
            board: told(random, EDITIONS[other], &self.boards[other]),
        }
    }

    /// The calls on one file.
    fn calls_on_one(&self, random: &mut Random) -> Vec<Call<'_>> {
        let Files { pattern, board } = self.files(random, [1, 1]);
        let (centre, radius) = (self.centre, self.radius);
        let written = Call::Write {
            role: numbers::role(random, self.tables.role),
            edition: numbers::edition(random, Edition::Second),
            given: self.tables.given(),
        };
        let ball = Call::Ball {
            board,
            centre,
            radius,
        };
        let mut calls = vec![
            written,
            ball,
            Call::Radius { pattern },
            Call::Merge { pattern },
        ];
        for role in [Role::Pattern, Role::Board] {
            let plain = told(random, Edition::Second, &self.plain);
            for at in [0, 1] {
                let Files { pattern, board } = self.files(random, [at, at]);
                for file in [pattern, board, plain] {
                    let to = random.pick(&EDITIONS);
                    calls.push(Call::Convert {
                        role: numbers::role(random, role),
                        file,
                        to: numbers::edition(random, to),
                    });
                    let role = numbers::role(random, role);
                    calls.push(Call::Read { role, file });
                }
            }
        }
        calls
    }

    /// The calls on a pattern and a board, in a pair of editions.
    fn calls_on_both(&self, random: &mut Random, pair: [usize; 2]) -> Vec<Call<'_>> {
        let files = self.files(random, pair);
        let (plain, centre) = (false, self.centre);
        let place = |radius| Call::Place {
            files,
            plain,
            centre,
            radius,
        };
        let mut calls = vec![
            Call::Match { files },
            Call::MatchOneWay { files },
            Call::Bar { files, centre },
            place(None),
            place(Some(self.radius)),
        ];
        if random.once_in(24) && files.board.bytes.len() < 400 {
            calls.push(Call::Report {
                files,
                plain,
                from: random.below(self.board.kinds.len() + 3),
                found: random.pick(&[0, 1, 65535]),
            });
        }
        calls
    }

    /// The checks of what is proposed, in a pair of editions.
    fn checked(
        &self,
        finder: &dyn Finder,
        random: &mut Random,
        pair: [usize; 2],
        tally: &mut Tally,
    ) -> Result<(), Difference> {
        let files = self.files(random, pair);
        let seen = |at: usize, circuit: &Circuit| match EDITIONS[at] {
            Edition::First => unpacked(circuit),
            Edition::Second => circuit.clone(),
        };
        let (pattern, board) = (seen(pair[0], &self.pattern), seen(pair[1], &self.board));
        for proposal in proposals(random, &pattern, &board, self.centre) {
            let call = Call::Check {
                files,
                centre: self.centre,
                nodes: &proposal.nodes,
                links: &proposal.links,
            };
            let lent = lend(random, &call);
            agree(finder, &call, &lent, tally)?;
        }
        Ok(())
    }
}

/// Runs one numbered case: every call on second-edition files, and on the pairs
/// of editions, against the second finder.
pub fn check(
    finder: &dyn Finder,
    seed: u64,
    number: u64,
    tally: &mut Tally,
) -> Result<(), Difference> {
    let mut random = Random::of_case(seed ^ 0x7061_636b, number);
    let random = &mut random;
    let drawn = Drawn::random(random);
    let mut calls = drawn.calls_on_one(random);
    for pair in PAIRS {
        calls.extend(drawn.calls_on_both(random, pair));
    }
    let Files { pattern, board } = drawn.files(random, [1, 0]);
    let alone = Files {
        pattern,
        board: pattern,
    };
    let plain = Files {
        pattern: told(random, Edition::Second, &drawn.plain),
        board,
    };
    calls.extend([alone, plain].map(|files| Call::Match { files }));
    for call in calls {
        let lent = lend(random, &call);
        agree(finder, &call, &lent, tally)?;
    }
    for pair in PAIRS {
        drawn.checked(finder, random, pair, tally)?;
    }
    Ok(())
}
