//! One numbered random case: a pattern, a board, centres, a radius, tables to
//! write, and every call on them.

use super::boards::{board, pattern, Size};
use super::call::{Call, Lent};
use super::damage::{spoil, upset};
use super::finder::Finder;
use super::proposals::{proposals, Proposal};
use super::tally::Tally;
use super::{agree, bounds, editions, laws, numbers, sessions, shelves, Difference};
use crate::calls::Lookup;
use crate::circuit::{Circuit, Edition, Files, Given, Role};
use crate::graph;
use crate::load::Numbers;
use crate::random::Random;

/// Tables to write in a role, in the first edition, with packages that are not
/// looked at.
pub struct Tables {
    pub role: Role,
    pub kinds: Vec<u16>,
    pub packages: Vec<u16>,
    pub starts: Vec<u16>,
    pub ends: Vec<u16>,
}

impl Tables {
    /// The tables as a call is given them.
    pub fn given(&self) -> Given<'_> {
        Given {
            kinds: &self.kinds,
            packages: &self.packages,
            starts: &self.starts,
            ends: &self.ends,
        }
    }
}

/// Offsets and links to look up in, sound or not.
#[derive(Default)]
pub struct Lists {
    pub offsets: [Vec<u16>; 2],
    pub links: [Vec<u16>; 2],
}

impl Lists {
    /// Lists at random, as long as told at most.
    fn random(random: &mut Random) -> Lists {
        let mut list = |bound: usize| -> Vec<u16> {
            let length = random.below(8);
            (0..length).map(|_| random.below(bound) as u16).collect()
        };
        Lists {
            offsets: [list(10), list(10)],
            links: [list(100), list(100)],
        }
    }

    /// A lookup of a node.
    pub fn of(&self, node: usize) -> Lookup<'_> {
        Lookup {
            forward_offsets: &self.offsets[0],
            forward: &self.links[0],
            backward_offsets: &self.offsets[1],
            backward: &self.links[1],
            node,
        }
    }
}

/// What a case hands to the calls: first-edition files with the numbers told
/// for that, and more.
pub struct Case {
    pub pattern: Vec<u8>,
    pub board: Vec<u8>,
    pub editions: [u32; 2],
    pub direction: u32,
    pub lists: Lists,
    pub centres: Vec<usize>,
    pub radius: u16,
    pub tables: Tables,
    pub numbers: Numbers,
    pub proposals: Vec<Proposal>,
}

/// A random size, the large ones seldom.
pub fn size(random: &mut Random) -> Size {
    match random.below(400) {
        0 => Size::Full,
        1..=15 => Size::Medium,
        16..=200 => Size::Small,
        _ => Size::Tiny,
    }
}

/// A random centre, now and then outside the board.
pub fn centre(random: &mut Random, nodes: usize) -> usize {
    let inside = random.below(nodes.max(1));
    if !random.once_in(10) {
        return inside;
    }
    let high = 1 << random.pick(&[8, 16, 32, 63]);
    random.pick(&[nodes, nodes + 1, inside | high, usize::MAX, 512])
}

/// A random radius around the pattern's own, or at an edge.
pub fn radius(random: &mut Random, own: usize) -> u16 {
    let near = (own + random.below(3)).saturating_sub(1);
    let near = u16::try_from(near).expect("a small radius");
    let any = random.draw() as u16;
    random.pick(&[0, 1, 2, 3, near, near, near, 255, 256, 511, 512, 65535, any])
}

/// A circuit's file, now and then damaged.
fn file(random: &mut Random, role: Role, circuit: &Circuit, sound: usize) -> Vec<u8> {
    let mut circuit = circuit.clone();
    let damaged = random.once_in(sound);
    if damaged && random.once_in(2) {
        upset(random, role, &mut circuit);
        return circuit.bytes();
    }
    let mut bytes = circuit.bytes();
    if damaged {
        spoil(random, &mut bytes);
    }
    bytes
}

/// A circuit's three tables, now and then damaged.
fn tables(random: &mut Random, role: Role, circuit: &Circuit) -> Tables {
    let mut circuit = circuit.clone();
    if random.once_in(2) {
        upset(random, role, &mut circuit);
    }
    let field = |number: usize| u16::try_from(number).expect("a 16-bit field");
    let mut starts: Vec<u16> = circuit.links.iter().map(|link| field(link.0)).collect();
    let mut ends: Vec<u16> = circuit.links.iter().map(|link| field(link.1)).collect();
    if random.once_in(12) {
        let table = random.pick(&[0, 1]);
        let table = [&mut starts, &mut ends]
            .into_iter()
            .nth(table)
            .expect("one of two");
        let length = table.len();
        table.resize(random.pick(&[length.saturating_sub(1), length + 1]), 0);
    }
    Tables {
        role,
        packages: circuit.kinds[random.below(circuit.kinds.len() + 1)..].to_vec(),
        kinds: circuit.kinds,
        starts,
        ends,
    }
}

/// The numbers of a load, each now and then at an edge of its range or outside.
fn numbers(random: &mut Random, size: Size) -> Numbers {
    let (nodes, pairs) = match size {
        Size::Full => (512, 4096),
        Size::Medium => (random.between(40, 160), random.between(40, 800)),
        Size::Small => (random.between(4, 48), random.between(0, 200)),
        Size::Tiny => (random.between(1, 8), random.between(0, 24)),
    };
    let bound = random.pick(&[1, 4, 100, 65536]);
    let kinds = 1 + random.below(bound);
    let mut numbers = [nodes, pairs, kinds].map(|n| n as u32);
    if random.once_in(6) {
        let at = random.below(3);
        let edges = [[0, 1, 512, 513], [0, 1, 4096, 4097], [0, 1, 65536, 65537]][at];
        numbers[at] = random.pick(&[edges[0], edges[1], edges[2], edges[3], u32::MAX]);
    }
    let any = random.draw() as u32;
    Numbers {
        seed: random.pick(&[any, any, any, 0, 1, u32::MAX]),
        nodes: numbers[0],
        pairs: numbers[1],
        kinds: numbers[2],
    }
}

impl Case {
    /// A random case.
    pub fn random(random: &mut Random) -> Case {
        let size = size(random);
        let pattern = pattern(random, size);
        let board = board(random, size, &pattern);
        let centres = (0..random.between(1, 3)).map(|_| centre(random, board.kinds.len()));
        let centres: Vec<usize> = centres.collect();
        let mut around = |&centre| proposals(random, &pattern, &board, centre);
        let proposals = centres.iter().take(1).flat_map(&mut around).collect();
        let radius = radius(random, graph::radius(&pattern));
        let tables = if random.once_in(2) {
            tables(random, Role::Pattern, &pattern)
        } else {
            tables(random, Role::Board, &board)
        };
        Case {
            pattern: file(random, Role::Pattern, &pattern, 5),
            board: file(random, Role::Board, &board, 8),
            editions: [(); 2].map(|()| numbers::edition(random, Edition::First)),
            direction: random.pick(&numbers::NUMBERS),
            lists: Lists::random(random),
            centres,
            radius,
            tables,
            numbers: numbers(random, size),
            proposals,
        }
    }

    /// Both files, told by the case's numbers.
    fn files(&self) -> Files<'_> {
        Files::told(self.editions, &self.pattern, &self.board)
    }

    /// Both files, plainly or told by the case's numbers.
    fn asked(&self, plain: bool) -> Files<'_> {
        match plain {
            true => Files::first(&self.pattern, &self.board),
            false => self.files(),
        }
    }

    /// Every call on the case. Around one centre places are asked for plainly,
    /// around the next by the calls that are told editions.
    pub fn calls(&self) -> Vec<Call<'_>> {
        let mut calls = self.calls_without_centre();
        let (files, radius) = (self.files(), self.radius);
        for (&centre, plain) in self.centres.iter().zip([true, false].into_iter().cycle()) {
            let place = |radius| Call::Place {
                files: self.asked(plain),
                plain,
                centre,
                radius,
            };
            calls.push(Call::Ball {
                board: files.board,
                centre,
                radius,
            });
            calls.extend([place(None), place(Some(radius))]);
            calls.push(Call::Bar { files, centre });
            calls.push(Call::Neighbours {
                direction: self.direction,
                lookup: self.lists.of(centre),
            });
        }
        calls.extend(self.proposals.iter().map(|proposal| Call::Check {
            files,
            centre: proposal.centre,
            nodes: &proposal.nodes,
            links: &proposal.links,
        }));
        calls
    }

    /// The calls that take no centre. Each file is also read in the other role,
    /// and the pattern is also matched on itself.
    fn calls_without_centre(&self) -> Vec<Call<'_>> {
        let files = self.files();
        let Files { pattern, board } = files;
        let read = |role: Role, file| Call::Read {
            role: role.number(),
            file,
        };
        vec![
            read(Role::Pattern, pattern),
            read(Role::Board, board),
            read(Role::Pattern, board),
            read(Role::Board, pattern),
            Call::Write {
                role: self.tables.role.number(),
                edition: self.editions[0],
                given: self.tables.given(),
            },
            Call::Radius { pattern },
            Call::Match { files },
            Call::Match {
                files: Files {
                    pattern,
                    board: pattern,
                },
            },
            Call::MatchOneWay { files },
            Call::Merge { pattern },
            Call::Load {
                numbers: self.numbers,
            },
        ]
    }

    /// Pieces of the report from some centres on, plainly and told editions by
    /// turns: for small boards, as much is lent for a piece.
    pub fn reports(&self) -> Vec<Call<'_>> {
        let turns = [true, false].into_iter().cycle();
        let calls = self.centres.iter().zip(turns);
        let calls = calls.map(|(&centre, plain)| Call::Report {
            files: self.asked(plain),
            plain,
            from: centre.min(65536),
            found: self.radius,
        });
        calls.collect()
    }
}

/// Random lengths for the lent tables: as needed or longer, and now and then
/// one too short.
pub fn lend(random: &mut Random, call: &Call) -> Lent {
    let needed = call.needed();
    let longer = call.longer();
    let mut lengths: Vec<usize> = needed.iter().map(|n| n + random.pick(&longer)).collect();
    if !needed.is_empty() && random.once_in(9) {
        let at = random.below(needed.len());
        let less = random.pick(&[1, 1, 1, 2, needed[at]]);
        lengths[at] = needed[at].saturating_sub(less);
    }
    Lent {
        lengths,
        filling: random.draw(),
    }
}

/// Runs one numbered case: every call against the second finder, and the laws.
pub fn check(
    finder: &dyn Finder,
    seed: u64,
    number: u64,
    tally: &mut Tally,
) -> Result<(), Difference> {
    let mut random = Random::of_case(seed, number);
    let case = Case::random(&mut random);
    let mut calls = case.calls();
    if random.once_in(12) && case.board.len() < 400 {
        calls.extend(case.reports());
    }
    for call in calls {
        let lent = lend(&mut random, &call);
        agree(finder, &call, &lent, tally)?;
    }
    laws::check(finder, &case, tally)?;
    editions::check(finder, seed, number, tally)?;
    bounds::check(finder, seed, number, tally)?;
    sessions::check(finder, seed, number, tally)?;
    shelves::check(finder, seed, number, tally)
}
