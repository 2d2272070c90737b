//! The comparison finds faults: a finder with one planted fault differs from
//! the second finder on the edges or on the first few thousand random cases.
//! The faults are the specification's tempting mistakes and fakes, and slips
//! in limits, orders and tables.

use second::bounded::Bounded;
use second::calls::{Columns, Counted, Lookup, PlaceTables};
use second::circuit::{read_bounded, Circuit, Edition, File, Files, Given, Role, Told};
use second::compare::finder::{Finder, Second, Words};
use second::compare::tally::Tally;
use second::compare::{case, edges};
use second::graph::{ball, distances, radius, within, Subgraph};
use second::load::Numbers;
use second::merged::merged;
use second::session::{Machine, Run};
use second::shelf::{pattern, strings};
use second::simulation::{largest, match_graph, none_left_out, Counts, Pairs};

/// The planted faults.
#[derive(Clone, Copy, Debug, PartialEq, Eq)]
enum Fault {
    None,
    // Mistakes that tempt.
    OneRound,
    EveryLink,
    MergedRadius,
    WholeBoardFirst,
    ForwardDistance,
    BothMatchGraphs,
    // Fakes.
    OwnClasses,
    RoundsInvented,
    StruckInvented,
    NineAlways,
    FixedPlace,
    TablesUnfilled,
    ReaderRefusesAll,
    // Slips.
    NineWithoutCounts,
    BallsTable,
    PlacesKept,
    RefusalClears,
    LaterCleared,
    MergedLengthEnough,
    ThirtyThreeParts,
    ThirtyOneParts,
    NodesOver,
    NodesUnder,
    PatternLinksOver,
    PatternLinksUnder,
    BoardLinksOver,
    BoardLinksUnder,
    FiveBeforeFour,
    BoardBeforePattern,
    EightBeforeSeven,
    NineBeforeEight,
    EightNamesPattern,
    CentreCut,
    RadiusCut,
    KindCut,
    AnyPartFindsNone,
    OutsideAtZero,
    DistanceInThePlace,
    DistancePastTheBall,
    SixOnTheBoard,
    PartsLeftOut,
    ClearedRound,
    BothWays,
    SelfLinksIgnored,
    WritingCut,
    WritingUneven,
    // Of the test load.
    LoadLowBits,
    LoadDrawsFirst,
    LoadEndFirst,
    LoadLinksFirst,
    LoadRepeated,
    LoadUnsorted,
    LoadOwnLength,
    LoadEightFirst,
    LoadKindsUnder,
    LoadNoKinds,
    LoadNoNodes,
    LoadNamesBoard,
    // Of the editions, and of numbers told.
    PackagesIgnored,
    PackagesDropped,
    PlacesUnpacked,
    PackagesJudged,
    EditionsExchanged,
    ZeroIsSecond,
    FourIsSecond,
    OtherRole,
    OtherWay,
    // Of the report.
    ReportFoundAnew,
    ReportGreedy,
    ReportAgain,
    // Of links through a few parts.
    BoundExact,
    BoundNone,
    BoundUndirected,
    BoundForward,
    BoundNoReturn,
    BoundInnerMatched,
    BoundLargest,
    BoundFive,
    ThirteenLate,
    ThirteenEarly,
    BoundsLeftOut,
    // Of the least that still says none.
    BarFalling,
    BarAgainstAll,
    BarReducedRadius,
    BarOccurring,
    BarPartsDropped,
    BarFifteenFirst,
    BarNine,
    BarCountsDropped,
    BarStops,
    // Of the order and the shelf.
    OrderByBytes,
    LinksBeforeNodes,
    SecondRefusedFirst,
    HigherNumberFirst,
    EqualDropped,
    RefusedStops,
    // Of cutting.
    CutAgain,
    CutPastTheLast,
    CutOldPairs,
    CutForwardOnly,
    CutEarlierLink,
    CutPartsLeftOut,
}

const FAULTS: [Fault; 102] = [
    Fault::OneRound,
    Fault::EveryLink,
    Fault::MergedRadius,
    Fault::WholeBoardFirst,
    Fault::ForwardDistance,
    Fault::BothMatchGraphs,
    Fault::OwnClasses,
    Fault::RoundsInvented,
    Fault::StruckInvented,
    Fault::NineAlways,
    Fault::FixedPlace,
    Fault::TablesUnfilled,
    Fault::ReaderRefusesAll,
    Fault::NineWithoutCounts,
    Fault::BallsTable,
    Fault::PlacesKept,
    Fault::RefusalClears,
    Fault::LaterCleared,
    Fault::MergedLengthEnough,
    Fault::ThirtyThreeParts,
    Fault::ThirtyOneParts,
    Fault::NodesOver,
    Fault::NodesUnder,
    Fault::PatternLinksOver,
    Fault::PatternLinksUnder,
    Fault::BoardLinksOver,
    Fault::BoardLinksUnder,
    Fault::FiveBeforeFour,
    Fault::BoardBeforePattern,
    Fault::EightBeforeSeven,
    Fault::NineBeforeEight,
    Fault::EightNamesPattern,
    Fault::CentreCut,
    Fault::RadiusCut,
    Fault::KindCut,
    Fault::AnyPartFindsNone,
    Fault::OutsideAtZero,
    Fault::DistanceInThePlace,
    Fault::DistancePastTheBall,
    Fault::SixOnTheBoard,
    Fault::PartsLeftOut,
    Fault::ClearedRound,
    Fault::BothWays,
    Fault::SelfLinksIgnored,
    Fault::WritingCut,
    Fault::WritingUneven,
    Fault::LoadLowBits,
    Fault::LoadDrawsFirst,
    Fault::LoadEndFirst,
    Fault::LoadLinksFirst,
    Fault::LoadRepeated,
    Fault::LoadUnsorted,
    Fault::LoadOwnLength,
    Fault::LoadEightFirst,
    Fault::LoadKindsUnder,
    Fault::LoadNoKinds,
    Fault::LoadNoNodes,
    Fault::LoadNamesBoard,
    Fault::PackagesIgnored,
    Fault::PackagesDropped,
    Fault::PlacesUnpacked,
    Fault::PackagesJudged,
    Fault::EditionsExchanged,
    Fault::ZeroIsSecond,
    Fault::FourIsSecond,
    Fault::OtherRole,
    Fault::OtherWay,
    Fault::ReportFoundAnew,
    Fault::ReportGreedy,
    Fault::ReportAgain,
    Fault::BoundExact,
    Fault::BoundNone,
    Fault::BoundUndirected,
    Fault::BoundForward,
    Fault::BoundNoReturn,
    Fault::BoundInnerMatched,
    Fault::BoundLargest,
    Fault::BoundFive,
    Fault::ThirteenLate,
    Fault::ThirteenEarly,
    Fault::BoundsLeftOut,
    Fault::BarFalling,
    Fault::BarAgainstAll,
    Fault::BarReducedRadius,
    Fault::BarOccurring,
    Fault::BarPartsDropped,
    Fault::BarFifteenFirst,
    Fault::BarNine,
    Fault::BarCountsDropped,
    Fault::BarStops,
    Fault::OrderByBytes,
    Fault::LinksBeforeNodes,
    Fault::SecondRefusedFirst,
    Fault::HigherNumberFirst,
    Fault::EqualDropped,
    Fault::RefusedStops,
    Fault::CutAgain,
    Fault::CutPastTheLast,
    Fault::CutOldPairs,
    Fault::CutForwardOnly,
    Fault::CutEarlierLink,
    Fault::CutPartsLeftOut,
];

/// The second finder with a planted fault.
struct Faulty(Fault);

/// A file's N and M, 0 if it has none.
fn sizes(file: &[u8]) -> (usize, usize) {
    let field = |at: usize| {
        file.get(at..at + 2)
            .map_or(0, |two| usize::from(two[0]) + 256 * usize::from(two[1]))
    };
    (field(0), field(2))
}

/// A file's circuit without the checks, changed, and made a file again.
fn changed(role: Role, file: &[u8], change: impl Fn(&mut Circuit)) -> Vec<u8> {
    let Ok(mut circuit) = Told::first(file).read(role) else {
        return file.to_vec();
    };
    change(&mut circuit);
    circuit.bytes()
}

impl Faulty {
    /// The number of a refusal about sizes with a limit that is off by one.
    fn limit(&self, role: Role, file: &[u8]) -> Option<bool> {
        let (n, m) = sizes(file);
        let pattern = role == Role::Pattern;
        match self.0 {
            Fault::ThirtyThreeParts if pattern && n == 33 => Some(true),
            Fault::ThirtyOneParts if pattern && n == 32 => Some(false),
            Fault::NodesOver if !pattern && n == 513 => Some(true),
            Fault::NodesUnder if !pattern && n == 512 => Some(false),
            Fault::PatternLinksOver if pattern && m == 257 => Some(true),
            Fault::PatternLinksUnder if pattern && m == 256 => Some(false),
            Fault::BoardLinksOver if !pattern && m == 4097 => Some(true),
            Fault::BoardLinksUnder if !pattern && m == 4096 => Some(false),
            _ => None,
        }
    }

    /// The set of pairs by which a place is found, and the ball.
    fn pairs(&self, pattern: &Circuit, board: &Circuit, ball: &Subgraph) -> Pairs {
        match self.0 {
            Fault::OneRound => once(pattern, board, ball),
            Fault::WholeBoardFirst => {
                let (mut pairs, _) = largest(pattern, board, &Subgraph::whole(board));
                for row in &mut pairs.rows {
                    row.iter_mut()
                        .zip(&ball.nodes)
                        .for_each(|(is, &inside)| *is &= inside);
                }
                pairs
            }
            _ => largest(pattern, board, ball).0,
        }
    }

    /// A place by the faulty rules.
    fn found(
        &self,
        pattern: &Circuit,
        board: &Circuit,
        centre: usize,
        radius: usize,
    ) -> Option<(Subgraph, Vec<u32>)> {
        let ball = match self.0 {
            Fault::ForwardDistance => forward_ball(board, centre, radius),
            _ => ball(board, centre, radius),
        };
        let centre = if self.0 == Fault::FixedPlace {
            0
        } else {
            centre
        };
        let pairs = self.pairs(pattern, board, &ball);
        if !pairs.occurs(centre) || self.0 == Fault::NineAlways {
            return None;
        }
        let mut graph = match_graph(pattern, board, &ball, &pairs);
        let n = board.kinds.len();
        if self.0 != Fault::BothMatchGraphs {
            let far = distances(n, &graph.pairs(board), centre);
            (0..n).for_each(|v| graph.nodes[v] = far[v].is_some());
        }
        let whole = self.0 == Fault::EveryLink;
        for (at, &(v, w)) in board.links.iter().enumerate() {
            graph.links[at] = (graph.links[at] || whole) && graph.nodes[v] && graph.nodes[w];
        }
        let all = self.0 == Fault::BallsTable;
        let word = |v: usize| {
            if graph.nodes[v] || all {
                pairs.word(v)
            } else {
                0
            }
        };
        let table = (0..n).map(word).collect();
        Some((graph, table))
    }

    /// The faulty place call, where the sound one gives 0 or 9.
    fn refill(
        &self,
        files: (&Circuit, &Circuit),
        centre: usize,
        radius: usize,
        words: Words,
        out: PlaceTables,
    ) -> Words {
        let mut words = words;
        match self.found(files.0, files.1, centre, radius) {
            None => words[0] = 9,
            Some((graph, table)) => {
                words[0] = 0;
                let bytes = |table: Vec<bool>| table.into_iter().map(u8::from).collect::<Vec<u8>>();
                out.nodes[..graph.nodes.len()].copy_from_slice(&bytes(graph.nodes));
                out.links[..graph.links.len()].copy_from_slice(&bytes(graph.links));
                let far = self.distances(files.1, centre, radius, &out.nodes[..table.len()]);
                out.distances[..table.len()].copy_from_slice(&far);
                out.table[..table.len()].copy_from_slice(&table);
            }
        }
        words
    }

    /// The distances of a place call by the faulty rules.
    fn distances(&self, board: &Circuit, centre: usize, radius: usize, place: &[u8]) -> Vec<u16> {
        let far = match self.0 {
            Fault::DistancePastTheBall => within(board, centre, usize::MAX),
            _ => within(board, centre, radius),
        };
        let outside = match self.0 {
            Fault::OutsideAtZero => 0,
            _ => 65535,
        };
        let only = self.0 == Fault::DistanceInThePlace;
        let entry = |(d, &is): (&Option<usize>, &u8)| match d {
            Some(d) if is == 1 || !only => *d as u16,
            _ => outside,
        };
        far.iter().zip(place).map(entry).collect()
    }

    /// Faults in a reply with counts.
    fn counts(&self, words: Words) -> Words {
        let [number, file, started, kept, struck, rounds] = words;
        match self.0 {
            Fault::RoundsInvented => [number, file, started, kept, struck, rounds.min(1)],
            Fault::StruckInvented => [number, file, started, kept, struck.min(rounds), rounds],
            Fault::NineWithoutCounts if number == 9 => [9, file, 0, 0, 0, 0],
            Fault::EightNamesPattern if number == 8 => [8, 1, 0, 0, 0, 0],
            _ => words,
        }
    }

    /// A place call with the fault. The sound call, on copies of the tables,
    /// says what the reply should be.
    fn place_call(&self, call: &PlaceCall, out: PlaceTables) -> Words {
        let call = &self.seen(call);
        let words = call.sound(&out);
        match (words[0], call.files().read()) {
            (0 | 9, Ok(files)) => self.answer(call, &files, words, out),
            (_, files) => self.refused(call, files.ok(), words, out),
        }
    }

    /// A place call as the faulty finder sees it.
    fn seen<'a>(&self, call: &PlaceCall<'a>) -> PlaceCall<'a> {
        let cut = |fault: Fault, number: usize, bound: usize| match self.0 == fault {
            true => number % bound,
            false => number,
        };
        PlaceCall {
            pattern: self.pattern(&call.pattern),
            board: call.board,
            editions: call.editions,
            centre: cut(Fault::CentreCut, call.centre, 65536),
            radius: call
                .radius
                .map(|r| cut(Fault::RadiusCut, r.into(), 256) as u16),
        }
    }

    /// The faulty answer where the sound one has number 0 or 9.
    fn answer(
        &self,
        call: &PlaceCall,
        files: &(Circuit, Circuit),
        words: Words,
        out: PlaceTables,
    ) -> Words {
        let (pattern, board) = files;
        let own = match self.0 {
            Fault::MergedRadius => radius(&merged(pattern).1),
            _ => radius(pattern),
        };
        let r = call.radius.map_or(own, usize::from);
        let mut words = words;
        if self.0 == Fault::PlacesKept && words[0] == 0 {
            let place = second::place::place(pattern, board, call.centre, r).0;
            words[3] = place.map_or(0, |place| place.table.iter().map(|w| w.count_ones()).sum());
        }
        if self.0 == Fault::TablesUnfilled {
            return words;
        }
        let PlaceTables {
            nodes,
            links,
            table,
            distances,
        } = out;
        let inner = PlaceTables {
            nodes: &mut *nodes,
            links,
            table,
            distances,
        };
        let words = self.refill((pattern, board), call.centre, r, words, inner);
        if self.0 == Fault::LaterCleared && words[0] == 0 {
            nodes[sizes_of(board).0..].fill(0);
        }
        self.counts(words)
    }

    /// The faulty refusal.
    fn refused(
        &self,
        call: &PlaceCall,
        files: Option<(Circuit, Circuit)>,
        words: Words,
        out: PlaceTables,
    ) -> Words {
        let short = out.nodes.len() < sizes(call.board).0;
        match (self.0, words[0], files) {
            (Fault::EightBeforeSeven, 7, _) if short => [8, 0, 0, 0, 0, 0],
            (Fault::NineBeforeEight, 8, Some(files)) => nine_first(call, &files, words),
            (Fault::RefusalClears, ..) => {
                out.nodes.fill(0);
                words
            }
            _ => self.counts(words),
        }
    }

    /// The pattern as the faulty finder sees it.
    fn pattern(&self, pattern: &[u8]) -> Vec<u8> {
        match self.0 {
            Fault::KindCut => changed(Role::Pattern, pattern, |circuit| {
                circuit.kinds.iter_mut().for_each(|kind| *kind %= 256)
            }),
            Fault::AnyPartFindsNone => changed(Role::Pattern, pattern, |circuit| {
                let zeros = circuit.kinds.iter_mut().filter(|kind| **kind == 0);
                zeros.for_each(|kind| *kind = 65535)
            }),
            Fault::SelfLinksIgnored => changed(Role::Pattern, pattern, |circuit| {
                circuit.links.retain(|link| link.0 != link.1)
            }),
            _ => pattern.to_vec(),
        }
    }
}

/// A place call's arguments, the radius if one is given.
struct PlaceCall<'a> {
    pattern: Vec<u8>,
    board: &'a [u8],
    editions: [u32; 2],
    centre: usize,
    radius: Option<u16>,
}

impl PlaceCall<'_> {
    /// The two files.
    fn files(&self) -> Files<'_> {
        Files::told(self.editions, &self.pattern, self.board)
    }

    /// The second finder's reply, on copies of the tables.
    fn sound(&self, out: &PlaceTables) -> Words {
        let (mut nodes, mut links, mut table) =
            (out.nodes.to_vec(), out.links.to_vec(), out.table.to_vec());
        let mut distances = out.distances.to_vec();
        let out = PlaceTables {
            nodes: &mut nodes,
            links: &mut links,
            table: &mut table,
            distances: &mut distances,
        };
        Second.place(self.files(), true, self.centre, self.radius, out)
    }
}

/// 9 for a centre without a place although a table is too short.
fn nine_first(call: &PlaceCall, (pattern, board): &(Circuit, Circuit), words: Words) -> Words {
    let r = call.radius.map_or(radius(pattern), usize::from);
    let (place, counts) = second::place::place(pattern, board, call.centre, r);
    let counts = [counts.started, counts.kept, counts.struck, counts.rounds].map(|c| c as u32);
    match place {
        None => [9, 0, counts[0], counts[1], counts[2], counts[3]],
        Some(_) => words,
    }
}

/// A circuit's N and M.
fn sizes_of(circuit: &Circuit) -> (usize, usize) {
    (circuit.kinds.len(), circuit.links.len())
}

/// The pairs after a single round: those whose links have partners in R0.
fn once(pattern: &Circuit, board: &Circuit, graph: &Subgraph) -> Pairs {
    let first = Pairs::first(pattern, board, graph);
    let links = graph.pairs(board);
    let mut next = first.clone();
    for &(u, t) in &pattern.links {
        for v in 0..board.kinds.len() {
            next.rows[u][v] &= links.iter().any(|&(a, b)| a == v && first.rows[t][b]);
            next.rows[t][v] &= links.iter().any(|&(a, b)| b == v && first.rows[u][a]);
        }
    }
    next
}

/// The ball with distances along the links' directions only.
fn forward_ball(board: &Circuit, centre: usize, radius: usize) -> Subgraph {
    let mut nodes = vec![false; board.kinds.len()];
    nodes[centre] = true;
    for _ in 0..radius.min(nodes.len()) {
        let last = nodes.clone();
        board
            .links
            .iter()
            .filter(|link| last[link.0])
            .for_each(|link| nodes[link.1] = true);
    }
    let inside = |&(v, w): &(usize, usize)| nodes[v] && nodes[w];
    let links = board.links.iter().map(inside).collect();
    Subgraph { nodes, links }
}

/// Two files without their packages, told as of the first edition; as they are
/// where one is refused.
struct Unpacked {
    editions: [u32; 2],
    pattern: Vec<u8>,
    board: Vec<u8>,
}

impl Unpacked {
    fn of(files: Files) -> Unpacked {
        let without = |file: Told, role| match file.read_in_bits(role) {
            Ok(circuit) => (1, circuit.bytes()),
            Err(_) => (file.edition, file.bytes.to_vec()),
        };
        let (one, pattern) = without(files.pattern, Role::Pattern);
        let (other, board) = without(files.board, Role::Board);
        Unpacked {
            editions: [one, other],
            pattern,
            board,
        }
    }

    fn files(&self) -> Files<'_> {
        Files::told(self.editions, &self.pattern, &self.board)
    }
}

impl Faulty {
    /// A file as the faulty finder is told it.
    fn told<'a>(&self, file: Told<'a>) -> Told<'a> {
        match (self.0, file.edition) {
            (Fault::ZeroIsSecond, 0) => Told { edition: 2, ..file },
            _ => file,
        }
    }

    /// Two files whose editions are exchanged.
    fn exchanged<'a>(&self, files: Files<'a>) -> Files<'a> {
        let (mut pattern, mut board) = (files.pattern, files.board);
        if self.0 == Fault::EditionsExchanged {
            std::mem::swap(&mut pattern.edition, &mut board.edition);
        }
        Files { pattern, board }
    }

    /// A faulty piece of a report, in the place of the one that was put.
    fn report_call(&self, files: Files, from: usize, found: u16, out: &mut [u8]) -> Words {
        let mut words = Second.report(files, true, from, found, out);
        let refused = files.read().is_err();
        match self.0 {
            Fault::ReportFoundAnew if words[0] == 0 => {
                words = Second.report(files, true, from, 0, out);
            }
            Fault::ReportGreedy if words[0] == 0 && !refused => {
                let mut longer = vec![0; out.len() + 60];
                let more = Second.report(files, true, from, found, &mut longer);
                let size = more[4] as usize;
                if size <= out.len() {
                    out[..size].copy_from_slice(&longer[..size]);
                    words = more;
                }
            }
            Fault::ReportAgain if words[0] == 0 && refused && from > 0 => {
                words = Second.report(files, true, 0, found, out);
            }
            _ => {}
        }
        words
    }

    /// The whole-board call of a first-edition pattern, by the faulty rules.
    fn match_first(&self, files: Files, table: &mut [u32]) -> Words {
        let pattern = self.pattern(files.pattern.bytes);
        let seen = Files {
            pattern: Told::first(&pattern),
            ..files
        };
        let words = Second.match_table(seen, table);
        match (self.0, words, files.board.read(Role::Board)) {
            (Fault::BoardBeforePattern, [_, 1, ..], Err(refusal)) => {
                [refusal.number, 2, 0, 0, 0, 0]
            }
            (Fault::SixOnTheBoard, ..) => match files.pattern.read(Role::Pattern) {
                Err(refusal) => [refusal.number, 1, 0, 0, 0, 0],
                Ok(_) => words,
            },
            (Fault::PartsLeftOut, [0, ..], Ok(board)) => plain_row(files.pattern, &board, table),
            (Fault::ClearedRound, [0, 0, started, 0, struck, rounds], _) if started > 0 => {
                [0, 0, started, 0, struck, rounds + 1]
            }
            _ => self.counts(words),
        }
    }
}

impl Finder for Faulty {
    fn read(&self, role: u32, file: Told, out: Columns) -> Words {
        let role = match self.0 {
            Fault::OtherRole => 3 - Role::counted(role).number(),
            _ => role,
        };
        let words = Second.read(role, file, out);
        let role = Role::counted(role);
        let (n, m) = sizes(file.bytes);
        match (self.0, words[0], self.limit(role, file.bytes)) {
            (Fault::ReaderRefusesAll, ..) => [1, role.number(), 0, 0, 0, 0],
            (_, 2, Some(true)) => [0, 0, n as u32, m as u32, 0, 0],
            (_, 0, Some(false)) => [2, role.number(), 0, 0, 0, 0],
            (Fault::FiveBeforeFour, 4, _) if m > 1 => {
                let skipped = 4 + 2 * n * Edition::counted(file.edition).number() as usize;
                let at = |k: usize| sizes(&file.bytes[skipped + 2 * k..]).0;
                let fall = (1..m).any(|k| (at(k - 1), at(m + k - 1)) >= (at(k), at(m + k)));
                [if fall { 5 } else { 4 }, words[1], 0, 0, 0, 0]
            }
            _ => words,
        }
    }

    fn write(&self, role: u32, edition: u32, given: Given, out: &mut [u8]) -> Words {
        let (kinds, starts, ends) = (given.kinds, given.starts, given.ends);
        match self.0 {
            Fault::WritingCut => {
                let cut = |length: usize| length % 65536;
                let (n, m) = (cut(kinds.len()), cut(starts.len()));
                let even = ends.len() == starts.len();
                let given = Given {
                    kinds: &kinds[..n],
                    starts: &starts[..m],
                    ends: if even { &ends[..m] } else { ends },
                    ..given
                };
                Second.write(role, edition, given, out)
            }
            Fault::WritingUneven if ends.len() > starts.len() => {
                let ends = &ends[..starts.len()];
                Second.write(role, edition, Given { ends, ..given }, out)
            }
            Fault::PackagesJudged if given.packages.len() != kinds.len() => {
                let words = Second.write(role, 2, given, &mut []);
                [words[0], words[1], 0, 0, 0, 0]
            }
            _ => Second.write(role, edition, given, out),
        }
    }

    fn convert(&self, role: u32, file: Told, to: u32, out: &mut [u8]) -> Words {
        let words = Second.convert(role, file, to, out);
        if self.0 != Fault::PackagesDropped || words[0] != 12 {
            return words;
        }
        let circuit = file.read(Role::counted(role)).expect("a sound file");
        let bytes = circuit.bytes();
        if out.len() < bytes.len() {
            return [8, 0, 0, 0, 0, 0];
        }
        out[..bytes.len()].copy_from_slice(&bytes);
        [0, 0, bytes.len() as u32, 0, 0, 0]
    }

    fn load(&self, numbers: Numbers, out: &mut [u8]) -> Words {
        self.load_call(numbers, out)
    }

    fn neighbours(&self, direction: u32, lookup: Lookup, out: &mut [u16]) -> Words {
        match self.0 {
            Fault::OtherWay if direction < 2 => Second.neighbours(2, lookup, out),
            Fault::OtherWay => Second.neighbours(1, lookup, out),
            _ => Second.neighbours(direction, lookup, out),
        }
    }

    fn radius(&self, pattern: Told) -> Words {
        Second.radius(self.told(pattern))
    }

    fn ball(&self, board: Told, centre: usize, radius: u16, out: &mut [u16]) -> Words {
        Second.ball(self.told(board), centre, radius, out)
    }

    fn match_table(&self, files: Files, table: &mut [u32]) -> Words {
        let files = self.exchanged(files);
        match (self.0, files.pattern.edition) {
            (Fault::PackagesIgnored, ..=2) => {
                Second.match_table(Unpacked::of(files).files(), table)
            }
            (Fault::FourIsSecond, 4..) => {
                let pattern = Told {
                    edition: 2,
                    ..files.pattern
                };
                Second.match_table(Files { pattern, ..files }, table)
            }
            (_, 3..) => self.bounded_call(files, table),
            (_, 2) => Second.match_table(files, table),
            _ => self.match_first(files, table),
        }
    }

    fn match_one_way(&self, files: Files, table: &mut [u32]) -> Words {
        match self.0 {
            Fault::BothWays => {
                let edition = files.pattern.edition.min(2);
                let pattern = Told {
                    edition,
                    ..files.pattern
                };
                Second.match_table(Files { pattern, ..files }, table)
            }
            _ => Second.match_one_way(files, table),
        }
    }

    fn place(
        &self,
        files: Files,
        plain: bool,
        centre: usize,
        radius: Option<u16>,
        out: PlaceTables,
    ) -> Words {
        if self.0 == Fault::PlacesUnpacked {
            return Second.place(Unpacked::of(files).files(), plain, centre, radius, out);
        }
        let call = PlaceCall {
            pattern: files.pattern.bytes.to_vec(),
            board: files.board.bytes,
            editions: [files.pattern.edition, files.board.edition],
            centre,
            radius,
        };
        self.place_call(&call, out)
    }

    fn bar(&self, files: Files, centre: usize, out: &mut [u8]) -> Words {
        self.bar_call(files, centre, out)
    }

    fn report(&self, files: Files, _plain: bool, from: usize, found: u16, out: &mut [u8]) -> Words {
        self.report_call(files, from, found, out)
    }

    fn session(&self, files: Files, places: &[usize]) -> Run {
        let right = Second.session(files, places);
        let cutting = matches!(
            self.0,
            Fault::CutAgain
                | Fault::CutPastTheLast
                | Fault::CutOldPairs
                | Fault::CutForwardOnly
                | Fault::CutEarlierLink
                | Fault::CutPartsLeftOut
        );
        match files.read_in_bits() {
            Ok((pattern, board)) if cutting => faulty_session(self.0, pattern, board, places),
            _ => right,
        }
    }

    fn merge(&self, pattern: Told, classes: &mut [u8], out: &mut [u8]) -> Words {
        let words = Second.merge(pattern, classes, out);
        let Ok(circuit) = pattern.read(Role::Pattern) else {
            return words;
        };
        let (n, length) = (circuit.kinds.len(), pattern.bytes.len());
        match (self.0, words[0]) {
            (Fault::OwnClasses, 0) => {
                (0..n).for_each(|u| classes[u] = u as u8);
                out[..length].copy_from_slice(pattern.bytes);
                [0, 0, n as u32, length as u32, 0, 0]
            }
            (Fault::MergedLengthEnough, 8) if classes.len() >= n => {
                let mut longer = vec![0; length];
                let words = Second.merge(pattern, classes, &mut longer);
                let length = out.len().min(longer.len());
                out[..length].copy_from_slice(&longer[..length]);
                words
            }
            _ => words,
        }
    }

    fn check(&self, files: Files, centre: usize, nodes: &[u8], links: &[u8]) -> Words {
        Second.check(files, centre, nodes, links)
    }

    fn compare(&self, first: &[u8], second: &[u8]) -> Words {
        let words = Second.compare(first, second);
        let rank = |less: bool, equal: bool| {
            [
                0,
                0,
                0,
                if equal { 2 } else { 3 - 2 * u32::from(less) },
                0,
                0,
            ]
        };
        match self.0 {
            Fault::OrderByBytes if words[0] == 0 => rank(first < second, first == second),
            Fault::LinksBeforeNodes if words[0] == 0 => {
                let (one, other) = (swapped(first), swapped(second));
                rank(one < other, one == other)
            }
            Fault::SecondRefusedFirst if words[0] != 0 => {
                let turned = Second.compare(second, first);
                [turned[0], turned[1], 3 - turned[2], 0, 0, 0]
            }
            _ => words,
        }
    }

    fn shelf(&self, bytes: &[u8], lengths: &[u32], order: &mut [u8]) -> Words {
        let words = Second.shelf(bytes, lengths, order);
        let files = strings(bytes, lengths);
        let count = words[2] as usize;
        let same = |a: u8, b: u8| files[usize::from(a)] == files[usize::from(b)];
        match self.0 {
            Fault::HigherNumberFirst if words[0] == 0 => {
                for at in 1..count {
                    if same(order[at - 1], order[at]) {
                        order.swap(at - 1, at);
                    }
                }
                words
            }
            Fault::EqualDropped if words[0] == 0 => {
                let mut kept: Vec<u8> = order[..count].to_vec();
                kept.dedup_by(|a, b| same(*a, *b));
                order[..kept.len()].copy_from_slice(&kept);
                [0, 0, kept.len() as u32, 0, 0, 0]
            }
            Fault::RefusedStops => {
                let sound = files.iter().take_while(|file| pattern(file).is_ok());
                Second.shelf(bytes, &lengths[..sound.count()], order)
            }
            _ => words,
        }
    }
}

/// A file's numbers, with M before N.
fn swapped(file: &[u8]) -> Vec<u16> {
    let two = file
        .chunks_exact(2)
        .map(|two| u16::from_le_bytes([two[0], two[1]]));
    let mut numbers: Vec<u16> = two.collect();
    numbers.swap(0, 1);
    numbers
}

/// Follows the paths that a faulty finder takes for a pattern link of a bound,
/// from a node after so many links, and marks where they may end.
fn follow(
    fault: Fault,
    board: &Circuit,
    inner: &[bool],
    (from, at): (usize, usize),
    left: u16,
    ends: &mut [bool],
) {
    for &(v, w) in &board.links {
        let mut next = vec![];
        next.extend((v == at).then_some(w));
        next.extend((fault == Fault::BoundUndirected && w == at).then_some(v));
        for w in next {
            let last = left == 1;
            let counts = fault != Fault::BoundExact || last;
            ends[w] |= counts && (fault != Fault::BoundNoReturn || w != from);
            if !last && (fault != Fault::BoundInnerMatched || inner[w]) {
                follow(fault, board, inner, (from, w), left - 1, ends);
            }
        }
    }
}

/// The pairs of nodes that a faulty finder takes for joined within a bound.
fn faulty_joined(fault: Fault, board: &Circuit, inner: &[bool], bound: u16) -> Vec<(usize, usize)> {
    let mut pairs = vec![];
    for v in 0..board.kinds.len() {
        let mut ends = vec![false; board.kinds.len()];
        ends[v] = fault == Fault::BoundNone;
        follow(fault, board, inner, (v, v), bound, &mut ends);
        pairs.extend((0..ends.len()).filter(|&w| ends[w]).map(|w| (v, w)));
    }
    pairs
}

/// The table and the counts of a faulty finder. Only small boards are tried:
/// every path is followed.
fn faulty_bounded(fault: Fault, pattern: &Bounded, board: &Circuit) -> (Pairs, Counts) {
    let first = Pairs::first(&pattern.circuit, board, &Subgraph::whole(board));
    let bound = |at: usize| {
        let (u, _) = pattern.circuit.links[at];
        let links = pattern.circuit.links.iter().zip(&pattern.bounds);
        match fault {
            Fault::BoundLargest => links
                .filter(|(link, _)| link.0 == u)
                .map(|(_, &bound)| bound)
                .max()
                .expect("a link"),
            _ => pattern.bounds[at],
        }
    };
    let mut last = first.clone();
    let mut rounds = 0;
    loop {
        let inner: Vec<bool> = (0..board.kinds.len()).map(|v| last.occurs(v)).collect();
        let met: Vec<_> = (0..pattern.bounds.len())
            .map(|at| faulty_joined(fault, board, &inner, bound(at)))
            .collect();
        let links = || pattern.circuit.links.iter().copied();
        let mut next = last.next_by(links().zip(met.iter().map(|pairs| &pairs[..])));
        if fault == Fault::BoundForward {
            for (at, (u, t)) in links().enumerate() {
                for w in 0..board.kinds.len() {
                    let mut drives = met[at].iter().filter(|pair| pair.1 == w);
                    let one = board.links.iter().any(|&(v, x)| x == w && last.rows[u][v]);
                    next.rows[t][w] &= !drives.any(|&(v, _)| last.rows[u][v]) || one;
                }
            }
        }
        if next == last {
            return none_left_out(&first, last, rounds);
        }
        last = next;
        rounds += 1;
    }
}

impl Faulty {
    fn bounded_call(&self, files: Files, table: &mut [u32]) -> Words {
        let (pattern, board) = (files.pattern.bytes, files.board);
        let asked = |pattern: &[u8], table: &mut [u32]| {
            let pattern = Told::third(pattern);
            Second.match_table(Files { pattern, board }, table)
        };
        let right = asked(pattern, table);
        let given = board.read(Role::Board);
        match (self.0, right[0], read_bounded(pattern), given) {
            (Fault::BoundFive, 13, ..) => {
                let mut cut = pattern.to_vec();
                let (_, m) = sizes(pattern);
                let bounds = cut.len() - 2 * m..;
                let five = |two: &mut [u8]| two[0] = if two[0] == 5 { 4 } else { two[0] };
                cut[bounds].chunks_exact_mut(2).for_each(five);
                asked(&cut, table)
            }
            (Fault::ThirteenLate, 13, _, Err(refusal)) => [refusal.number, 2, 0, 0, 0, 0],
            (Fault::ThirteenEarly, 5, ..) => {
                let (_, m) = sizes(pattern);
                let mut bounds = pattern[pattern.len() - 2 * m..].chunks_exact(2);
                let sound = bounds.all(|two| (1..=4).contains(&two[0]) && two[1] == 0);
                [if sound { 5 } else { 13 }, 1, 0, 0, 0, 0]
            }
            (Fault::BoundsLeftOut, 3, ..) => {
                let (_, m) = sizes(pattern);
                let mut whole = pattern.to_vec();
                whole.extend([1, 0].repeat(m));
                asked(&whole, table)
            }
            (fault, 0, Ok(drawn), Ok(board)) if bounds_fault(fault) && board.links.len() < 40 => {
                let (pairs, counts) = faulty_bounded(fault, &drawn, &board);
                for (v, entry) in table.iter_mut().enumerate().take(board.kinds.len()) {
                    *entry = pairs.word(v);
                }
                Counted {
                    number: 0,
                    file: File::Neither,
                    counts,
                }
                .into()
            }
            _ => right,
        }
    }
}

/// Whether the fault is one of following paths.
fn bounds_fault(fault: Fault) -> bool {
    matches!(
        fault,
        Fault::BoundExact
            | Fault::BoundNone
            | Fault::BoundUndirected
            | Fault::BoundForward
            | Fault::BoundNoReturn
            | Fault::BoundInnerMatched
            | Fault::BoundLargest
    )
}

/// Whether a faulty finder says that some of a pattern's links bar.
fn faulty_bars(
    fault: Fault,
    pattern: &Circuit,
    board: &Circuit,
    centre: usize,
    chosen: &[bool],
) -> bool {
    let links = pattern.links.iter().zip(chosen);
    let rest = Circuit {
        links: links.filter(|(_, &is)| is).map(|(&link, _)| link).collect(),
        ..pattern.clone()
    };
    let reach = match fault {
        Fault::BarReducedRadius => radius(&rest),
        _ => radius(pattern),
    };
    let (pairs, _) = largest(&rest, board, &ball(board, centre, reach));
    let linked = |u: usize| rest.links.iter().any(|&(s, e)| s == u || e == u);
    match fault {
        Fault::BarOccurring => {
            !pairs.occurs(centre) || pairs.rows.iter().any(|row| !row.contains(&true))
        }
        Fault::BarPartsDropped => {
            let mut rows = pairs.rows.iter().enumerate();
            !rows.any(|(u, row)| row[centre] && linked(u))
        }
        _ => !pairs.occurs(centre),
    }
}

/// The kept links as a faulty finder has them.
fn faulty_least(fault: Fault, pattern: &Circuit, board: &Circuit, centre: usize) -> Vec<bool> {
    let links = pattern.links.len();
    let mut order: Vec<usize> = (0..links).collect();
    if fault == Fault::BarFalling {
        order.reverse();
    }
    let mut kept = vec![true; links];
    for at in order {
        let mut tried = match fault {
            Fault::BarAgainstAll => vec![true; links],
            _ => kept.clone(),
        };
        tried[at] = false;
        kept[at] = !faulty_bars(fault, pattern, board, centre, &tried);
        if fault == Fault::BarStops && kept[at] {
            break;
        }
    }
    kept
}

impl Faulty {
    fn bar_call(&self, files: Files, centre: usize, out: &mut [u8]) -> Words {
        let right = Second.bar(files, centre, &mut out.to_vec());
        let whole = || Second.bar(files, centre, &mut [0; 256]);
        match (self.0, right[0]) {
            (Fault::BarFifteenFirst, 8) if whole()[0] == 15 => [15, 0, 0, 0, 0, 0],
            (Fault::BarNine, 15) => [9, 0, 0, 0, 0, 0],
            (_, 0) => {
                let Ok((pattern, board)) = files.read() else {
                    return right;
                };
                let kept = faulty_least(self.0, &pattern, &board, centre);
                let count = kept.iter().filter(|&&is| is).count();
                out.iter_mut()
                    .zip(&kept)
                    .for_each(|(b, &is)| *b = is.into());
                let dropped = self.0 == Fault::BarCountsDropped;
                let told = if dropped { kept.len() - count } else { count };
                [0, 0, told as u32, 0, 0, 0]
            }
            _ => right,
        }
    }
}

/// A load's bytes as a faulty generator makes them.
fn faulty_load(fault: Fault, numbers: Numbers) -> Vec<u8> {
    let mut state = numbers.seed;
    let mut draw = |bound: u32| {
        let old = state;
        state = state.wrapping_mul(1_664_525).wrapping_add(1_013_904_223);
        match fault {
            Fault::LoadLowBits => (state & 0xFFFF) % bound,
            Fault::LoadDrawsFirst => (old >> 16) % bound,
            _ => (state >> 16) % bound,
        }
    };
    let (mut kinds, mut links) = (Vec::new(), Vec::new());
    let (nodes, pairs, bound) = (numbers.nodes, numbers.pairs, numbers.kinds.max(1));
    let links_first = fault == Fault::LoadLinksFirst;
    for round in [links_first, !links_first] {
        if round {
            for _ in 0..pairs {
                let (one, two) = (draw(nodes.max(1)) as usize, draw(nodes.max(1)) as usize);
                links.push(if fault == Fault::LoadEndFirst {
                    (two, one)
                } else {
                    (one, two)
                });
            }
        } else {
            kinds = (0..nodes).map(|_| draw(bound) as u16).collect();
        }
    }
    if fault != Fault::LoadUnsorted {
        links.sort_unstable();
    }
    if fault != Fault::LoadRepeated {
        let mut seen = std::collections::BTreeSet::new();
        links.retain(|&link| seen.insert(link));
    }
    Circuit {
        kinds,
        packages: Vec::new(),
        links,
    }
    .bytes()
}

impl Faulty {
    /// The load call with a fault of its own.
    fn load_call(&self, numbers: Numbers, out: &mut [u8]) -> Words {
        let right = Second.load(numbers, &mut out.to_vec());
        let short = out.len() < numbers.needed();
        let made = match self.0 {
            Fault::LoadEightFirst if right[0] == 10 && short => return [8, 0, 0, 0, 0, 0],
            Fault::LoadNamesBoard if right[0] == 10 => return [10, 2, 0, 0, 0, 0],
            Fault::LoadKindsUnder if numbers.kinds == 65536 => return [10, 0, 0, 0, 0, 0],
            Fault::LoadNoKinds if numbers.kinds == 0 && !short => right[0] == 10,
            Fault::LoadNoNodes if numbers.nodes == 0 && numbers.pairs == 0 && !short => true,
            Fault::LoadOwnLength => right[0] == 8,
            _ => right[0] == 0,
        };
        if !made || numbers.nodes > 512 || numbers.pairs > 4096 || numbers.kinds > 65536 {
            return right;
        }
        let bytes = faulty_load(self.0, numbers);
        if out.len() < bytes.len() {
            return right;
        }
        out[..bytes.len()].copy_from_slice(&bytes);
        [0, 0, bytes.len() as u32, 0, 0, 0]
    }
}

/// The table of a machine, as a session with a fault has it.
fn faulty_table(fault: Fault, machine: &Machine, last: &[u32]) -> Vec<u32> {
    let rest = machine.rest();
    let (pairs, _) = largest(&machine.pattern, &rest, &Subgraph::whole(&rest));
    let plain: Vec<u32> = (0..rest.kinds.len()).map(|v| pairs.word(v)).collect();
    match fault {
        Fault::CutPartsLeftOut => plain,
        Fault::CutOldPairs => last.to_vec(),
        Fault::CutForwardOnly => {
            let starts: Vec<usize> = rest.links.iter().map(|link| link.0).collect();
            let own = machine.table();
            let keep = |v: usize| if starts.contains(&v) { own[v] } else { last[v] };
            (0..own.len()).map(keep).collect()
        }
        _ => machine.table(),
    }
}

/// A session with a fault in its cuts.
fn faulty_session(fault: Fault, pattern: Circuit, board: Circuit, places: &[usize]) -> Run {
    let mut machine = Machine::fresh(pattern, board);
    let mut last = machine.table();
    let mut run = Run::opened(last.clone());
    let m = machine.left.len();
    for &place in places {
        let wrong = if fault == Fault::CutEarlierLink && place > 0 {
            place - 1
        } else {
            place
        };
        let out = place < m && !machine.left[place];
        let number = match machine.cut(wrong) {
            Ok(()) => 0,
            Err(_) if fault == Fault::CutAgain && out => 0,
            Err(_) if fault == Fault::CutPastTheLast && place == m => 0,
            Err(refusal) => refusal.number,
        };
        last = faulty_table(fault, &machine, &last);
        run.push(number, last.clone());
    }
    run
}

/// The whole-board call without the rule that every part has a node.
fn plain_row(pattern: Told, board: &Circuit, table: &mut [u32]) -> Words {
    let pattern = pattern.read_in_bits(Role::Pattern).expect("accepted");
    let (pairs, counts) = largest(&pattern, board, &Subgraph::whole(board));
    for (v, entry) in table.iter_mut().enumerate().take(board.kinds.len()) {
        *entry = pairs.word(v);
    }
    let word = |number: usize| number as u32;
    let (started, kept) = (word(counts.started), word(counts.kept));
    [0, 0, started, kept, started - kept, word(counts.rounds)]
}

/// The number of the first of so many random cases that tells the finders apart.
fn first_case(finder: &Faulty, cases: u64) -> Option<u64> {
    let mut tally = Tally::default();
    (0..cases).find(|&number| case::check(finder, 1, number, &mut tally).is_err())
}

#[test]
fn no_fault_no_difference() {
    let mut tally = Tally::default();
    edges::check(&Faulty(Fault::None), &mut tally).expect("no difference");
    for number in 0..2000 {
        case::check(&Faulty(Fault::None), 1, number, &mut tally).expect("no difference");
    }
    println!("{tally}");
    assert!((0..11).all(|number| tally.given(number) > 1000));
    assert!(tally.of("place", 0) > 1000);
}

#[test]
fn every_fault_is_found() {
    for fault in FAULTS {
        let finder = Faulty(fault);
        let case = first_case(&finder, 3000);
        println!("{fault:?}: random case {case:?}");
        let found = case.is_some() || edges::check(&finder, &mut Tally::default()).is_err();
        assert!(found, "{fault:?} is not found");
    }
}
