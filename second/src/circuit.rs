//! Circuits, their two roles, their files as calls are told them, and the
//! refusals about one file.

use crate::bounded::Bounded;
use crate::graph;

/// Which file a refusal means.
#[derive(Clone, Copy, Debug, PartialEq, Eq)]
pub enum File {
    Neither,
    Pattern,
    Board,
}

impl File {
    /// The file as the host library numbers it.
    pub fn code(self) -> u32 {
        match self {
            File::Neither => 0,
            File::Pattern => 1,
            File::Board => 2,
        }
    }
}

/// A refusal: its number and the file that was meant.
#[derive(Clone, Copy, Debug, PartialEq, Eq)]
pub struct Refusal {
    pub number: u32,
    pub file: File,
}

impl Refusal {
    /// A refusal that is not about one file alone.
    pub fn neither(number: u32) -> Refusal {
        Refusal {
            number,
            file: File::Neither,
        }
    }
}

/// What a circuit is read or written as.
#[derive(Clone, Copy, Debug, PartialEq, Eq)]
pub enum Role {
    Pattern,
    Board,
}

/// What a number counts as that stands for one of two things: 1 for the one, 2
/// for the other. A lower number counts as 1, a higher one as 2.
pub fn counted<T>(number: u32, [one, other]: [T; 2]) -> T {
    if number < 2 {
        one
    } else {
        other
    }
}

impl Role {
    /// The role that a number counts as.
    pub fn counted(number: u32) -> Role {
        counted(number, [Role::Pattern, Role::Board])
    }

    /// The number that stands for the role.
    pub fn number(self) -> u32 {
        match self {
            Role::Pattern => 1,
            Role::Board => 2,
        }
    }

    /// Whether the role allows so many nodes and so many links.
    pub fn allows(self, nodes: usize, links: usize) -> bool {
        match self {
            Role::Pattern => (1..=32).contains(&nodes) && links <= 256,
            Role::Board => nodes <= 512 && links <= 4096,
        }
    }

    /// A refusal that names this role's file.
    pub fn refuses(self, number: u32) -> Refusal {
        let file = match self {
            Role::Pattern => File::Pattern,
            Role::Board => File::Board,
        };
        Refusal { number, file }
    }
}

/// Which edition of the circuit file a file is.
#[derive(Clone, Copy, Debug, PartialEq, Eq)]
pub enum Edition {
    First,
    Second,
}

impl Edition {
    /// The edition that a number counts as.
    pub fn counted(number: u32) -> Edition {
        counted(number, [Edition::First, Edition::Second])
    }

    /// The number that stands for the edition.
    pub fn number(self) -> u32 {
        match self {
            Edition::First => 1,
            Edition::Second => 2,
        }
    }
}

/// A circuit file as a call is told it: its bytes, and a number that stands
/// for its edition.
#[derive(Clone, Copy, Debug, PartialEq, Eq)]
pub struct Told<'a> {
    pub bytes: &'a [u8],
    pub edition: u32,
}

impl<'a> Told<'a> {
    /// A file told by its edition's own number.
    pub fn of(edition: Edition, bytes: &'a [u8]) -> Told<'a> {
        let edition = edition.number();
        Told { bytes, edition }
    }

    /// A file told as of the first edition.
    pub fn first(bytes: &'a [u8]) -> Told<'a> {
        Told::of(Edition::First, bytes)
    }

    /// A pattern file told as of the third edition.
    pub fn third(bytes: &'a [u8]) -> Told<'a> {
        Told { bytes, edition: 3 }
    }

    /// Whether the whole-board match takes the file for one of the third
    /// edition. No other call knows that edition.
    pub fn is_third(self) -> bool {
        self.edition > 2
    }

    /// The circuit in the file read in a role, or the first of the refusals
    /// about one file.
    pub fn read(self, role: Role) -> Result<Circuit, Refusal> {
        let circuit = self.read_in_bits(role)?;
        circuit.judge_shape(role)?;
        Ok(circuit)
    }

    /// The circuit in the file read in a role, connected or not, or the first
    /// of refusals 1 to 5.
    pub fn read_in_bits(self, role: Role) -> Result<Circuit, Refusal> {
        let edition = Edition::counted(self.edition);
        let (n, m) = sized(self.bytes, role, |n, m| Circuit::length_in(edition, n, m))?;
        let fields = fields(&self.bytes[4..]);
        let (kinds, rest) = fields.split_at(n);
        let (packages, links) = match edition {
            Edition::First => rest.split_at(0),
            Edition::Second => rest.split_at(n),
        };
        let (starts, ends) = links.split_at(m);
        let circuit = assemble(kinds, packages, starts, ends);
        circuit.judge_links(role)?;
        Ok(circuit)
    }
}

/// The two files of a call.
#[derive(Clone, Copy, Debug, PartialEq, Eq)]
pub struct Files<'a> {
    pub pattern: Told<'a>,
    pub board: Told<'a>,
}

impl<'a> Files<'a> {
    /// Two files and the numbers for their editions.
    pub fn told([one, other]: [u32; 2], pattern: &'a [u8], board: &'a [u8]) -> Files<'a> {
        let told = |bytes, edition| Told { bytes, edition };
        Files {
            pattern: told(pattern, one),
            board: told(board, other),
        }
    }

    /// Two files told by their editions' own numbers.
    pub fn of(editions: [Edition; 2], pattern: &'a [u8], board: &'a [u8]) -> Files<'a> {
        Files::told(editions.map(Edition::number), pattern, board)
    }

    /// Two files told as of the first edition.
    pub fn first(pattern: &'a [u8], board: &'a [u8]) -> Files<'a> {
        Files::of([Edition::First; 2], pattern, board)
    }

    /// Both circuits, the pattern's refusals before the board's.
    pub fn read(self) -> Result<(Circuit, Circuit), Refusal> {
        let pattern = self.pattern.read(Role::Pattern)?;
        Ok((pattern, self.board.read(Role::Board)?))
    }

    /// Both circuits for the whole-board table, which takes patterns in
    /// several bits and of any radius.
    pub fn read_in_bits(self) -> Result<(Circuit, Circuit), Refusal> {
        let pattern = self.pattern.read_in_bits(Role::Pattern)?;
        Ok((pattern, self.board.read(Role::Board)?))
    }
}

/// A circuit: the kind of each node, the packages, and the links in file
/// order, each as its start and its end. A node past the last package has
/// package 0.
#[derive(Clone, Debug, PartialEq, Eq)]
pub struct Circuit {
    pub kinds: Vec<u16>,
    pub packages: Vec<u16>,
    pub links: Vec<(usize, usize)>,
}

impl Circuit {
    /// The package of a node.
    pub fn package(&self, node: usize) -> u16 {
        self.packages.get(node).copied().unwrap_or(0)
    }

    /// The packages of all nodes.
    pub fn all_packages(&self) -> Vec<u16> {
        (0..self.kinds.len()).map(|v| self.package(v)).collect()
    }

    /// The first-edition file of this circuit. Every number must fit its
    /// 16-bit field.
    pub fn bytes(&self) -> Vec<u8> {
        self.bytes_in(Edition::First)
    }

    /// The file of this circuit in an edition.
    pub fn bytes_in(&self, edition: Edition) -> Vec<u8> {
        let field = |number: usize| u16::try_from(number).expect("a 16-bit field");
        let mut fields = vec![field(self.kinds.len()), field(self.links.len())];
        fields.extend(&self.kinds);
        if edition == Edition::Second {
            fields.extend(self.all_packages());
        }
        fields.extend(self.links.iter().map(|link| field(link.0)));
        fields.extend(self.links.iter().map(|link| field(link.1)));
        fields.iter().flat_map(|f| f.to_le_bytes()).collect()
    }

    /// How long the first-edition file of a circuit of so many nodes and
    /// links is.
    pub fn length(nodes: usize, links: usize) -> usize {
        Circuit::length_in(Edition::First, nodes, links)
    }

    /// How long the file of a circuit of so many nodes and links is.
    pub fn length_in(edition: Edition, nodes: usize, links: usize) -> usize {
        match edition {
            Edition::First => 4 + 2 * nodes + 4 * links,
            Edition::Second => 4 + 4 * nodes + 4 * links,
        }
    }

    /// Refusals 4 and 5, in this order.
    fn judge_links(&self, role: Role) -> Result<(), Refusal> {
        let nodes = self.kinds.len();
        if self.links.iter().any(|&(v, w)| v >= nodes || w >= nodes) {
            return Err(role.refuses(4));
        }
        if self.links.windows(2).any(|pair| pair[0] >= pair[1]) {
            return Err(role.refuses(5));
        }
        Ok(())
    }

    /// Refusals 6 and 11, in this order.
    fn judge_shape(&self, role: Role) -> Result<(), Refusal> {
        if role == Role::Board {
            return Ok(());
        }
        if !graph::connected(self.kinds.len(), &self.links) {
            return Err(role.refuses(6));
        }
        if graph::radius(self) > 12 {
            return Err(role.refuses(11));
        }
        Ok(())
    }
}

/// The 16-bit fields of some bytes, low byte first; an odd last byte is left.
fn fields(bytes: &[u8]) -> Vec<u16> {
    bytes
        .chunks_exact(2)
        .map(|two| u16::from_le_bytes([two[0], two[1]]))
        .collect()
}

/// N and M of a file in a role, or the first of refusals 1 to 3; its length
/// has to be the one given of N and M.
fn sized(
    bytes: &[u8],
    role: Role,
    length: impl Fn(usize, usize) -> usize,
) -> Result<(usize, usize), Refusal> {
    if bytes.len() < 4 {
        return Err(role.refuses(1));
    }
    let fields = fields(&bytes[..4]);
    let (n, m) = (usize::from(fields[0]), usize::from(fields[1]));
    if !role.allows(n, m) {
        return Err(role.refuses(2));
    }
    if bytes.len() != length(n, m) {
        return Err(role.refuses(3));
    }
    Ok((n, m))
}

/// The pattern in a third-edition file: a file of the second edition, and a
/// bound for each link after its ends; or the first of refusals 1 to 5 and 13.
pub fn read_bounded(bytes: &[u8]) -> Result<Bounded, Refusal> {
    let role = Role::Pattern;
    let (_, m) = sized(bytes, role, |n, m| 4 + 4 * n + 6 * m)?;
    let (plain, bounds) = bytes.split_at(bytes.len() - 2 * m);
    let circuit = Told::of(Edition::Second, plain).read_in_bits(role)?;
    let bounds = fields(bounds);
    if bounds.iter().any(|bound| !(1..=4).contains(bound)) {
        return Err(role.refuses(13));
    }
    Ok(Bounded { circuit, bounds })
}

/// A circuit given as tables that are to be written.
#[derive(Clone, Copy, Debug, PartialEq, Eq)]
pub struct Given<'a> {
    pub kinds: &'a [u16],
    pub packages: &'a [u16],
    pub starts: &'a [u16],
    pub ends: &'a [u16],
}

impl Given<'_> {
    /// The circuit, to be written in a role and an edition, or the first of
    /// refusals 2 to 6 and 11. In the first edition packages are not looked at.
    pub fn circuit(self, role: Role, edition: Edition) -> Result<Circuit, Refusal> {
        let (n, m) = (self.kinds.len(), self.starts.len());
        if !role.allows(n, m) {
            return Err(role.refuses(2));
        }
        let packages = match edition {
            Edition::First => &[],
            Edition::Second => self.packages,
        };
        if m != self.ends.len() || edition == Edition::Second && packages.len() != n {
            return Err(role.refuses(3));
        }
        let circuit = assemble(self.kinds, packages, self.starts, self.ends);
        circuit.judge_links(role)?;
        circuit.judge_shape(role)?;
        Ok(circuit)
    }
}

/// The circuit with these kinds, packages, starts and ends.
fn assemble(kinds: &[u16], packages: &[u16], starts: &[u16], ends: &[u16]) -> Circuit {
    let pairs = starts.iter().zip(ends);
    Circuit {
        kinds: kinds.to_vec(),
        packages: packages.to_vec(),
        links: pairs.map(|(&v, &w)| (v.into(), w.into())).collect(),
    }
}
