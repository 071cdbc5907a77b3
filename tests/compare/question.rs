//! A question of `calls_test`: a head of nine numbers, and the file behind it.

/// The bytes of a head: nine numbers of 8 bytes, little-endian.
pub const HEAD_LENGTH: usize = 72;

#[derive(Clone, Copy, PartialEq, Eq)]
pub enum Operation {
    Open,
    Body,
    Moves,
    Decide,
    Run,
    Join,
    Report,
    Readers,
    Constants,
    Graph,
    Explain,
    Pick,
    Reach,
    Merge,
}

/// All operations, each at its number.
pub const OPERATIONS: [Operation; 14] = [
    Operation::Open,
    Operation::Body,
    Operation::Moves,
    Operation::Decide,
    Operation::Run,
    Operation::Join,
    Operation::Report,
    Operation::Readers,
    Operation::Constants,
    Operation::Graph,
    Operation::Explain,
    Operation::Pick,
    Operation::Reach,
    Operation::Merge,
];

/// Those that random cases ask for.
pub const RANDOM_OPERATIONS: [Operation; 12] = [
    Operation::Open,
    Operation::Body,
    Operation::Moves,
    Operation::Decide,
    Operation::Run,
    Operation::Join,
    Operation::Report,
    Operation::Graph,
    Operation::Explain,
    Operation::Pick,
    Operation::Reach,
    Operation::Merge,
];

/// Those that take two tables, a pair of states and a set of standing resources.
pub const STANDING_OPERATIONS: [Operation; 6] = [
    Operation::Moves,
    Operation::Decide,
    Operation::Run,
    Operation::Graph,
    Operation::Explain,
    Operation::Reach,
];

#[derive(Clone, Copy)]
pub struct Question {
    pub operation: Operation,
    pub mode: usize,
    pub first_table: usize,
    pub demand_state: usize,
    pub second_table: usize,
    pub supply_state: usize,
    pub first_length: usize,
    pub second_length: usize,
    /// A set of resources, of which the lowest 16 bits are read: of Join the common
    /// ones, of `STANDING_OPERATIONS` and Pick those that stand.
    pub set: usize,
}

impl Question {
    /// The question in an input, if there is a whole head with a known operation.
    pub fn read(input: &[u8]) -> Option<Question> {
        if input.len() < HEAD_LENGTH {
            return None;
        }
        let number = |index: usize| {
            let bytes = input[8 * index..8 * index + 8].try_into().expect("eight bytes");
            u64::from_le_bytes(bytes) as usize
        };
        Some(Question {
            operation: *OPERATIONS.get(number(0))?,
            mode: number(1),
            first_table: number(2),
            demand_state: number(3),
            second_table: number(4),
            supply_state: number(5),
            first_length: number(6),
            second_length: number(7),
            set: number(8),
        })
    }

    /// The set of resources, without the bits that are not read.
    pub fn resources(&self) -> u16 {
        self.set as u16
    }

    /// The whole input: the head, then the file.
    pub fn before(&self, file: &[u8]) -> Vec<u8> {
        let numbers = [
            self.operation as usize,
            self.mode,
            self.first_table,
            self.demand_state,
            self.second_table,
            self.supply_state,
            self.first_length,
            self.second_length,
            self.set,
        ];
        let mut input: Vec<u8> =
            numbers.iter().flat_map(|number| (*number as u64).to_le_bytes()).collect();
        input.extend(file);
        input
    }
}
