//! Graphs: random ones, by seed, and shapes of a given size.
use crate::codes::{BAND, BOR, BXOR, CONDITIONS, IADD, ICMP, ICONST, IMUL, ISHL, OPAQUE, SELECT, SEXTEND, SSHR, UEXTEND, USHR};
use crate::codes::{OTHER, WIDTHS, is_integer, operand_counts};
use crate::graph::{Graph, InstRow, ValueRow};
use crate::random::Random;

/// At most so many values, and instructions.
pub const MOST: usize = 1024;

/// A random graph: mostly small, some large, a few with 1,024 values.
pub fn random_graph(random: &mut Random) -> Graph {
    let size = match random.below(100) {
        0..=59 => 3 + random.below(22),
        60..=89 => 25 + random.below(120),
        90..=96 => 150 + random.below(350),
        _ => MOST - random.below(3) * random.below(250),
    };
    random_graph_of(random, size)
}

/// A random graph of about so many values; exactly as many where 1,000 or more are asked for.
pub fn random_graph_of(random: &mut Random, size: usize) -> Graph {
    let habits = Habits::random(random);
    graph_with_habits(random, size, habits)
}

fn graph_with_habits(random: &mut Random, size: usize, habits: Habits) -> Graph {
    let mut maker =
        Maker { most_values: MOST.min(size + 6), habits, graph: Graph::default(), pools: Default::default(), latest: [None; 5], random };
    while maker.graph.values.len() + 6 < maker.most_values && maker.graph.insts.len() + 6 < MOST {
        let width = maker.width();
        maker.add_something(width);
    }
    while size >= 1000 && maker.graph.values.len() < size.min(MOST) {
        maker.param(32);
    }
    let Maker { mut graph, random, .. } = maker;
    lay_out(random, &mut graph);
    turn_unions(random, &mut graph);
    if random.chance(40) {
        let numbers = random.order(graph.values.len());
        graph = with_values_numbered(&graph, &numbers);
    }
    if random.chance(40) {
        let numbers = random.order(graph.insts.len());
        graph = with_insts_numbered(&graph, &numbers);
    }
    graph
}

/// What a random graph is like; chances are in percent.
struct Habits {
    /// An operand is the latest operation of its type: long chains.
    chain: usize,
    /// An operand is one of the first few values of its type: many users.
    shared: usize,
    /// An operand is a new constant.
    constant: usize,
    /// A shift's amount has a width of its own.
    two_widths: usize,
    /// A value has the graph's main width.
    main: usize,
    main_width: u16,
}

impl Habits {
    /// The same at every size, and no shift of two widths, which the Rust translates and we do not: for measuring.
    const MEASURED: Habits = Habits { chain: 20, shared: 0, constant: 10, two_widths: 0, main: 75, main_width: 32 };

    fn random(random: &mut Random) -> Habits {
        Habits {
            chain: random.pick(&[0, 20, 50, 90]),
            shared: random.pick(&[0, 0, 30, 90]),
            constant: random.pick(&[3, 10, 30]),
            two_widths: if random.chance(25) { 60 } else { 0 },
            main: random.pick(&[40, 75, 95]),
            main_width: random.pick(&WIDTHS),
        }
    }
}

/// A graph in the making. Operands are made before what uses them, so there is no loop.
struct Maker<'a> {
    random: &'a mut Random,
    graph: Graph,
    most_values: usize,
    habits: Habits,
    /// The live values of each type.
    pools: [Vec<usize>; 5],
    /// The latest operation of each type.
    latest: [Option<usize>; 5],
}

/// Which pool a type has.
fn pool(ty: u16) -> usize {
    WIDTHS.iter().position(|width| *width == ty).unwrap_or(4)
}

const TYPES: [u16; 5] = [OTHER, 8, 16, 32, 64];

impl Maker<'_> {
    fn width(&mut self) -> u16 {
        if self.random.chance(self.habits.main) { self.habits.main_width } else { self.random.pick(&WIDTHS) }
    }

    fn value(&mut self, row: ValueRow) -> usize {
        let number = self.graph.values.len();
        self.graph.values.push(row);
        if row != ValueRow::Deleted {
            self.pools[pool(row.ty())].push(number);
        }
        number
    }

    /// An instruction that lists results of these types, which it has.
    fn inst(&mut self, inst: InstRow, types: &[u16]) -> Vec<usize> {
        let number = self.graph.insts.len();
        let rows = types.iter().enumerate();
        let results: Vec<usize> = rows.map(|(place, ty)| self.value(ValueRow::Result { ty: *ty, place, inst: number })).collect();
        self.graph.insts.push(InstRow { results: results.clone(), ..inst });
        results
    }

    fn param(&mut self, ty: u16) -> usize {
        let number = if self.random.chance(3) { 65535 } else { self.random.below(8) };
        let block = self.random.below(64);
        self.value(ValueRow::Param { ty, number, block })
    }

    fn constant(&mut self, width: u16) -> usize {
        let immediate = self.random.number(width) as i64;
        self.inst(InstRow { opcode: ICONST, immediate, ..Default::default() }, &[width])[0]
    }

    /// Some value of a type, made if there is none.
    fn some(&mut self, ty: u16) -> usize {
        let count = self.pools[pool(ty)].len();
        let has_room = self.graph.values.len() + 1 < self.most_values && self.graph.insts.len() + 1 < MOST;
        if count == 0 || (has_room && self.habits.chain < 90 && self.random.chance(8)) {
            return if is_integer(ty) && self.random.chance(50) { self.constant(ty) } else { self.param(ty) };
        }
        if is_integer(ty) && has_room && self.random.chance(self.habits.constant) {
            return self.constant(ty);
        }
        if self.random.chance(self.habits.chain) {
            return self.latest[pool(ty)].unwrap_or(self.pools[pool(ty)][count - 1]);
        }
        let among = if self.random.chance(self.habits.shared) { count.min(4) } else { count };
        let at = self.random.below(among);
        self.pools[pool(ty)][at]
    }

    fn anything(&mut self) -> usize {
        let ty = self.random.pick(&TYPES);
        self.some(ty)
    }

    fn add_something(&mut self, width: u16) {
        match self.random.below(100) {
            0..=5 => {
                let ty = if self.random.chance(40) { width } else { self.random.pick(&TYPES) };
                self.param(ty);
            }
            6..=10 => {
                self.constant(width);
            }
            11..=15 => self.opaque(),
            16..=23 => self.alias(width),
            24..=25 => {
                let x = self.anything();
                let ty = self.graph.ty(x);
                let y = self.some(ty);
                self.value(ValueRow::Union { ty, x, y });
            }
            26..=27 => {
                self.value(ValueRow::Deleted);
            }
            28 if self.random.chance(30) => self.unnamed(),
            _ => self.operation(width),
        }
    }

    fn operation(&mut self, width: u16) {
        let opcode = match self.random.below(10) {
            0 | 1 => SELECT,
            2 => ICMP,
            3 => self.random.pick(&[ISHL, SSHR, USHR]),
            _ => IADD + self.random.below(24) as u8,
        };
        let mut condition = 0;
        let mut ty = width;
        let operands = match opcode {
            ISHL | SSHR | USHR => {
                let other = self.random.pick(&WIDTHS);
                let amount = if self.random.chance(self.habits.two_widths) { other } else { width };
                vec![self.some(width), self.some(amount)]
            }
            SELECT => {
                let of = self.random.pick(&WIDTHS);
                let chosen_by = if self.random.chance(25) { self.constant(of) } else { self.some(of) };
                vec![chosen_by, self.some(width), self.some(width)]
            }
            UEXTEND | SEXTEND => {
                let to = 1 + self.random.below(3);
                ty = WIDTHS[to];
                let from = WIDTHS[self.random.below(to)];
                vec![self.some(from)]
            }
            ICMP => {
                condition = self.random.below(CONDITIONS) as u8;
                ty = 8;
                vec![self.some(width), self.some(width)]
            }
            _ => (0..*operand_counts(opcode).end()).map(|_| self.some(width)).collect(),
        };
        let inst = self.graph.insts.len();
        let result = self.inst(InstRow { opcode, condition, operands, ..Default::default() }, &[ty])[0];
        self.latest[pool(ty)] = Some(result);
        if self.random.chance(6) {
            // cleared: the result keeps its definition
            self.graph.insts[inst].results.clear();
        }
        if self.random.chance(3) {
            // another value that names the instruction, which does not list it
            self.value(ValueRow::Result { ty, place: 0, inst });
        }
    }

    fn opaque(&mut self) {
        let operands: Vec<usize> = (0..self.random.below(4)).map(|_| self.anything()).collect();
        let types: Vec<u16> = (0..self.random.below(3)).map(|_| self.random.pick(&TYPES)).collect();
        let inst = self.graph.insts.len();
        let results = self.inst(InstRow { opcode: OPAQUE, operands, ..Default::default() }, &types);
        let row = &mut self.graph.insts[inst];
        if self.random.chance(10) {
            row.results.clear();
        } else if self.random.chance(5) {
            row.results.truncate(1);
        }
        // over its own result, which is no loop
        if let (Some(operand), Some(result), true) = (row.operands.first_mut(), results.last(), self.random.chance(5)) {
            *operand = *result;
        }
    }

    fn alias(&mut self, width: u16) {
        let to = if self.random.chance(80) { self.some(width) } else { self.anything() };
        let ty = self.graph.ty(to);
        let alias = self.value(ValueRow::Alias { ty, to });
        if is_integer(ty) && self.random.chance(40) {
            // an operation over a value and its alias
            let condition = self.random.below(CONDITIONS) as u8;
            let is_compared = self.random.chance(50);
            let (opcode, condition, ty) = if is_compared { (ICMP, condition, 8) } else { (IADD, 0, ty) };
            self.inst(InstRow { opcode, condition, operands: vec![to, alias], ..Default::default() }, &[ty]);
        }
    }

    /// An operation that no value names: nothing is asked of its widths.
    fn unnamed(&mut self) {
        let opcode = IADD + self.random.below(24) as u8;
        let operands = (0..*operand_counts(opcode).end()).map(|_| self.anything()).collect();
        self.inst(InstRow { opcode, operands, ..Default::default() }, &[]);
    }
}

/// Puts instructions into blocks, in order or at random.
fn lay_out(random: &mut Random, graph: &mut Graph) {
    let blocks = random.pick(&[1, 1, 2, 3, 7, 64]);
    let is_random = random.chance(40);
    let count = graph.insts.len();
    for (number, inst) in graph.insts.iter_mut().enumerate() {
        inst.block = if is_random { random.below(blocks) } else { number * blocks / count };
    }
}

/// Lets some unions be over themselves, which is no loop.
fn turn_unions(random: &mut Random, graph: &mut Graph) {
    for (number, row) in graph.values.iter_mut().enumerate() {
        if let ValueRow::Union { y, .. } = row
            && random.chance(20)
        {
            *y = number;
        }
    }
}

/// The graph with another number for each value: `numbers` has the new ones.
pub fn with_values_numbered(graph: &Graph, numbers: &[usize]) -> Graph {
    let mut renumbered = graph.clone();
    for (old, row) in graph.values.iter().enumerate() {
        renumbered.values[numbers[old]] = match *row {
            ValueRow::Alias { ty, to } => ValueRow::Alias { ty, to: numbers[to] },
            ValueRow::Union { ty, x, y } => ValueRow::Union { ty, x: numbers[x], y: numbers[y] },
            row => row,
        };
    }
    for inst in &mut renumbered.insts {
        for value in inst.operands.iter_mut().chain(&mut inst.results) {
            *value = numbers[*value];
        }
    }
    renumbered
}

/// The graph with another number for each instruction.
pub fn with_insts_numbered(graph: &Graph, numbers: &[usize]) -> Graph {
    let mut renumbered = graph.clone();
    for row in &mut renumbered.values {
        if let ValueRow::Result { inst, .. } = row {
            *inst = numbers[*inst];
        }
    }
    for (old, inst) in graph.insts.iter().enumerate() {
        renumbered.insts[numbers[old]] = inst.clone();
    }
    renumbered
}

/// Shapes whose harvest is measured.
#[derive(Clone, Copy, Debug)]
pub enum Shape {
    /// Each operation over the one before and the same parameter.
    Chain,
    /// Each operation over the one before and a parameter of its own.
    Fan,
    /// Each `select` over the one before, twice the rows of a chain.
    Select,
    /// Each operation over the one before, twice.
    Shared,
    Random,
}

impl Shape {
    pub const ALL: [Shape; 5] = [Shape::Chain, Shape::Fan, Shape::Select, Shape::Shared, Shape::Random];

    pub fn name(self) -> &'static str {
        match self {
            Shape::Chain => "chain",
            Shape::Fan => "fan",
            Shape::Select => "select",
            Shape::Shared => "shared",
            Shape::Random => "random",
        }
    }

    /// A graph of this shape with so many values; a random one has about as many.
    pub fn graph(self, size: usize, random: &mut Random) -> Graph {
        let mut graph = Graph::default();
        let param = |graph: &mut Graph, ty: u16| {
            graph.values.push(ValueRow::Param { ty, number: graph.values.len(), block: 0 });
            graph.values.len() - 1
        };
        let operation = |graph: &mut Graph, opcode: u8, ty: u16, operands: Vec<usize>| {
            let (result, inst) = (graph.values.len(), graph.insts.len());
            graph.values.push(ValueRow::Result { ty, place: 0, inst });
            graph.insts.push(InstRow { opcode, operands, results: vec![result], ..Default::default() });
            result
        };
        match self {
            Shape::Chain => {
                let of = param(&mut graph, 64);
                let mut last = of;
                while graph.values.len() < size {
                    let opcode = [IADD, IMUL, BXOR, BAND, BOR, ISHL][graph.values.len() % 6];
                    last = operation(&mut graph, opcode, 64, vec![last, of]);
                }
            }
            Shape::Fan => {
                let mut last = param(&mut graph, 32);
                while graph.values.len() + 2 <= size {
                    let of = param(&mut graph, 32);
                    last = operation(&mut graph, IADD, 32, vec![of, last]);
                }
                while graph.values.len() < size {
                    param(&mut graph, 32);
                }
            }
            Shape::Select => {
                let of = param(&mut graph, 8);
                let mut last = of;
                while graph.values.len() < size {
                    last = operation(&mut graph, SELECT, 8, vec![last, of, last]);
                }
            }
            Shape::Shared => {
                let mut last = param(&mut graph, 16);
                while graph.values.len() < size {
                    last = operation(&mut graph, IADD, 16, vec![last, last]);
                }
            }
            Shape::Random => return graph_with_habits(random, size, Habits::MEASURED),
        }
        graph
    }
}
