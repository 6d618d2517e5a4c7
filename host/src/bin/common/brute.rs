//! The paper's rules, tried out: every labelling of a small table is written down and costed.
//!
//! Each function says a sentence of the rules and nothing here is fast. It shares no code with the library or with the
//! wrapper around it.

pub const BARRED: u32 = 4_294_967_295;
pub const MOST_HANDED: u32 = 1_020_978;
const NO_CHILD: u16 = 65_535;
const FIRST_HANDED: u16 = 32_768;

/// What a call is given to read.
#[derive(Clone, Debug, PartialEq)]
pub struct Input {
    pub left: Vec<u16>,
    pub right: Vec<u16>,
    pub s: u64,
    pub costs: Vec<u16>,
    pub c: u64,
    pub cells: Vec<u16>,
    pub handed: Vec<u32>,
}

/// How many entries of output and of row room a call is lent.
#[derive(Clone, Copy)]
pub struct Room {
    pub output: usize,
    pub rows: usize,
}

/// A refusal's number, and what it carries: the node for SHAPE, else 0.
pub struct Refused {
    pub number: u64,
    pub carried: u64,
}

/// What a done call carries, and what it has written at the front of its output and of the row room.
pub struct Done {
    pub carried: u64,
    pub output: Vec<u64>,
    pub rows: Vec<u64>,
}

pub type Outcome = Result<Done, Refused>;

// The five calls: their tests in the order of the numbers, then what is written.

/// Scoring: the score of each column; the row room holds the last one.
pub fn score(input: &Input, room: Room) -> Outcome {
    whole_table(input)?;
    enough_room(input, input.c, room)?;
    let columns: Vec<Column> = (0..input.c).map(|j| Column::of(input, j)).collect();
    Ok(Done {
        carried: 0,
        output: columns.iter().map(|column| least(column, every_state(column)).0.into()).collect(),
        rows: columns.last().map_or(Vec::new(), all_rows),
    })
}

/// Labelling: the state of each node.
pub fn label(input: &Input, j: u64, start: Option<u64>, room: Room) -> Outcome {
    whole_table(input)?;
    column_and_state(input, j, start)?;
    enough_room(input, input.left.len() as u64, room)?;
    let column = Column::of(input, j);
    let labelling = descend(&column, start);
    let competing = start.map_or(every_state(&column), |x| 1 << x);
    assert_eq!(cost(&column, &labelling), least(&column, competing).0, "the labelling is not a least one");
    Ok(Done { carried: 0, output: labelling.iter().map(|&x| x as u64).collect(), rows: all_rows(&column) })
}

/// The set call: the states that the least labellings take at each node, joined over the members of a start set.
pub fn sets(input: &Input, j: u64, start: Option<u64>, room: Room) -> Outcome {
    whole_table(input)?;
    column_and_set(input, j, start)?;
    enough_room(input, input.left.len() as u64, room)?;
    let column = Column::of(input, j);
    let joined = match start {
        None => least(&column, every_state(&column)).1,
        Some(set) => join(members(set).map(|x| least(&column, 1 << x).1)),
    };
    Ok(Done { carried: 0, output: joined.into_iter().map(u64::from).collect(), rows: all_rows(&column) })
}

/// Handing up: the root's row, for each state the least cost of the whole when the root is in it.
pub fn hand_up(input: &Input, j: u64, room: Room) -> Outcome {
    whole_table(input)?;
    which(j < input.c)?;
    enough_room(input, input.s, room)?;
    let column = Column::of(input, j);
    let by_labellings: Vec<u32> = (0..column.s).map(|x| least(&column, 1 << x).0).collect();
    assert_eq!(row(&column, column.root()), by_labellings, "the root's row is not what the labellings cost");
    Ok(Done { carried: 0, output: by_labellings.into_iter().map(u64::from).collect(), rows: all_rows(&column) })
}

/// Set counting: the column's changes and the preliminary sets.
pub fn count(input: &Input, j: u64, room: Room) -> Outcome {
    tree_costs_and_cells(input)?;
    which(j < input.c)?;
    refuse_unless(unit_costs(input) && tips(input, true) == 0, 7)?;
    refuse_unless(room.output >= input.left.len(), 8)?;
    let column = Column::of(input, j);
    let counted: Vec<(u16, u64)> = (0..column.nodes.len()).map(|v| preliminary(&column, v)).collect();
    let changes = counted[column.root()].1;
    assert_eq!(changes, least(&column, every_state(&column)).0.into(), "the changes are not the score");
    Ok(Done { carried: changes, output: counted.iter().map(|&(set, _)| set.into()).collect(), rows: Vec::new() })
}

// The tests.

fn refuse_unless(holds: bool, number: u64) -> Result<(), Refused> {
    if holds {
        Ok(())
    } else {
        Err(Refused { number, carried: 0 })
    }
}

/// The tests 1 to 4.
fn tree_costs_and_cells(input: &Input) -> Result<(), Refused> {
    refuse_unless(size_kept(input), 1)?;
    if let Some(node) = (0..input.left.len()).find(|&v| breaks_a_rule(input, v)) {
        return Err(Refused { number: 2, carried: node as u64 });
    }
    refuse_unless(costs_kept(input), 3)?;
    refuse_unless(cells_kept(input), 4)
}

/// The tests 1 to 5.
fn whole_table(input: &Input) -> Result<(), Refused> {
    tree_costs_and_cells(input)?;
    refuse_unless(handed_kept(input), 5)
}

fn which(holds: bool) -> Result<(), Refused> {
    refuse_unless(holds, 6)
}

/// The column, and a start that is a state.
fn column_and_state(input: &Input, j: u64, start: Option<u64>) -> Result<(), Refused> {
    which(j < input.c)?;
    let Some(x) = start else { return Ok(()) };
    which(x < input.s)?;
    which(root_row(input, j)[x as usize] != BARRED)
}

/// The column, and a start that is a set.
fn column_and_set(input: &Input, j: u64, start: Option<u64>) -> Result<(), Refused> {
    which(j < input.c)?;
    let Some(set) = start else { return Ok(()) };
    which(set != 0)?;
    which(members(set).all(|x| x < input.s as usize))?;
    which(members(set).all(|x| root_row(input, j)[x] != BARRED))
}

/// The output has room for so many entries, and the row room for s entries of each node.
fn enough_room(input: &Input, output: u64, room: Room) -> Result<(), Refused> {
    refuse_unless(room.output as u64 >= output && room.rows as u64 >= input.left.len() as u64 * input.s, 8)
}

/// Two lists of n numbers, n odd, 1 to 1,023.
fn size_kept(input: &Input) -> bool {
    let n = input.left.len();
    input.right.len() == n && n % 2 == 1 && n <= 1_023
}

/// Node v breaks a rule of the tree, where a second use counts against the higher user and every entry is a use.
fn breaks_a_rule(input: &Input, v: usize) -> bool {
    let unused = !(0..input.left.len()).any(|p| has_child(input, p, v));
    let last = v + 1 == input.left.len();
    let wrong = match children(input, v) {
        Some([a, b]) => a >= v || b >= v || a == b || (0..v).any(|p| has_child(input, p, a) || has_child(input, p, b)),
        None => {
            let named = input.right[v];
            let number = usize::from(named % FIRST_HANDED);
            number >= tips(input, named >= FIRST_HANDED) || (0..v).any(|p| is_tip(input, p) && input.right[p] == named)
        }
    };
    wrong || unused && !last
}

fn is_tip(input: &Input, v: usize) -> bool {
    input.left[v] == NO_CHILD
}

/// The two children that an inner node names, right or wrong.
fn children(input: &Input, v: usize) -> Option<[usize; 2]> {
    if is_tip(input, v) {
        None
    } else {
        Some([input.left[v].into(), input.right[v].into()])
    }
}

fn has_child(input: &Input, p: usize, u: usize) -> bool {
    children(input, p).is_some_and(|both| both.contains(&u))
}

/// The number of handed tips, or of symbol tips.
fn tips(input: &Input, handed: bool) -> usize {
    (0..input.left.len()).filter(|&v| is_tip(input, v) && (input.right[v] >= FIRST_HANDED) == handed).count()
}

/// s from 2 to 16, s by s numbers, 0 to 999, the diagonal 0.
fn costs_kept(input: &Input) -> bool {
    (2..=16).contains(&input.s)
        && input.costs.len() as u64 == input.s * input.s
        && input.costs.iter().all(|&cost| cost <= 999)
        && (0..input.s as usize).all(|x| input.costs[x * input.s as usize + x] == 0)
}

fn unit_costs(input: &Input) -> bool {
    let s = input.s as usize;
    (0..s).all(|x| (0..s).all(|y| input.costs[x * s + y] == u16::from(x != y)))
}

/// At most 65,535 columns, t times c cells, each a nonempty set of states below s.
fn cells_kept(input: &Input) -> bool {
    input.c <= 65_535
        && input.cells.len() as u64 == tips(input, false) as u64 * input.c
        && input.cells.iter().all(|&cell| cell != 0 && members(cell.into()).all(|x| x < input.s as usize))
}

/// c times h rows of s entries, each entry in range or barred, no row wholly barred.
fn handed_kept(input: &Input) -> bool {
    input.handed.len() as u64 == input.c * tips(input, true) as u64 * input.s
        && input.handed.iter().all(|&entry| entry <= MOST_HANDED || entry == BARRED)
        && input.handed.chunks(input.s as usize).all(|row| row.iter().any(|&entry| entry != BARRED))
}

// One column of a table that passed the tests.

enum Node {
    /// With its row.
    Tip(Vec<u32>),
    Inner(usize, usize),
}

struct Column<'a> {
    nodes: Vec<Node>,
    s: usize,
    costs: &'a [u16],
}

impl Column<'_> {
    fn of(input: &Input, j: u64) -> Column<'_> {
        let nodes = (0..input.left.len()).map(|v| match children(input, v) {
            Some([a, b]) => Node::Inner(a, b),
            None => Node::Tip(tip_row(input, input.right[v], j as usize)),
        });
        Column { nodes: nodes.collect(), s: input.s as usize, costs: &input.costs }
    }

    fn root(&self) -> usize {
        self.nodes.len() - 1
    }

    /// The cost from the parent's state x to the child's state y.
    fn step(&self, x: usize, y: usize) -> u32 {
        self.costs[x * self.s + y].into()
    }
}

/// A symbol tip has 0 in its cell's states and barred elsewhere; a handed tip has its handed row.
fn tip_row(input: &Input, named: u16, j: usize) -> Vec<u32> {
    let (s, c) = (input.s as usize, input.c as usize);
    if named < FIRST_HANDED {
        let cell = input.cells[usize::from(named) * c + j];
        (0..s).map(|x| if cell >> x & 1 == 1 { 0 } else { BARRED }).collect()
    } else {
        let k = usize::from(named - FIRST_HANDED);
        let at = (j * tips(input, true) + k) * s;
        input.handed[at..at + s].to_vec()
    }
}

fn members(set: u64) -> impl Iterator<Item = usize> {
    (0..64).filter(move |x| set >> x & 1 == 1)
}

fn every_state(column: &Column) -> u64 {
    (1 << column.s) - 1
}

// Labellings.

/// Shows every labelling that agrees with the tips and has the root in one of these states.
fn every_labelling(column: &Column, roots: u64, see: &mut dyn FnMut(&[usize])) {
    let allowed: Vec<Vec<usize>> = (0..column.nodes.len()).map(|v| allowed_at(column, v, roots)).collect();
    label_on(&allowed, &mut Vec::new(), see);
}

/// A tip takes a state that its row doesn't bar, and the root one of these.
fn allowed_at(column: &Column, v: usize, roots: u64) -> Vec<usize> {
    let agrees = |x: usize| match &column.nodes[v] {
        Node::Tip(row) => row[x] != BARRED,
        Node::Inner(..) => true,
    };
    (0..column.s).filter(|&x| agrees(x) && (v != column.root() || roots >> x & 1 == 1)).collect()
}

/// Labels the next node in every allowed way, and all after it.
fn label_on(allowed: &[Vec<usize>], labelling: &mut Vec<usize>, see: &mut dyn FnMut(&[usize])) {
    let Some(states) = allowed.get(labelling.len()) else { return see(labelling) };
    for &x in states {
        labelling.push(x);
        label_on(allowed, labelling, see);
        labelling.pop();
    }
}

/// The sum of the costs along all edges, plus each tip's entry at its state.
fn cost(column: &Column, labelling: &[usize]) -> u32 {
    let at = |(node, &x): (&Node, &usize)| match node {
        Node::Tip(row) => row[x],
        Node::Inner(a, b) => column.step(x, labelling[*a]) + column.step(x, labelling[*b]),
    };
    column.nodes.iter().zip(labelling).map(at).sum()
}

/// The least cost of the labellings with the root in one of these states (barred if there are none), and at each node
/// the states that the least ones take.
fn least(column: &Column, roots: u64) -> (u32, Vec<u16>) {
    let mut least = BARRED;
    let mut taken = vec![0; column.nodes.len()];
    every_labelling(column, roots, &mut |labelling| {
        let cost = cost(column, labelling);
        if cost < least {
            least = cost;
            taken.fill(0);
        }
        if cost == least {
            taken.iter_mut().zip(labelling).for_each(|(set, x)| *set |= 1 << x);
        }
    });
    (least, taken)
}

/// Node sets joined, node by node.
fn join(many: impl Iterator<Item = Vec<u16>>) -> Vec<u16> {
    many.reduce(|one, other| one.iter().zip(other).map(|(a, b)| a | b).collect()).unwrap_or_default()
}

// Rows, and the labelling that descends on them.

/// A sum with a barred term is barred.
fn plus(a: u32, b: u32) -> u32 {
    if a == BARRED || b == BARRED {
        BARRED
    } else {
        a + b
    }
}

/// For each state y of a child: the cost from x to y plus the child's entry at y.
fn sums(column: &Column, x: usize, child: &[u32]) -> Vec<u32> {
    (0..column.s).map(|y| plus(column.step(x, y), child[y])).collect()
}

fn smallest(entries: &[u32]) -> u32 {
    entries.iter().copied().min().unwrap_or(BARRED)
}

/// The lowest state among the least entries.
fn lowest(entries: &[u32]) -> usize {
    (0..entries.len()).find(|&x| entries[x] == smallest(entries)).unwrap_or(0)
}

/// A node's row: an inner node has for each child the least sum, both children added.
fn row(column: &Column, v: usize) -> Vec<u32> {
    match &column.nodes[v] {
        Node::Tip(row) => row.clone(),
        Node::Inner(a, b) => {
            let (a, b) = (row(column, *a), row(column, *b));
            (0..column.s).map(|x| plus(smallest(&sums(column, x, &a)), smallest(&sums(column, x, &b)))).collect()
        }
    }
}

/// The rows of all nodes, one after the other.
fn all_rows(column: &Column) -> Vec<u64> {
    (0..column.nodes.len()).flat_map(|v| row(column, v)).map(u64::from).collect()
}

/// The root's row in column j of a table that passed the tests.
pub fn root_row(input: &Input, j: u64) -> Vec<u32> {
    let column = Column::of(input, j);
    row(&column, column.root())
}

/// The root takes its start, or the lowest state among its row's least entries; each child, given its parent's state x,
/// the lowest y that reaches the least sum.
fn descend(column: &Column, start: Option<u64>) -> Vec<usize> {
    let mut labelling = vec![0; column.nodes.len()];
    labelling[column.root()] = start.map_or_else(|| lowest(&row(column, column.root())), |x| x as usize);
    for v in (0..column.nodes.len()).rev() {
        if let Node::Inner(a, b) = column.nodes[v] {
            for u in [a, b] {
                labelling[u] = lowest(&sums(column, labelling[v], &row(column, u)));
            }
        }
    }
    labelling
}

// Counting by sets.

/// A node's preliminary set and changes: a tip has its cell and 0; an inner node the common part of its children's sets
/// if not empty, else their union and one change more.
fn preliminary(column: &Column, v: usize) -> (u16, u64) {
    match &column.nodes[v] {
        Node::Tip(row) => ((0..column.s).filter(|&x| row[x] == 0).map(|x| 1 << x).sum(), 0),
        Node::Inner(a, b) => {
            let ((a, below_a), (b, below_b)) = (preliminary(column, *a), preliminary(column, *b));
            if a & b != 0 {
                (a & b, below_a + below_b)
            } else {
                (a | b, below_a + below_b + 1)
            }
        }
    }
}
