//! What can be wrong with a sheet, and where.

/// The parts of a sheet, in their order; a refused sheet is at fault in one of them.
#[derive(Clone, Copy, Debug, PartialEq, Eq, PartialOrd, Ord)]
pub enum Place {
    /// The file as a whole, before any line.
    Whole,
    NamesCount,
    Names,
    ColumnsCount,
    Cells,
    CostsCount,
    Costs,
    TreeCount,
    Tree,
    /// The line behind the tree line, where nothing may stand.
    Behind,
}

pub const PLACES: [Place; 10] = [
    Place::Whole,
    Place::NamesCount,
    Place::Names,
    Place::ColumnsCount,
    Place::Cells,
    Place::CostsCount,
    Place::Costs,
    Place::TreeCount,
    Place::Tree,
    Place::Behind,
];

/// The rule that a line breaks. Only the number and the line are compared; the reasons show that each rule was tried.
#[derive(Clone, Copy, Debug, PartialEq, Eq, PartialOrd, Ord)]
pub enum Reason {
    TooLong,
    EndsEarly,
    NoLineEnd,
    Byte,
    CountWord,
    CountDigits,
    CountRange,
    NameForm,
    NameTwice,
    CellsLength,
    NoSymbol,
    CostWords,
    CostDigits,
    CostOver,
    CostDiagonal,
    TreeUnknown,
    TreeTwice,
    TreeMissing,
    TreeDeep,
    TreeUnended,
    TreeAfterEnd,
    TreeMisplaced,
    SomethingBehind,
}

/// The first fault of a sheet.
#[derive(Clone, Copy, Debug, PartialEq, Eq)]
pub struct Fault {
    pub line: u64,
    pub place: Place,
    pub reason: Reason,
}

impl Fault {
    /// SHEET (9), SYMBOL (10) or TREE TEXT (11).
    pub fn number(&self) -> u64 {
        use Reason::*;
        match self.reason {
            NoSymbol => 10,
            TreeUnknown | TreeTwice | TreeMissing | TreeDeep | TreeUnended | TreeAfterEnd | TreeMisplaced => 11,
            _ => 9,
        }
    }
}

/// The reasons for which a sheet can be refused in a place.
pub fn possible(place: Place) -> Vec<Reason> {
    use Reason::*;
    let own: &[Reason] = match place {
        Place::Whole => return vec![TooLong],
        Place::Behind => return vec![SomethingBehind],
        Place::NamesCount | Place::ColumnsCount | Place::CostsCount | Place::TreeCount => {
            &[CountWord, CountDigits, CountRange]
        }
        Place::Names => &[NameForm, NameTwice],
        Place::Cells => &[CellsLength, NoSymbol],
        Place::Costs => &[CostWords, CostDigits, CostOver, CostDiagonal],
        Place::Tree => &[TreeUnknown, TreeTwice, TreeMissing, TreeDeep, TreeUnended, TreeAfterEnd, TreeMisplaced],
    };
    [&[EndsEarly, NoLineEnd, Byte], own].concat()
}
