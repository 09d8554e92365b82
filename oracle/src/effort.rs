//! How long the engines would search a tray: their searches run here with a
//! bound, so that no tray is chosen that keeps them busy for long. Counting
//! steps instead of seconds makes the choice the same on every machine.

use crate::placements::Kind;

/// What one search may cost: placements looked at, and packings found.
#[derive(Clone, Copy)]
pub struct Bound {
    pub looks: usize,
    pub packings: usize,
}

enum End {
    BoundPassed,
    /// The original's Knuth search chooses a row of a kind without copies.
    Panic,
}

/// Whether each engine, as the original has it and as document 01 has it,
/// searches the whole tray within the bound.
pub fn is_within(filled: usize, kinds: &[Kind], bound: Bound) -> bool {
    let everything = all_cells(filled);
    let (rows, all_rows) = (rows(kinds, false), rows(kinds, true));
    let ends = |result| !matches!(result, Err(End::BoundPassed));

    ends(Search::new(kinds, bound).fast(everything, &rows))
        && ends(Search::new(kinds, bound).fast_with_kind_0_first(everything, &rows))
        && ends(Search::new(kinds, bound).knuth(everything, &rows))
        && ends(Search::new(kinds, bound).knuth(everything, &all_rows))
}

/// How many packings there are, None if the search passes the bound.
pub fn packings(filled: usize, kinds: &[Kind], bound: Bound) -> Option<usize> {
    let mut search = Search::new(kinds, bound);
    let result = search.knuth(all_cells(filled), &rows(kinds, false));
    result.is_ok().then_some(search.packings.len())
}

/// Whether the rows of kinds without copies, which count in the original, bring
/// Knuth's packings into another order without being chosen themselves.
pub fn is_knuths_order_changed(filled: usize, kinds: &[Kind], bound: Bound) -> bool {
    let [packings, in_original] = [false, true].map(|with_all| {
        let mut search = Search::new(kinds, bound);
        let result = search.knuth(all_cells(filled), &rows(kinds, with_all));
        result.is_ok().then_some(search.packings)
    });
    packings.is_some() && in_original.is_some() && packings != in_original
}

fn all_cells(filled: usize) -> u128 {
    if filled == 0 {
        0
    } else {
        u128::MAX >> (128 - filled)
    }
}

/// The rows by kind, then (p, j); those of kinds without copies only on demand.
fn rows(kinds: &[Kind], with_all: bool) -> Vec<Row> {
    let used = kinds.iter().enumerate().filter(|(_, kind)| with_all || kind.copies > 0);
    used.flat_map(|(number, kind)| kind.rows.iter().map(move |&set| (number, set))).collect()
}

/// A kind's number and the cells of one of its placements.
type Row = (usize, u128);

struct Search {
    left: Vec<u64>,
    bound: Bound,
    chosen: Vec<u128>,
    /// Each packing as its sets of cells, sorted.
    packings: Vec<Vec<u128>>,
}

impl Search {
    fn new(kinds: &[Kind], bound: Bound) -> Search {
        let left = kinds.iter().map(|kind| kind.copies).collect();
        Search { left, bound, chosen: vec![], packings: vec![] }
    }

    fn look_at(&mut self, rows: usize) -> Result<(), End> {
        self.bound.looks = self.bound.looks.checked_sub(rows + 1).ok_or(End::BoundPassed)?;
        Ok(())
    }

    fn keep_packing(&mut self) -> Result<(), End> {
        if self.packings.len() == self.bound.packings {
            return Err(End::BoundPassed);
        }
        let mut packing = self.chosen.clone();
        packing.sort();
        self.packings.push(packing);
        Ok(())
    }

    /// The rows beside the chosen one that stay possible.
    fn rows_ahead(&self, rows: &[Row], chosen: u128) -> Vec<Row> {
        rows.iter().filter(|&&(_, set)| set & chosen == 0).copied().collect()
    }

    fn fast(&mut self, uncovered: u128, rows: &[Row]) -> Result<(), End> {
        if uncovered == 0 {
            return self.keep_packing();
        }
        self.look_at(rows.len())?;
        let first = uncovered & uncovered.wrapping_neg();
        for &(kind, set) in rows {
            if set & first != 0 && self.left[kind] > 0 {
                self.left[kind] -= 1;
                self.chosen.push(set);
                let ahead = self.rows_ahead(rows, set);
                self.fast(uncovered & !set, &ahead)?;
                self.chosen.pop();
                self.left[kind] += 1;
            }
        }
        Ok(())
    }

    fn fast_with_kind_0_first(&mut self, uncovered: u128, rows: &[Row]) -> Result<(), End> {
        if self.left.first() != Some(&1) {
            return Ok(());
        }
        self.left[0] = 0;
        for &(_, set) in rows.iter().filter(|&&(kind, _)| kind == 0) {
            let ahead = self.rows_ahead(rows, set);
            self.fast(uncovered & !set, &ahead)?;
        }
        Ok(())
    }

    /// With the dead branches that "but at least one" leads into.
    fn knuth(&mut self, uncovered: u128, rows: &[Row]) -> Result<(), End> {
        if uncovered == 0 {
            return self.keep_packing();
        }
        self.look_at(rows.len())?;
        let mut covering = [0u32; 128];
        for &(_, set) in rows {
            let mut cells = set;
            while cells != 0 {
                covering[cells.trailing_zeros() as usize] += 1;
                cells &= cells - 1;
            }
        }
        let coverable = (0..128).filter(|&cell| covering[cell] > 0);
        let Some(cell) = coverable.min_by_key(|&cell| covering[cell]) else {
            return Ok(());
        };
        for &(kind, set) in rows {
            if set >> cell & 1 == 1 {
                if self.left[kind] == 0 {
                    return Err(End::Panic);
                }
                self.left[kind] -= 1;
                let mut ahead = self.rows_ahead(rows, set);
                if self.left[kind] == 0 {
                    ahead.retain(|row| row.0 != kind);
                }
                self.chosen.push(set);
                self.knuth(uncovered & !set, &ahead)?;
                self.chosen.pop();
                self.left[kind] += 1;
            }
        }
        Ok(())
    }
}
