//! A recorder with what was counted beside it and is not on the boards yet.
//!
//! A tally keeps of each number the total that it ever took, which is what the recorder's own word
//! comes to: so what the board would refuse is refused when it is counted, and nothing is refused
//! when it is published.

use crate::sys::{
    Abi, Change, CounterId, GaugeId, HistogramId, Recorder, DOWN, INC, LARGEST, OBSERVE, UP,
};

/// A counter's, a gauge's ups' or its downs' number.
#[derive(Clone, Copy, Default)]
struct Cell {
    /// All that was taken, published or not.
    total: u64,
    /// What is not published.
    waits: u64,
}

/// A histogram's sum and count: all that was taken.
#[derive(Clone, Copy, Default)]
struct Sum {
    sum: u64,
    count: u64,
}

/// What waits for one board.
pub(crate) struct BoardTally {
    /// The board's id, from the first change on.
    id: u64,
    counters: usize,
    gauges: usize,
    /// The counters, behind them the ups, and behind these the downs.
    cells: Box<[Cell]>,
    sums: Box<[Sum]>,
    /// The cells of which something waits.
    dirty: Vec<u32>,
    /// The observations that wait; when all is published, the other changes behind them.
    list: Vec<Change>,
    /// The most changes of one version.
    most: usize,
}

impl BoardTally {
    /// Of a board for which nothing waits.
    pub fn new(abi: &Abi) -> BoardTally {
        BoardTally {
            id: 0,
            counters: abi.counters,
            gauges: abi.gauges,
            cells: vec![Cell::default(); abi.counters + 2 * abi.gauges].into(),
            sums: vec![Sum::default(); abi.histograms].into(),
            dirty: Vec::with_capacity(abi.changes),
            list: Vec::with_capacity(abi.changes),
            most: abi.changes,
        }
    }

    /// The cell of a change that has one. The library's slots are below its numbers of each kind; a
    /// handle that counts for nobody has none.
    #[inline]
    fn index(&self, kind: u64, slot: usize) -> Option<usize> {
        let (first, count) = match kind {
            INC => (0, self.counters),
            UP => (self.counters, self.gauges),
            _ => (self.counters + self.gauges, self.gauges),
        };
        (slot < count).then_some(first + slot)
    }

    #[inline]
    fn has_room(&self, more: usize) -> bool {
        self.list.len() + self.dirty.len() + more <= self.most
    }

    /// Adds to a number.
    #[inline]
    fn add(&mut self, recorder: &mut Recorder, board: u64, kind: u64, slot: usize, by: u64) -> u32 {
        let Some(index) = self.index(kind, slot) else {
            return 11;
        };
        let cell = &mut self.cells[index];
        if by > LARGEST - cell.total {
            return 12;
        }
        cell.total += by;
        if cell.waits > 0 {
            cell.waits += by;
            return 0;
        }
        self.first(recorder, board, index, by)
    }

    /// The first that waits of a number.
    #[inline(never)]
    fn first(&mut self, recorder: &mut Recorder, board: u64, index: usize, by: u64) -> u32 {
        if by == 0 {
            return 0;
        }
        if !self.has_room(1) {
            let answer = self.flush(recorder);
            if answer != 0 {
                self.cells[index].total -= by;
                return answer;
            }
        }
        self.id = board;
        self.cells[index].waits = by;
        self.dirty.push(index as u32);
        0
    }

    /// Counts a value.
    #[inline]
    fn observe(&mut self, recorder: &mut Recorder, change: &Change) -> u32 {
        if !self.has_room(1) {
            let answer = self.flush(recorder);
            if answer != 0 {
                return answer;
            }
        }
        let answer = self.take(change);
        if answer == 0 {
            self.list.push(*change);
        }
        answer
    }

    /// Adds a change to the totals alone.
    fn take(&mut self, change: &Change) -> u32 {
        if change.kind == OBSERVE {
            let Some(sum) = self.sums.get_mut(change.slot) else {
                return 11;
            };
            if change.value > LARGEST - sum.sum || sum.count == LARGEST {
                return 12;
            }
            sum.sum += change.value;
            sum.count += 1;
            return 0;
        }
        let Some(index) = self.index(change.kind, change.slot) else {
            return 11;
        };
        let cell = &mut self.cells[index];
        if change.by > LARGEST - cell.total {
            return 12;
        }
        cell.total += change.by;
        0
    }

    /// Takes it back.
    fn take_back(&mut self, change: &Change) {
        if change.kind == OBSERVE {
            let sum = &mut self.sums[change.slot];
            sum.sum -= change.value;
            sum.count -= 1;
        } else if let Some(index) = self.index(change.kind, change.slot) {
            self.cells[index].total -= change.by;
        }
    }

    /// All of these changes, or none.
    fn publish(&mut self, recorder: &mut Recorder, changes: &[Change]) -> u32 {
        if changes.len() > self.most {
            return 33;
        }
        if !self.has_room(changes.len()) {
            let answer = self.flush(recorder);
            if answer != 0 {
                return answer;
            }
        }
        for (at, change) in changes.iter().enumerate() {
            let answer = self.take(change);
            if answer != 0 {
                for taken in &changes[..at] {
                    self.take_back(taken);
                }
                return answer;
            }
        }
        for change in changes {
            self.wait(change);
        }
        0
    }

    /// Lets a change wait that was taken, and for which there is room.
    fn wait(&mut self, change: &Change) {
        if change.kind == OBSERVE {
            self.list.push(*change);
        } else if let Some(index) = self.index(change.kind, change.slot) {
            self.id = change.board;
            let cell = &mut self.cells[index];
            if cell.waits == 0 && change.by > 0 {
                self.dirty.push(index as u32);
            }
            cell.waits += change.by;
        }
    }

    fn change(&self, index: usize, by: u64) -> Change {
        let (kind, slot) = if index < self.counters {
            (INC, index)
        } else if index < self.counters + self.gauges {
            (UP, index - self.counters)
        } else {
            (DOWN, index - self.counters - self.gauges)
        };
        Change { board: self.id, kind, slot, by, value: 0 }
    }

    /// Publishes all that waits, as one version. Where that is refused, which the totals rule out
    /// but for a worker that has published 2^64 - 1 times, all waits on.
    fn flush(&mut self, recorder: &mut Recorder) -> u32 {
        let observed = self.list.len();
        if observed == 0 && self.dirty.is_empty() {
            return 0;
        }
        for at in 0..self.dirty.len() {
            let index = self.dirty[at] as usize;
            self.list.push(self.change(index, self.cells[index].waits));
        }
        let answer = recorder.publish(&self.list);
        if answer != 0 {
            self.list.truncate(observed);
            return answer;
        }
        self.list.clear();
        while let Some(index) = self.dirty.pop() {
            self.cells[index as usize].waits = 0;
        }
        0
    }
}

/// A recorder, and what waits for each board.
pub(crate) struct Tally {
    recorder: Recorder,
    boards: Vec<BoardTally>,
}

impl Tally {
    pub fn new(recorder: Recorder) -> Tally {
        Tally { recorder, boards: Vec::new() }
    }

    /// Has a further board. Takes no memory: `room` has room for all boards and the further one,
    /// and what is handed back is to be dropped later.
    pub fn grow(&mut self, mut room: Vec<BoardTally>, further: BoardTally) -> Vec<BoardTally> {
        room.append(&mut self.boards);
        room.push(further);
        std::mem::replace(&mut self.boards, room)
    }

    #[inline]
    pub fn inc(&mut self, board: usize, counter: &CounterId, by: u64) -> u32 {
        match self.boards.get_mut(board) {
            Some(it) => it.add(&mut self.recorder, counter.board, INC, counter.slot, by),
            None => 16,
        }
    }

    #[inline]
    pub fn up(&mut self, board: usize, gauge: &GaugeId, by: u64) -> u32 {
        match self.boards.get_mut(board) {
            Some(it) => it.add(&mut self.recorder, gauge.board, UP, gauge.slot, by),
            None => 16,
        }
    }

    #[inline]
    pub fn down(&mut self, board: usize, gauge: &GaugeId, by: u64) -> u32 {
        match self.boards.get_mut(board) {
            Some(it) => it.add(&mut self.recorder, gauge.board, DOWN, gauge.slot, by),
            None => 16,
        }
    }

    #[inline]
    pub fn observe(&mut self, board: usize, histogram: &HistogramId, value: u64) -> u32 {
        match self.boards.get_mut(board) {
            Some(it) => it.observe(&mut self.recorder, &histogram.observed(value)),
            None => 16,
        }
    }

    /// All of these changes of one board, or none.
    pub fn publish(&mut self, board: usize, changes: &[Change]) -> u32 {
        match self.boards.get_mut(board) {
            Some(it) => it.publish(&mut self.recorder, changes),
            None => 16,
        }
    }

    /// Publishes all that waits, as one version of each board. How many boards refused it. Takes no
    /// memory.
    pub fn flush(&mut self) -> u64 {
        let mut refused = 0;
        for it in &mut self.boards {
            refused += u64::from(it.flush(&mut self.recorder) != 0);
        }
        refused
    }
}
