//! The machine (01 "Running"): runs with a state, refusals 50 to 52, and bench runs.

mod decode;
mod transfers;

use crate::check::{judge, Heights};
use crate::lent::Lent;
use crate::level::Level;
use crate::limits::STACK;
use crate::number::{fits, keep_near, power};
use crate::object::{DoEntry, ElementEntry, SubscriptEntry, Tables};
use crate::refusal::Refusal;
use decode::{decode, Act, Decoded};

/// Where a run stands.
#[derive(Clone, Copy, Debug, PartialEq, Eq)]
pub struct State {
    pub index: u32,
    pub height: u32,
    /// "1 plus the first dropping instruction, or 0"
    pub mark: u32,
    pub places: [i64; STACK],
}

impl State {
    /// A run's beginning.
    pub fn fresh() -> State {
        State {
            index: 0,
            height: 0,
            mark: 0,
            places: [0; STACK],
        }
    }
}

impl Default for State {
    fn default() -> State {
        State::fresh()
    }
}

/// How a run came to its end.
#[derive(Clone, Copy, Debug, PartialEq, Eq)]
pub struct Ran {
    pub halt: u32,
    pub steps: u32,
    /// Of the first drop, else 0.
    pub sequence: u32,
}

/// A run in the base.
pub fn run(object: &[u8], store: &mut [i64], state: &mut State, allowance: u32) -> Result<Ran, Refusal> {
    Level::Base.run(object, store, state, allowance, &mut Lent::nothing())
}

/// A bench run in the base.
pub fn bench(object: &[u8], store: &mut [i64], allowance: u32) -> Result<(Ran, State), Refusal> {
    Level::Base.bench(object, store, allowance, &mut Lent::nothing())
}

impl Level {
    /// A run: refuses by 40 to 44 and 50 to 52.
    pub fn run(
        self,
        object: &[u8],
        store: &mut [i64],
        state: &mut State,
        allowance: u32,
        lent: &mut Lent,
    ) -> Result<Ran, Refusal> {
        let tables = self.open(object)?;
        let heights = judge(&tables)?;
        store_right(&tables, store)?;
        state_right(&tables, &heights, state)?;
        Ok(go::<false>(&tables, store, state, allowance, lent))
    }

    /// A bench run: "starts fresh, refuses only by 40, 41, 50 and 51".
    pub fn bench(
        self,
        object: &[u8],
        store: &mut [i64],
        allowance: u32,
        lent: &mut Lent,
    ) -> Result<(Ran, State), Refusal> {
        let tables = self.open(object)?;
        store_right(&tables, store)?;
        let mut state = State::fresh();
        let ran = go::<true>(&tables, store, &mut state, allowance, lent);
        Ok((ran, state))
    }
}

/// "50, 51: store shorter than the cell count; one of those cells over k digits".
fn store_right(t: &Tables, store: &[i64]) -> Result<(), Refusal> {
    let cells = store.get(..t.cells as usize).ok_or(Refusal::whole(50))?;
    if cells.iter().any(|value| !fits(t.k, i128::from(*value))) {
        return Err(Refusal::whole(51));
    }
    Ok(())
}

/// "52: state: instruction index outside the code or not reachable, stack not at its height,
/// stack number over k digits, drop mark outside the code".
fn state_right(t: &Tables, heights: &Heights, state: &State) -> Result<(), Refusal> {
    let height = heights.get(state.index as usize).copied().flatten();
    let height_right = height.is_some_and(|h| u32::from(h) == state.height);
    let mark_right = state.mark as usize <= t.code.len();
    let on_stack = state.places.iter().take(state.height as usize);
    let numbers_right = on_stack.into_iter().all(|value| fits(t.k, i128::from(*value)));
    if height_right && mark_right && numbers_right {
        Ok(())
    } else {
        Err(Refusal::whole(52))
    }
}

/// The machine in the middle of a run.
struct Machine<'r, 'c> {
    tables: &'r Tables,
    /// 10^k
    power: i64,
    code: &'r [Decoded],
    store: &'r mut [i64],
    state: &'r mut State,
    lent: &'r mut Lent<'c>,
}

/// What comes after an instruction.
enum After {
    /// Pops and pushes are done; the next instruction.
    Next,
    To(u32),
    /// Nothing has been changed.
    Halt(u32),
}

/// The loop of both runs. Only a guarded one tests the stack: what passed the check needs no test.
fn go<const GUARDED: bool>(
    tables: &Tables,
    store: &mut [i64],
    state: &mut State,
    allowance: u32,
    lent: &mut Lent,
) -> Ran {
    let code = decode(tables);
    let mut machine = Machine {
        tables,
        power: power(tables.k) as i64,
        code: &code,
        store,
        state,
        lent,
    };
    let mut steps = 0;
    let halt = loop {
        // "The allowance is tested first."
        if steps == allowance {
            break 2;
        }
        // "Halts 0, 1 and 3-8 count as a step", 9 and 10 as they do.
        steps += 1;
        if let Some(halt) = machine.step::<GUARDED>() {
            break halt;
        }
    };
    // "Stack places above the height come back 0."
    let height = state.height as usize;
    state.places[height..].fill(0);
    Ran {
        halt,
        steps,
        sequence: sequence(tables, state.mark),
    }
}

/// "that of body 6's last entry with an address at or before that instruction, else 0".
fn sequence(t: &Tables, mark: u32) -> u32 {
    let Some(instruction) = mark.checked_sub(1) else {
        return 0;
    };
    let entry = t.statements.iter().rev().find(|entry| entry.address <= instruction);
    entry.map_or(0, |entry| entry.sequence)
}

impl Machine<'_, '_> {
    /// One instruction; a halt leaves "state and store as before that instruction".
    fn step<const GUARDED: bool>(&mut self) -> Option<u32> {
        let Some(decoded) = self.code.get(self.state.index as usize) else {
            return Some(8);
        };
        let height = self.state.height as usize;
        let (pops, pushes) = (usize::from(decoded.pops), usize::from(decoded.pushes));
        if GUARDED && (height < pops || height - pops + pushes > STACK) {
            return Some(7);
        }
        match self.act(&decoded.act, height) {
            After::Halt(halt) => return Some(halt),
            After::Next => self.state.index += 1,
            After::To(target) => self.state.index = target,
        }
        self.state.height = (height - pops + pushes) as u32;
        None
    }

    /// Does an instruction for which the stack is right, but for the index and the height.
    #[inline(always)]
    fn act(&mut self, act: &Act, height: usize) -> After {
        match *act {
            Act::Wrong => After::Halt(8),
            Act::Halt(halt) => After::Halt(halt),
            Act::Constant(value) => self.put(height, value),
            Act::Load(cell) => self.put(height, self.store[cell]),
            Act::Store(cell) => self.set(cell, self.state.places[height - 1]),
            Act::LoadElement(entry) => match element(self.tables, self.store, entry) {
                Some(cell) => self.put(height, self.store[cell]),
                None => After::Halt(4),
            },
            Act::StoreElement(entry) => match element(self.tables, self.store, entry) {
                Some(cell) => self.set(cell, self.state.places[height - 1]),
                None => After::Halt(4),
            },
            Act::Add => self.result(height, |lower, upper| lower + upper),
            Act::Subtract => self.result(height, |lower, upper| lower - upper),
            Act::Multiply => self.result(height, |lower, upper| lower * upper),
            Act::Divide => self.divide(height),
            Act::Negate => self.put(height - 1, -self.state.places[height - 1]),
            Act::Jump(target) => After::To(target),
            Act::Branch([below, at, above]) => match self.state.places[height - 1] {
                value if value < 0 => After::To(below),
                0 => After::To(at),
                _ => After::To(above),
            },
            Act::Choose(first, count) => self.choose(self.state.places[height - 1], first, count),
            Act::Begin(entry) => self.begin(entry, height),
            Act::EndTurn(entry) => self.end_turn(entry),
            Act::Transfer { entry, reads } => transfers::transfer(self.tables, self.store, self.lent, entry, reads),
        }
    }

    fn put(&mut self, place: usize, value: i64) -> After {
        self.state.places[place] = value;
        After::Next
    }

    fn set(&mut self, cell: usize, value: i64) -> After {
        self.store[cell] = value;
        After::Next
    }

    /// ADD, SUB, MUL: "lower by upper", k digits kept, the first drop marked.
    /// Numbers have at most nine digits, so that an i64 holds every result exactly.
    fn result(&mut self, height: usize, exact: impl Fn(i64, i64) -> i64) -> After {
        let (lower, upper) = (self.state.places[height - 2], self.state.places[height - 1]);
        let (value, dropped) = keep_near(self.power, exact(lower, upper));
        if dropped && self.state.mark == 0 {
            self.state.mark = self.state.index + 1;
        }
        self.put(height - 2, value)
    }

    /// "Division cuts toward zero"; "3 division by zero".
    fn divide(&mut self, height: usize) -> After {
        let (lower, upper) = (self.state.places[height - 2], self.state.places[height - 1]);
        if upper == 0 {
            return After::Halt(3);
        }
        self.put(height - 2, lower / upper)
    }

    /// "5 computed exit not 1 to its count".
    fn choose(&self, value: i64, first: u32, count: u32) -> After {
        if value < 1 || value > i64::from(count) {
            return After::Halt(5);
        }
        After::To(self.tables.exits[first as usize + value as usize - 1])
    }

    /// "pops m3, m2, m1; sets i, limit, step, in this order"; "all must exceed 0".
    fn begin(&mut self, entry: DoEntry, height: usize) -> After {
        let places = &self.state.places;
        let (first, limit, step) = (places[height - 3], places[height - 2], places[height - 1]);
        if first < 1 || limit < 1 || step < 1 {
            return After::Halt(6);
        }
        self.store[entry.variable as usize] = first;
        self.store[entry.limit as usize] = limit;
        self.store[entry.step as usize] = step;
        After::Next
    }

    /// "ends a turn; a step below 1 gives halt 6"; "the exact sum i+m3 is compared with m2: not
    /// greater, i takes it and the body repeats; greater, i stays".
    fn end_turn(&mut self, entry: DoEntry) -> After {
        let step = self.store[entry.step as usize];
        if step < 1 {
            return After::Halt(6);
        }
        let sum = self.store[entry.variable as usize] + step;
        if sum > self.store[entry.limit as usize] {
            return After::Next;
        }
        self.store[entry.variable as usize] = sum;
        After::To(entry.body)
    }
}

/// An element's cell: "a subscript is right when its value is from 1 to its dimension",
/// "Elements lie by columns".
fn element(tables: &Tables, store: &[i64], entry: usize) -> Option<usize> {
    let e: &ElementEntry = &tables.elements[entry];
    let row = subscript(store, &e.subscripts[0], e.rows)?;
    let column = subscript(store, &e.subscripts[1], e.columns)?;
    Some(e.base as usize + row - 1 + (column - 1) * e.rows as usize)
}

/// "Subscripts are worked out exactly".
fn subscript(store: &[i64], s: &SubscriptEntry, dimension: u32) -> Option<usize> {
    let value = i64::from(s.multiplier) * store[s.cell as usize] + i64::from(s.addend);
    (1..=i64::from(dimension)).contains(&value).then_some(value as usize)
}
