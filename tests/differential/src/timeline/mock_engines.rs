//! The mock's engines as its timeline drives them, with slots of bytes.

use super::mock::Drive;
use crate::chain::mock::{Chain, Places, load, numbers};
use crate::mock::{Engine, Machine, Outcome, fault};

fn put(slot: &mut [u8], at: usize, number: u64) {
    slot[at..at + 8].copy_from_slice(&number.to_le_bytes());
}

fn number(slot: &[u8], at: usize) -> u64 {
    u64::from_le_bytes(slot[at..at + 8].try_into().expect("eight bytes"))
}

/// The plain engine with its cells.
pub(super) struct OnCells<'a> {
    pub(super) m: &'a Machine<'a>,
    pub(super) engine: Engine,
    pub(super) cells: [&'a mut [u8]; 3],
}

impl OnCells<'_> {
    /// Where each tape's cells begin in a slot.
    fn parts(&self) -> [std::ops::Range<usize>; 3] {
        let mut at = 128;
        [0, 1, 2].map(|i| {
            let from = at;
            at += if i < self.m.tapes { self.cells[i].len() } else { 0 };
            from..at
        })
    }
}

impl Drive for OnCells<'_> {
    fn steps(&self) -> u64 {
        self.engine.steps
    }

    fn state(&self) -> u16 {
        self.engine.state
    }

    fn run(&mut self, fuel: u64, proves: bool) -> Outcome {
        let m = self.m;
        self.engine.run(m, |q, a| m.entry(q, a), &mut self.cells, (u64::MAX, fuel), proves)
    }

    fn save(&self, slot: &mut [u8]) {
        let (mut state, mut value) = (0, [0; 16]);
        self.engine.store(self.m, &mut state, &mut value);
        put(slot, 0, u64::from(state));
        put(slot, 8, value[0]);
        for (i, &v) in value[1..].iter().enumerate() {
            slot[16 + 4 * i..20 + 4 * i].copy_from_slice(&(v as u32).to_le_bytes());
        }
        for (i, part) in self.parts().into_iter().enumerate().take(self.m.tapes) {
            slot[part].copy_from_slice(self.cells[i]);
        }
    }

    fn restore(&mut self, slot: &[u8], step: u64) -> bool {
        let mut value = [0; 16];
        value[0] = number(slot, 8);
        for i in 0..15 {
            value[i + 1] = u64::from(u32::from_le_bytes(slot[16 + 4 * i..20 + 4 * i].try_into().expect("four bytes")));
        }
        if fault(103) {
            let (mut state, mut old) = (0, [0; 16]);
            self.engine.store(self.m, &mut state, &mut old);
            // As positions: growth to the left has moved the origin.
            for f in (0..self.m.tapes).map(|i| 1 + 5 * i) {
                let at = |v: u64| (v + value[f + 1]).saturating_sub(old[f + 1]).min(value[f] - 1);
                (value[f + 3], value[f + 4]) = (at(old[f + 3]).min(value[f + 2]), at(old[f + 4]).max(value[f + 2]));
            }
        }
        let parts = self.parts();
        if fault(89) {
            for i in 0..self.m.tapes {
                self.cells[i].copy_from_slice(&slot[parts[i].clone()]);
            }
        }
        let blank: [Vec<u8>; 3] = parts.clone().map(|p| vec![0; p.len()]);
        let cells = [0, 1, 2].map(|i| if fault(98) { &blank[i][..] } else { &slot[parts[i].clone()] });
        let state = number(slot, 0);
        let state = if fault(148) { state % 256 } else { state };
        let Ok(engine) = Engine::load(self.m, state as u16, &value, cells) else {
            return false;
        };
        if state > 65_535 || value[0] != step && !fault(97) {
            return false;
        }
        for i in 0..self.m.tapes {
            let len = value[1 + 5 * i] as usize;
            self.cells[i][..len].copy_from_slice(&slot[parts[i].clone()][..len]);
        }
        self.engine = engine;
        true
    }
}

/// The run-length engine; its runs are put into their places at the end.
pub(super) struct OnRuns<'a> {
    pub(super) m: &'a Machine<'a>,
    pub(super) chain: Chain,
    pub(super) places: [usize; 2],
}

impl Drive for OnRuns<'_> {
    fn steps(&self) -> u64 {
        self.chain.steps
    }

    fn state(&self) -> u16 {
        self.chain.state
    }

    fn run(&mut self, fuel: u64, proves: bool) -> Outcome {
        self.chain.run(self.m, self.places, (u64::MAX, fuel), proves)
    }

    fn save(&self, slot: &mut [u8]) {
        for (i, n) in numbers(&self.chain).into_iter().enumerate() {
            put(slot, 8 * i, if fault(110) && i == 1 { 0 } else { n });
        }
        put(slot, 56, u64::from(self.chain.state) + 65_536 * u64::from(self.chain.cur));
        let mut at = 128;
        for (stack, places) in [(&self.chain.left, self.places[0]), (&self.chain.right, self.places[1])] {
            for (i, run) in stack.iter().enumerate() {
                slot[at + i] = run.0;
                put(slot, at + places + 8 * i, run.1);
            }
            at += 9 * places;
        }
    }

    fn restore(&mut self, slot: &[u8], step: u64) -> bool {
        let value: [u64; 7] = std::array::from_fn(|i| number(slot, 8 * i));
        let (state, cur) = (number(slot, 56) % 65_536, number(slot, 56) / 65_536);
        let state = if fault(148) { state % 256 } else { state };
        let side = |at: usize, places: usize| {
            let lengths: Vec<u64> = (0..places).map(|i| number(slot, at + places + 8 * i)).collect();
            (&slot[at..at + places], lengths)
        };
        let (ls, ll) = side(128, self.places[0]);
        let (rs, rl) = side(128 + 9 * self.places[0], self.places[1]);
        let lax = Machine { symbols: if fault(98) { 256 } else { self.m.symbols }, ..*self.m };
        let Ok(mut chain) = load(&lax, state as u16, cur as u8, &value, &Places(ls, &ll), &Places(rs, &rl)) else {
            return false;
        };
        if cur > 255 || chain.steps != step && !fault(97) {
            return false;
        }
        if fault(103) {
            (chain.low, chain.high) = (self.chain.low, self.chain.high);
        }
        self.chain = chain;
        true
    }
}

/// A slot's size for cells buffers.
pub(super) fn cells_slot(m: &Machine, cells: &[&mut [u8]; 3]) -> usize {
    let counted = if fault(104) { 3 } else { m.tapes };
    128 + cells[..counted].iter().map(|c| c.len()).sum::<usize>()
}
