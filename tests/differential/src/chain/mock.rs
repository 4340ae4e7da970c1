//! A stand-in for the port's run-length engine, written from document 01 alone: see `crate::mock`,
//! which lists the faults.

use crate::mock::{Answer, Entry, L, Machine, N, No, Outcome, R, accept, fault, refuse, tell};

const ZERO: u64 = 1 << 63;
const LIMIT: usize = 1 << 20;

/// A stack of runs, topmost last.
type Stack = Vec<(u8, u64)>;

/// Run places: symbols and lengths.
pub(crate) struct Places<'a>(pub(crate) &'a [u8], pub(crate) &'a [u64]);

impl Places<'_> {
    pub(crate) fn number(&self) -> usize {
        self.0.len().min(self.1.len())
    }

    fn over(&self) -> bool {
        let number = if fault(75) { self.0.len() } else { self.number() };
        number > LIMIT && !fault(76)
    }

    /// The live runs, where they are a stack that fits.
    fn stack(&self, count: u64, symbols: usize, steps: u64) -> Option<Stack> {
        if count > self.number() as u64 {
            return None;
        }
        let stack: Stack = (0..count as usize).map(|i| (self.0[i], self.1[i])).collect();
        let mut below = 0;
        for &(symbol, len) in &stack {
            if len == 0 || usize::from(symbol) >= symbols || symbol == below && !(fault(83) && below != 0) {
                return None;
            }
            below = symbol;
        }
        (sum(&stack) <= u128::from(steps) + LIMIT as u128).then_some(stack)
    }
}

fn sum(stack: &Stack) -> u128 {
    if fault(70) {
        return u128::from(stack.iter().fold(0_u64, |a, r| a.wrapping_add(r.1)));
    }
    stack.iter().map(|r| u128::from(r.1)).sum()
}

fn top(stack: &Stack) -> u8 {
    stack.last().map_or(0, |r| r.0)
}

fn push(stack: &mut Stack, symbol: u8, n: u64) {
    match stack.last_mut() {
        Some(run) if run.0 == symbol && !fault(65) => run.1 += n,
        None if symbol == 0 && !fault(59) => {}
        _ => stack.push((symbol, n)),
    }
}

/// Takes n cells off the topmost run; the last one's symbol.
fn take(stack: &mut Stack, n: u64) -> u8 {
    let mut last = 0;
    let mut left = n;
    while let Some(run) = stack.last_mut() {
        if left == 0 {
            break;
        }
        last = run.0;
        let part = left.min(run.1);
        run.1 -= part;
        left -= part;
        if run.1 == 0 {
            stack.pop();
        }
    }
    if left > 0 { 0 } else { last }
}

/// An engine that fits.
pub(crate) struct Chain {
    pub(crate) state: u16,
    pub(crate) cur: u8,
    pub(crate) steps: u64,
    macros: u64,
    pub(crate) left: Stack,
    pub(crate) right: Stack,
    head: u64,
    pub(crate) low: u64,
    pub(crate) high: u64,
}

pub(crate) fn numbers(c: &Chain) -> [u64; 7] {
    [c.steps, c.macros, c.left.len() as u64, c.right.len() as u64, c.head, c.low, c.high]
}

/// Takes an engine value that fits, or refuses it.
pub(crate) fn load(m: &Machine, state: u16, cur: u8, v: &[u64; 7], left: &Places, right: &Places) -> Answer<Chain> {
    let (several, over) = (m.tapes > 1, left.over() || right.over());
    if several && !(fault(71) && over) {
        return refuse(8);
    }
    if over && !fault(72) {
        return refuse(11);
    }
    let [steps, macros, lefts, rights, head, low, high] = *v;
    let far = |at: u64| at.abs_diff(ZERO) > steps;
    if usize::from(state) >= m.states || steps > 1 << 62 || usize::from(cur) >= m.symbols {
        return refuse(12);
    }
    if macros > steps && !fault(69) || low > head || head > high || far(low) || far(high) || far(head) {
        return refuse(12);
    }
    let (Some(l), Some(r)) = (left.stack(lefts, m.symbols, steps), right.stack(rights, m.symbols, steps)) else {
        return refuse(12);
    };
    let most = i128::from(steps) + LIMIT as i128;
    let at = i128::from(head) - i128::from(ZERO);
    let (cells_left, cells_right) = (sum(&l) as i128, sum(&r) as i128);
    if (at - cells_left < -most || at + cells_right > most) && !fault(68) {
        return refuse(12);
    }
    if over {
        return refuse(11);
    }
    Ok(Chain { state, cur, steps, macros, left: l, right: r, head, low, high })
}

impl Chain {
    fn never(&self, e: &Entry) -> Option<Outcome> {
        if e.next != self.state {
            return None;
        }
        match e.moves[0] {
            N => (e.write[0] == self.cur).then_some(Outcome::Stay),
            d => {
                let ahead = if d == L { &self.left } else { &self.right };
                (ahead.is_empty() && (self.cur == 0 || fault(66))).then_some(Outcome::Chain(d))
            }
        }
    }

    fn full(&self, e: &Entry, places: [usize; 2]) -> bool {
        let (behind, places) = match e.moves[0] {
            L => (&self.right, places[1]),
            R => (&self.left, places[0]),
            _ => return false,
        };
        let places = places.saturating_sub(usize::from(fault(62)));
        (top(behind) != e.write[0] || fault(63)) && behind.len() >= places
    }

    /// How many steps the next macro step makes.
    fn repeats(&self, e: &Entry, fuel: u64) -> u64 {
        if e.next != self.state || e.moves[0] == N {
            return 1;
        }
        let ahead = if e.moves[0] == L { &self.left } else { &self.right };
        let run = ahead.last().map_or(0, |r| if r.0 == self.cur { r.1 } else { 0 });
        let all = if fault(60) { run.max(1) } else { run + 1 };
        if fault(67) { all } else { all.min(fuel) }
    }

    fn leap(&mut self, e: &Entry, n: u64) {
        let write = e.write[0];
        match e.moves[0] {
            L => {
                push(&mut self.right, write, n);
                self.cur = take(&mut self.left, n);
                self.head -= n;
            }
            R => {
                push(&mut self.left, write, n);
                self.cur = take(&mut self.right, n);
                self.head += n;
            }
            _ => self.cur = write,
        }
        self.state = e.next;
        self.steps += n;
        self.macros += if fault(61) { n } else { 1 };
        self.low = self.low.min(self.head);
        if !(fault(64) && n > 1) {
            self.high = self.high.max(self.head);
        }
    }

    /// Runs; `proves` is whether the never test is made.
    pub(crate) fn run(&mut self, m: &Machine, places: [usize; 2], (rule, fuel): (u64, u64), proves: bool) -> Outcome {
        let mut left = fuel;
        loop {
            let from = self.state;
            let Some(e) = m.entry(from, [self.cur, 0, 0]) else {
                return Outcome::Halted;
            };
            let proved = self.never(&e);
            if proves && let Some(never) = proved {
                return never;
            }
            let stops = u64::from(from) == rule && !fault(58);
            if fault(56) && stops {
                return Outcome::Stopped;
            }
            if left == 0 {
                return Outcome::Fuel;
            }
            let full = self.full(&e, places);
            if stops && !(fault(57) && full) {
                return Outcome::Stopped;
            }
            if full {
                if fault(81) {
                    self.cur = e.write[0];
                }
                return Outcome::Full;
            }
            // A proved loop covers all the fuel.
            let n = if proved.is_some() { left } else { self.repeats(&e, left) };
            self.leap(&e, n);
            left = left.saturating_sub(n);
            if fault(58) && u64::from(from) == rule {
                return Outcome::Stopped;
            }
        }
    }

    fn get(&self, at: i64) -> u8 {
        let at = (at as u64) ^ ZERO;
        let mut away = match at.cmp(&self.head) {
            std::cmp::Ordering::Equal => return self.cur,
            std::cmp::Ordering::Less => self.head - at + u64::from(fault(77)),
            std::cmp::Ordering::Greater => at - self.head,
        };
        let stack = if at < self.head { &self.left } else { &self.right };
        for &(symbol, len) in stack.iter().rev() {
            if away <= len {
                return symbol;
            }
            away -= len;
        }
        0
    }

    /// The raised ends of the non-blank stretch.
    fn non_blank(&self) -> Option<(u64, u64)> {
        let cells = |stack: &Stack| sum(stack) as u64;
        let near = |stack: &Stack| stack.last().map_or(0, |r| if r.0 == 0 { r.1 + 1 } else { 1 });
        let here = self.cur != 0 || fault(78);
        if !here && self.left.is_empty() && self.right.is_empty() {
            return None;
        }
        let low = match () {
            _ if !self.left.is_empty() => self.head - cells(&self.left),
            _ if here => self.head,
            _ => self.head + near(&self.right),
        };
        let high = match () {
            _ if !self.right.is_empty() => self.head + cells(&self.right),
            _ if here => self.head,
            _ => self.head - near(&self.left),
        };
        Some((low, high))
    }

    fn count(&self) -> u64 {
        let runs = self.left.iter().chain(&self.right).filter(|r| r.0 != 0).map(|r| r.1).sum::<u64>();
        runs + u64::from(self.cur != 0 && !fault(79))
    }
}

/// A fresh engine's stack, or why there is none.
fn fresh(m: &Machine, word: &[u8], left: &Places, right: &Places) -> Answer<Stack> {
    if m.tapes > 1 && !(fault(71) && (left.over() || right.over())) {
        return refuse(8);
    }
    if word.len() > 1 << 20 {
        return refuse(9);
    }
    if let Some(i) = word.iter().position(|&a| usize::from(a) >= m.symbols) {
        return Err(No(10, Some(i as u64)));
    }
    let mut stack = Stack::new();
    for &symbol in word.iter().skip(1).rev() {
        if fault(73) && stack.is_empty() {
            stack.push((symbol, 1));
        } else {
            push(&mut stack, symbol, 1);
        }
    }
    if left.over() || right.over() || right.number() < stack.len() {
        return refuse(11);
    }
    Ok(stack)
}

/// Puts the runs into their places; a fault may leave more runs than places.
pub(crate) fn store(stack: &Stack, symbols: &mut [u8], lengths: &mut [u64]) {
    for (&(symbol, len), place) in stack.iter().zip(symbols.iter_mut().zip(lengths)) {
        (*place.0, *place.1) = (symbol, len);
    }
}

/// The functions with the signatures of the port's library.
#[rustfmt::skip]
#[expect(clippy::missing_safety_doc, reason = "as the port's")]
pub mod exports {
    use std::slice::{from_raw_parts, from_raw_parts_mut};

    use super::*;
    use crate::mock::exports::number;
    use crate::port::Run;

    pub unsafe extern "C" fn tm_chain_new(
        tapes: u64, symbols: u64, states: u64, start: u64, table: *const u8, table_len: usize,
        word: *const u8, word_len: usize,
        ls: *const u8, ls_len: usize, ll: *const u64, ll_len: usize, rs: *mut u8, rs_len: usize, rl: *mut u64, rl_len: usize,
        state: *mut u16, cur: *mut u8, engine: *mut [u64; 7], out: *mut [u64; 8],
    ) -> u8 {
        let (table, word) = unsafe { (from_raw_parts(table, table_len), from_raw_parts(word, word_len)) };
        let left = unsafe { Places(from_raw_parts(ls, ls_len), from_raw_parts(ll, ll_len)) };
        let (rs, rl) = unsafe { (from_raw_parts_mut(rs, rs_len), from_raw_parts_mut(rl, rl_len)) };
        let (state, cur, engine, out) = unsafe { (&mut *state, &mut *cur, &mut *engine, &mut *out) };
        let made = accept([tapes, symbols, states, start], table)
            .and_then(|m| fresh(&m, word, &left, &Places(rs, rl)).map(|stack| (m.start, stack)));
        if fault(74) && made.is_ok() && ls_len > 0 {
            unsafe { ls.cast_mut().write(0) };
        }
        let done = made.map(|(start, stack)| {
            store(&stack, rs, rl);
            (*state, *cur) = (start, word.first().copied().unwrap_or(0));
            *engine = [0, 0, 0, stack.len() as u64, ZERO, ZERO, ZERO];
        });
        number(done, out)
    }

    pub unsafe extern "C" fn tm_chain_run(
        tapes: u64, symbols: u64, states: u64, start: u64, table: *const u8, table_len: usize,
        ls: *mut u8, ls_len: usize, ll: *mut u64, ll_len: usize, rs: *mut u8, rs_len: usize, rl: *mut u64, rl_len: usize,
        state: *mut u16, cur: *mut u8, engine: *mut [u64; 7], rule: u64, fuel: u64, out: *mut [u64; 8],
    ) -> u8 {
        let table = unsafe { from_raw_parts(table, table_len) };
        let (ls, ll) = unsafe { (from_raw_parts_mut(ls, ls_len), from_raw_parts_mut(ll, ll_len)) };
        let (rs, rl) = unsafe { (from_raw_parts_mut(rs, rs_len), from_raw_parts_mut(rl, rl_len)) };
        let (state, cur, engine, out) = unsafe { (&mut *state, &mut *cur, &mut *engine, &mut *out) };
        let ran = accept([tapes, symbols, states, start], table).and_then(|m| {
            let (left, right) = (Places(ls, ll), Places(rs, rl));
            let mut chain = load(&m, *state, *cur, engine, &left, &right)?;
            if u128::from(chain.steps) + u128::from(fuel) > 1 << 62 {
                return refuse(13);
            }
            let outcome = chain.run(&m, [left.number(), right.number()], (rule, fuel), true);
            tell(&outcome, chain.state, chain.steps, out);
            Ok(chain)
        });
        let done = ran.map(|chain| {
            store(&chain.left, ls, ll);
            store(&chain.right, rs, rl);
            (*state, *cur, *engine) = (chain.state, chain.cur, numbers(&chain));
        });
        number(done, out)
    }

    /// A question with the arguments that all of them have.
    macro_rules! question {
        ($name:ident, ($($arg:ident: $type:ty),*), |$chain:ident, $out:ident| $answer:expr) => {
            pub unsafe extern "C" fn $name(
                tapes: u64, symbols: u64, states: u64, start: u64, table: *const u8, table_len: usize,
                ls: *const u8, ls_len: usize, ll: *const u64, ll_len: usize,
                rs: *const u8, rs_len: usize, rl: *const u64, rl_len: usize,
                state: u16, cur: u8, engine: *const [u64; 7], $($arg: $type,)* out: *mut [u64; 8],
            ) -> u8 {
                let (table, engine, $out) = unsafe { (from_raw_parts(table, table_len), &*engine, &mut *out) };
                let left = unsafe { Places(from_raw_parts(ls, ls_len), from_raw_parts(ll, ll_len)) };
                let right = unsafe { Places(from_raw_parts(rs, rs_len), from_raw_parts(rl, rl_len)) };
                let loaded = accept([tapes, symbols, states, start], table)
                    .and_then(|m| load(&m, state, cur, engine, &left, &right));
                if fault(82) && loaded.is_err() {
                    $out[0] = 0;
                }
                let answered = loaded.map(|$chain| $answer);
                number(answered, $out)
            }
        };
    }

    /// The runs of a side into records.
    fn side(stack: &Stack, runs: &mut [Run], out: &mut [u64; 8]) -> Answer<()> {
        let short = if fault(142) { runs.len() <= stack.len() } else { runs.len() < stack.len() };
        if short && !fault(143) {
            return refuse(18);
        }
        for (i, &(symbol, len)) in stack.iter().enumerate().take(runs.len()) {
            let at = if fault(144) { stack.len() - 1 - i } else { i };
            runs[at] = Run { symbol, len };
        }
        if fault(145) && runs.len() > stack.len() {
            runs[stack.len()] = Run { symbol: 0, len: 0 };
        }
        out[0] = if fault(146) { runs.len() as u64 } else { stack.len() as u64 };
        Ok(())
    }

    /// A side's function.
    macro_rules! runs {
        ($name:ident, $stack:ident) => {
            pub unsafe extern "C" fn $name(
                tapes: u64, symbols: u64, states: u64, start: u64, table: *const u8, table_len: usize,
                ls: *const u8, ls_len: usize, ll: *const u64, ll_len: usize,
                rs: *const u8, rs_len: usize, rl: *const u64, rl_len: usize,
                state: u16, cur: u8, engine: *const [u64; 7], runs: *mut Run, runs_len: usize, out: *mut [u64; 8],
            ) -> u8 {
                let (table, engine, out) = unsafe { (from_raw_parts(table, table_len), &*engine, &mut *out) };
                let left = unsafe { Places(from_raw_parts(ls, ls_len), from_raw_parts(ll, ll_len)) };
                let right = unsafe { Places(from_raw_parts(rs, rs_len), from_raw_parts(rl, rl_len)) };
                let runs = unsafe { from_raw_parts_mut(runs, runs_len) };
                let made = accept([tapes, symbols, states, start], table)
                    .and_then(|m| load(&m, state, cur, engine, &left, &right))
                    .and_then(|chain| {
                        let stack = if fault(147) { &chain.right } else { &chain.$stack };
                        side(stack, runs, out)
                    });
                number(made, out)
            }
        };
    }

    runs!(tm_chain_left, left);
    runs!(tm_chain_right, right);

    question!(tm_chain_get, (at: i64), |chain, out| out[0] = u64::from(chain.get(at)));
    question!(tm_chain_count, (), |chain, out| out[0] = chain.count());
    question!(tm_chain_non_blank, (), |chain, out| match chain.non_blank() {
        Some((low, high)) => out[..3].copy_from_slice(&[1, low, high]),
        None => out[0] = 0,
    });
    question!(tm_chain_window, (from: i64, cells: *mut u8, cells_len: usize), |chain, out| {
        for (i, cell) in unsafe { from_raw_parts_mut(cells, cells_len) }.iter_mut().enumerate() {
            match from.checked_add(i as i64) {
                None if fault(80) => {}
                at => *cell = at.map_or(0, |at| chain.get(at)),
            }
        }
    });
}
