//! The same check and replay in ordinary Rust: a state behind `&mut`, arrays in
//! structs, an owner for each lock, nothing allocated.

// The sizes: no other file of the benchmark writes them.
pub const MOST_TASKS: usize = 200;
pub const MOST_LOCKS: usize = 32;
const MOST_USES: usize = 6400;
pub const MOST_EVENTS: usize = 12_000;
/// Takes of one task.
pub const MOST_TAKES: usize = 8;
pub const MOST_ACCEPTED: u32 = 1_000_000;
pub const NOBODY: u8 = 255;

/// Row bytes for a book of full length.
pub const ROW_SPACE: usize = 4 * MOST_EVENTS;

/// What an entry to the kernel leaves in the second word.
#[derive(Clone, Copy, PartialEq)]
pub enum Protocol {
    /// The greatest kept priority.
    Second,
    /// The user word.
    First,
}

impl Protocol {
    pub const BOTH: [Protocol; 2] = [Protocol::Second, Protocol::First];

    pub fn name(self) -> &'static str {
        match self {
            Protocol::Second => "second",
            Protocol::First => "first",
        }
    }
}

/// The number and place of a refusal.
#[derive(Clone, Copy)]
pub struct Refused(pub u8, pub usize);

/// An event as it stands in a book: kind, id, and two bytes of amount.
pub type Record = [u8; 4];

#[derive(Clone)]
pub struct Plan {
    pub tasks: usize,
    pub locks: usize,
    pub base: [u8; MOST_TASKS],
    /// The highest priority that the task may have.
    pub maximum: [u8; MOST_TASKS],
    pub ceiling: [u8; MOST_LOCKS],
    pub limit: [u16; MOST_LOCKS],
    /// Bit l: the task may take lock l.
    pub uses: [u32; MOST_TASKS],
}

impl Plan {
    /// Every figure 0.
    pub fn blank() -> Plan {
        Plan {
            tasks: 0,
            locks: 0,
            base: [0; MOST_TASKS],
            maximum: [0; MOST_TASKS],
            ceiling: [0; MOST_LOCKS],
            limit: [0; MOST_LOCKS],
            uses: [0; MOST_TASKS],
        }
    }
}

/// A book that passed 1 to 9 and 24.
pub struct Checked<'b> {
    pub plan: Plan,
    pub events: &'b [u8],
}

fn word(bytes: &[u8], at: usize) -> usize {
    usize::from(u16::from_le_bytes([bytes[at], bytes[at + 1]]))
}

/// The bytes of a record of each entry.
pub const SIZE: [usize; 4] = [2, 4, 2, 4];

/// 2, of an entry from 0.
pub fn is_miscounted(entry: usize, count: usize) -> bool {
    const LEAST: [usize; 4] = [1, 0, 0, 0];
    const MOST: [usize; 4] = [MOST_TASKS, MOST_LOCKS, MOST_USES, MOST_EVENTS];
    count < LEAST[entry] || count > MOST[entry]
}

/// 1 to 7, 24, 8 and 9, each over the whole book before the next.
pub fn check(book: &[u8], room: usize) -> Result<Checked<'_>, Refused> {
    if book.len() < 32 {
        return Err(Refused(1, 0));
    }
    let mut starts = [32; 5];
    for entry in 0..4 {
        let count = word(book, 8 * entry + 2);
        if is_miscounted(entry, count) {
            return Err(Refused(2, entry + 1));
        }
        starts[entry + 1] = starts[entry] + count * SIZE[entry];
    }
    for entry in 0..4 {
        let offset = word(book, 8 * entry + 4) + (word(book, 8 * entry + 6) << 16);
        if word(book, 8 * entry) != entry + 1 || offset != starts[entry] {
            return Err(Refused(3, entry + 1));
        }
    }
    if starts[4] != book.len() {
        return Err(Refused(3, 5));
    }
    let plan = load(
        twos(&book[starts[0]..starts[1]]),
        book[starts[1]..starts[2]]
            .chunks_exact(4)
            .map(|record| [record[0], record[1], record[2], record[3]]),
        twos(&book[starts[2]..starts[3]]),
    )?;
    let events = &book[starts[3]..];
    if let Some(place) = events.chunks_exact(4).position(is_wrong) {
        return Err(Refused(8, place));
    }
    if room < events.len() {
        return Err(Refused(9, 0));
    }
    Ok(Checked { plan, events })
}

/// 8.
pub fn is_wrong(record: &[u8]) -> bool {
    let amount = u16::from_le_bytes([record[2], record[3]]);
    match record[0] {
        1..=3 => amount != 0,
        4 => record[1] != 0 || amount == 0,
        5 | 6 => record[1] != 0 || amount != 0,
        _ => true,
    }
}

fn twos(body: &[u8]) -> impl ExactSizeIterator<Item = [u8; 2]> + '_ {
    body.chunks_exact(2).map(|record| [record[0], record[1]])
}

/// 4 to 7 and 24, of records whose counts are right.
pub fn load(
    tasks: impl ExactSizeIterator<Item = [u8; 2]>,
    locks: impl ExactSizeIterator<Item = [u8; 4]>,
    uses: impl Iterator<Item = [u8; 2]>,
) -> Result<Plan, Refused> {
    let mut plan = Plan {
        tasks: tasks.len(),
        locks: locks.len(),
        ..Plan::blank()
    };
    for (task, record) in tasks.enumerate() {
        let [base, maximum] = record;
        if base == 0 || maximum < base {
            return Err(Refused(4, task));
        }
        plan.base[task] = base;
        plan.maximum[task] = maximum;
    }
    for (lock, record) in locks.enumerate() {
        let limit = u16::from_le_bytes([record[2], record[3]]);
        if record[0] == 0 || record[1] != 0 || limit == 0 {
            return Err(Refused(5, lock));
        }
        plan.ceiling[lock] = record[0];
        plan.limit[lock] = limit;
    }
    let mut before = None;
    let mut users = [0u8; MOST_LOCKS];
    let mut greatest = [0; MOST_LOCKS];
    // The first use of a lock above its task's maximum: it is refused after 7.
    let mut above = None;
    for (place, record) in uses.enumerate() {
        let (task, lock) = (usize::from(record[0]), usize::from(record[1]));
        if task >= plan.tasks || lock >= plan.locks || before >= Some((task, lock)) {
            return Err(Refused(6, place));
        }
        before = Some((task, lock));
        plan.uses[task] |= 1 << lock;
        users[lock] += 1;
        greatest[lock] = plan.base[task].max(greatest[lock]);
        if plan.ceiling[lock] > plan.maximum[task] {
            above.get_or_insert(place);
        }
    }
    let is_misused = |&lock: &usize| users[lock] < 2 || plan.ceiling[lock] != greatest[lock];
    if let Some(lock) = (0..plan.locks).find(is_misused) {
        return Err(Refused(7, lock));
    }
    match above {
        Some(place) => Err(Refused(24, place)),
        None => Ok(plan),
    }
}

#[derive(Clone)]
pub struct State {
    pub accepted: u32,
    pub running: u8,
    pub user: u8,
    /// The second word.
    pub next: u8,
    pub lazy: u32,
    pub eager: u32,
    pub released: [u32; MOST_TASKS],
    pub kept: [u8; MOST_TASKS],
    pub delay: [u16; MOST_TASKS],
    /// How many takes the task has.
    pub held: [u8; MOST_TASKS],
    /// The lock of each, oldest first, which may be there more than once, and the
    /// word that each saved; 0 after the newest.
    pub takes: [[u8; MOST_TAKES]; MOST_TASKS],
    pub saved: [[u8; MOST_TAKES]; MOST_TASKS],
    pub units: [u16; MOST_LOCKS],
    /// The task that has the lock open, plus one; or 0.
    pub owner: [u8; MOST_LOCKS],
}

impl State {
    pub fn fresh() -> State {
        State {
            accepted: 0,
            running: NOBODY,
            user: 0,
            next: 0,
            lazy: 0,
            eager: 0,
            released: [0; MOST_TASKS],
            kept: [0; MOST_TASKS],
            delay: [0; MOST_TASKS],
            held: [0; MOST_TASKS],
            takes: [[0; MOST_TAKES]; MOST_TASKS],
            saved: [[0; MOST_TAKES]; MOST_TASKS],
            units: [0; MOST_LOCKS],
            owner: [0; MOST_LOCKS],
        }
    }

    /// One event: whether it made a lazy call, or the number that refuses it.
    /// A refused event changes nothing.
    pub fn act(&mut self, protocol: Protocol, plan: &Plan, record: &[u8]) -> Result<bool, u8> {
        if self.accepted >= MOST_ACCEPTED {
            return Err(11);
        }
        let call = match record[0] {
            1 => self.release(protocol, plan, usize::from(record[1])),
            2 => self.acquire(plan, usize::from(record[1])),
            3 => self.unlock(protocol, plan, usize::from(record[1])),
            4 => self.work(plan, u16::from_le_bytes([record[2], record[3]])),
            5 => self.finish(protocol, plan),
            _ => self.tick(protocol, plan),
        }?;
        self.accepted += 1;
        Ok(call)
    }

    pub fn runner(&self) -> Result<usize, u8> {
        let task = usize::from(self.running);
        if task < MOST_TASKS {
            Ok(task)
        } else {
            Err(12)
        }
    }

    /// What the kernel does first wherever it is entered: a word above the running
    /// task's maximum is cut back to it. In a sound state there is none.
    pub fn cut(&mut self, plan: &Plan) {
        if let Some(&maximum) = plan.maximum.get(usize::from(self.running)) {
            self.user = self.user.min(maximum);
        }
    }

    fn release(&mut self, protocol: Protocol, plan: &Plan, task: usize) -> Result<bool, u8> {
        if task >= plan.tasks {
            return Err(13);
        }
        if self.released[task] != 0 {
            return Err(14);
        }
        self.cut(plan);
        self.released[task] = self.accepted + 1;
        self.delay[task] = 0;
        self.kept[task] = plan.base[task];
        if plan.base[task] > self.user {
            self.leave();
            self.switch(protocol, plan.tasks);
        } else {
            self.next = match protocol {
                Protocol::Second => self.next.max(plan.base[task]),
                Protocol::First => self.user,
            };
        }
        Ok(false)
    }

    pub fn acquire(&mut self, plan: &Plan, lock: usize) -> Result<bool, u8> {
        let task = self.runner()?;
        if lock >= plan.locks {
            return Err(13);
        }
        if plan.uses[task] >> lock & 1 == 0 {
            return Err(15);
        }
        let owner = usize::from(self.owner[lock]);
        if owner != 0 && owner != task + 1 {
            return Err(17);
        }
        let depth = usize::from(self.held[task]);
        if depth >= MOST_TAKES {
            return Err(18);
        }
        self.takes[task][depth] = lock as u8;
        self.saved[task][depth] = self.user;
        self.held[task] += 1;
        self.owner[lock] = self.running + 1;
        let before = self.user;
        self.user = before.max(plan.ceiling[lock]);
        self.eager += u32::from(self.user != before);
        Ok(false)
    }

    /// What an unlock does before the kernel is called, and whether it is. Like the
    /// two parts of work this is for both replays, and inline in each.
    #[inline]
    pub fn give_back(&mut self, plan: &Plan, lock: usize) -> Result<bool, u8> {
        let task = self.runner()?;
        if lock >= plan.locks {
            return Err(13);
        }
        let depth = usize::from(self.held[task]);
        if depth == 0 || usize::from(self.takes[task][depth - 1]) != lock {
            return Err(19);
        }
        self.held[task] -= 1;
        let before = self.user;
        self.user = self.saved[task][depth - 1];
        self.takes[task][depth - 1] = 0;
        self.saved[task][depth - 1] = 0;
        // The last take of the lock ends its section.
        if !self.takes[task][..depth - 1].contains(&(lock as u8)) {
            self.units[lock] = 0;
            self.owner[lock] = 0;
        }
        self.eager += u32::from(self.user != before);
        let call = self.user < self.next;
        self.lazy += u32::from(call);
        Ok(call)
    }

    fn unlock(&mut self, protocol: Protocol, plan: &Plan, lock: usize) -> Result<bool, u8> {
        let call = self.give_back(plan, lock)?;
        if call {
            self.cut(plan);
            self.leave();
            self.switch(protocol, plan.tasks);
        }
        Ok(call)
    }

    fn work(&mut self, plan: &Plan, amount: u16) -> Result<bool, u8> {
        let task = self.charge(plan, amount)?;
        self.hold_up(plan, plan.base[task], amount);
        Ok(false)
    }

    /// Counts work for each lock that the running task has open, once however often
    /// it took it; and says which task that is.
    #[inline]
    pub fn charge(&mut self, plan: &Plan, amount: u16) -> Result<usize, u8> {
        if amount == 0 {
            return Err(20);
        }
        let task = self.runner()?;
        let takes = &self.takes[task][..usize::from(self.held[task])];
        let would_pass = |&lock: &u8| {
            let lock = usize::from(lock);
            u32::from(self.units[lock]) + u32::from(amount) > u32::from(plan.limit[lock])
        };
        if takes.iter().any(would_pass) {
            return Err(21);
        }
        let mut charged = 0u32;
        for &lock in takes {
            if charged >> lock & 1 == 0 {
                self.units[usize::from(lock)] += amount;
                charged |= 1 << lock;
            }
        }
        Ok(task)
    }

    /// Work by a task of this base delays each released task of a higher one.
    #[inline]
    pub fn hold_up(&mut self, plan: &Plan, base: u8, amount: u16) {
        let others = plan.base[..plan.tasks]
            .iter()
            .zip(&self.released[..plan.tasks]);
        for (delay, (&other, &released)) in self.delay[..plan.tasks].iter_mut().zip(others) {
            let more = delay.saturating_add(amount);
            *delay = if released != 0 && base < other {
                more
            } else {
                *delay
            };
        }
    }

    fn finish(&mut self, protocol: Protocol, plan: &Plan) -> Result<bool, u8> {
        let task = self.runner()?;
        if self.held[task] != 0 {
            return Err(22);
        }
        self.cut(plan);
        self.released[task] = 0;
        self.kept[task] = 0;
        self.switch(protocol, plan.tasks);
        Ok(false)
    }

    /// The next word is the greatest kept priority as it stands.
    fn tick(&mut self, protocol: Protocol, plan: &Plan) -> Result<bool, u8> {
        self.cut(plan);
        if protocol == Protocol::First {
            self.next = self.user;
        }
        Ok(false)
    }

    /// The kernel keeps the word of the task that leaves.
    fn leave(&mut self) {
        if let Some(kept) = self.kept.get_mut(usize::from(self.running)) {
            *kept = self.user;
        }
    }

    /// The task of greatest kept priority runs, ties to the earlier release.
    fn switch(&mut self, protocol: Protocol, tasks: usize) {
        let greatest = greatest(&self.kept[..tasks]);
        if greatest == 0 {
            (self.running, self.user, self.next) = (NOBODY, 0, 0);
            return;
        }
        let figures = self.kept[..tasks]
            .iter()
            .zip(&self.released[..tasks])
            .enumerate();
        let equals = figures.filter(|(_, (&kept, _))| kept == greatest);
        let who = equals.min_by_key(|(_, (_, &released))| released);
        let who = who.map_or(0, |(task, _)| task);
        self.kept[who] = 0;
        self.running = who as u8;
        self.user = greatest;
        self.next = match protocol {
            Protocol::Second => self::greatest(&self.kept[..tasks]),
            Protocol::First => greatest,
        };
    }
}

fn greatest(kept: &[u8]) -> u8 {
    kept.iter().copied().fold(0, u8::max)
}

/// The events until the first refusal, with a row for each accepted one.
pub fn run(
    protocol: Protocol,
    plan: &Plan,
    events: &[u8],
    state: &mut State,
    rows: &mut [u8],
) -> Result<(), Refused> {
    let turns = events.chunks_exact(4).zip(rows.chunks_exact_mut(4));
    for (place, (record, row)) in turns.enumerate() {
        match state.act(protocol, plan, record) {
            Ok(call) => row.copy_from_slice(&[state.running, state.user, state.next, call as u8]),
            Err(number) => return Err(Refused(number, place)),
        }
    }
    Ok(())
}

/// What a replay answers: what was refused, the plan and the state.
pub struct Replayed {
    pub refused: Refused,
    pub plan: Plan,
    pub state: State,
}

pub fn replay(protocol: Protocol, book: &[u8], rows: &mut [u8]) -> Replayed {
    let mut state = State::fresh();
    let (refused, plan) = match check(book, rows.len()) {
        Err(refused) => (refused, Plan::blank()),
        Ok(checked) => {
            let ran = run(protocol, &checked.plan, checked.events, &mut state, rows);
            (ran.err().unwrap_or(Refused(0, 0)), checked.plan)
        }
    };
    Replayed {
        refused,
        plan,
        state,
    }
}
