//! Events with arbitrary arguments: each is answered, refusals change nothing, only sleepers wake,
//! what has a position is as that operation decides it, the clock ends those who are due, and calls
//! are denied by owner and mode.

use std::collections::HashSet;

use vairolent::{
    Answer, Ending, Error, Host, Operation, Waking, Wakings, MODE_MAX, OPERATIONS, PROCESSES,
    TIME_MAX,
};

const EVENTS: usize = 200_000;

/// Marsaglia's xorshift.
struct Random(u64);

impl Random {
    fn bits(&mut self) -> u64 {
        self.0 ^= self.0 << 13;
        self.0 ^= self.0 >> 7;
        self.0 ^= self.0 << 17;
        self.0
    }

    fn below(&mut self, bound: u64) -> u64 {
        (self.bits() >> 32) % bound
    }

    /// Mostly one of a few numbers, but sometimes any.
    fn near(&mut self, bound: u64) -> u64 {
        if self.below(40) == 0 {
            self.bits()
        } else {
            self.below(bound)
        }
    }

    fn value(&mut self) -> i32 {
        [0, 1, 2, 32_767, self.bits() as i32][self.below(5) as usize]
    }

    fn mode(&mut self) -> u16 {
        let any = self.bits() as u16 & MODE_MAX;
        [0o666, 0o624, any, MODE_MAX + 1 + any][self.below(8).min(3) as usize]
    }

    fn wait(&mut self) -> Option<u32> {
        [None, None, Some(0), Some(self.below(60) as u32), Some(u32::MAX)][self.below(5) as usize]
    }

    /// Mostly a little later than the last.
    fn time(&mut self, last: u64) -> u64 {
        let before = last.wrapping_sub(1 + self.below(9));
        let times = [before, last, TIME_MAX + 1 + last, last + self.below(30)];
        times[self.below(8).min(3) as usize]
    }

    fn operation(&mut self) -> Operation {
        let amount = (self.near(7) as i16).wrapping_sub(3);
        let flags = [0, 0, 0, Operation::UNDO, Operation::NOWAIT, self.bits() as u16];
        Operation {
            number: self.near(3) as u16,
            amount,
            flags: flags[self.below(flags.len() as u64) as usize],
        }
    }
}

/// An operate, as it is handed in at a time.
struct Call {
    process: u8,
    identifier: i32,
    operations: Vec<Operation>,
    start: u64,
    wait: Option<u32>,
}

impl Call {
    /// What becomes of its first so many operations.
    fn first(&self, count: usize, host: &Host) -> Result<Answer, Error> {
        self.hand_in(count, &mut host.clone())
    }

    fn hand_in(&self, count: usize, host: &mut Host) -> Result<Answer, Error> {
        let operations = &self.operations[..count];
        match self.wait {
            None => host.operate(self.process, self.identifier, operations),
            Some(wait) => host.operate_within(self.process, self.identifier, operations, wait),
        }
    }

    /// The bits that it needs.
    fn bits(&self) -> u16 {
        let bits = self.operations.iter().map(|each| if each.amount == 0 { READ } else { ALTER });
        bits.fold(0, |all, bit| all | bit)
    }

    /// Is its wait over by this time?
    fn is_due(&self, time: u64) -> bool {
        self.wait.map_or(false, |wait| self.start + u64::from(wait) <= time)
    }

    /// If there is a position: the operations before it go through by themselves, and with it they
    /// are answered as all are.
    fn check(&self, host: &Host, answer: &Result<Answer, Error>) {
        let position = match answer {
            Ok(Answer::Done(_)) => None,
            Ok(Answer::Asleep { position }) => Some(*position),
            Err(error) => error.position(),
        };
        if let Some(position) = position {
            assert!(position == 0 || matches!(self.first(position, host), Ok(Answer::Done(_))));
            assert_eq!(self.first(position + 1, host), *answer);
        }
    }

    /// A wait of 0 refuses what would sleep; no wait makes any other difference.
    fn check_wait(&self, host: &Host, answer: &Result<Answer, Error>) {
        match host.clone().operate(self.process, self.identifier, &self.operations) {
            Ok(Answer::Asleep { position }) if self.wait == Some(0) => {
                assert_eq!(*answer, Err(Error::WouldSleep { position }));
            }
            without => assert_eq!(*answer, without),
        }
    }
}

/// The bits of three.
const READ: u16 = 4;
const ALTER: u16 = 2;

/// A user and a group: of a process, or of a set.
#[derive(Clone, Copy, Default)]
struct Numbers {
    user: u32,
    group: u32,
}

/// A live set.
struct Made {
    identifier: i32,
    owner: Numbers,
    mode: u16,
}

impl Made {
    /// Has who comes with these numbers all of these bits?
    fn permits(&self, numbers: Numbers, bits: u16) -> bool {
        let class = match numbers {
            Numbers { user: 0, .. } => return true,
            Numbers { user, .. } if user == self.owner.user => self.mode >> 6,
            Numbers { group, .. } if group == self.owner.group => self.mode >> 3,
            _ => self.mode,
        };
        class & bits == bits
    }

    fn permits_removal(&self, numbers: Numbers) -> bool {
        numbers.user == 0 || numbers.user == self.owner.user
    }
}

/// A host, and what is known of it.
struct Traffic {
    random: Random,
    host: Host,
    sets: Vec<Made>,
    /// Process 1 first.
    numbers: [Numbers; PROCESSES],
    /// Oldest first.
    asleep: Vec<Call>,
    /// The last told.
    time: u64,
    errors: HashSet<Error>,
    endings: HashSet<Ending>,
}

impl Traffic {
    fn new() -> Traffic {
        Traffic {
            random: Random(0x5EED),
            host: Host::new(),
            sets: Vec::new(),
            numbers: [Numbers::default(); PROCESSES],
            asleep: Vec::new(),
            time: 0,
            errors: HashSet::new(),
            endings: HashSet::new(),
        }
    }

    fn process(&mut self) -> u8 {
        self.random.near(9) as u8
    }

    fn identifier(&mut self) -> i32 {
        let at = self.random.near(4) as usize;
        let other = self.random.near(16) as i32;
        self.sets.get(at).map_or(other, |made| made.identifier)
    }

    fn is_asleep(&self, process: u8) -> bool {
        self.asleep.iter().any(|call| call.process == process)
    }

    /// A process that is awake, and a live set.
    fn caller(&self, process: u8, identifier: i32) -> Option<(Numbers, &Made)> {
        let numbers = *self.numbers.get(usize::from(process).checked_sub(1)?)?;
        let made = self.sets.iter().find(|made| made.identifier == identifier)?;
        (!self.is_asleep(process)).then_some((numbers, made))
    }

    /// It is refused as the call of a sleeper exactly where it is one.
    fn check_awake<T>(&self, process: u8, told: &Result<T, Error>) {
        let refused = matches!(told, Err(Error::ProcessAsleep));
        assert_eq!(refused, self.is_asleep(process));
    }

    /// .. and as not permitted where the set denies one of these bits.
    fn check<T>(&self, process: u8, identifier: i32, bits: u16, told: &Result<T, Error>) {
        self.check_awake(process, told);
        let refused = matches!(told, Err(Error::NotPermitted));
        let caller = self.caller(process, identifier);
        let denied = caller.map_or(false, |(numbers, made)| !made.permits(numbers, bits));
        assert_eq!(refused, denied);
    }

    /// Takes out the call of a process that is asleep.
    fn take(&mut self, process: u8) -> Option<Call> {
        let at = self.asleep.iter().position(|call| call.process == process)?;
        Some(self.asleep.remove(at))
    }

    fn event(&mut self) {
        let before = self.host.clone();
        let refused = match self.random.below(46) {
            0..=1 => self.create(),
            2..=29 => self.operate(),
            30..=31 => self.set_value(),
            32..=33 => self.set_all(),
            34 => self.remove(),
            35..=36 => self.signal(),
            37..=38 => self.exit(),
            39..=42 => self.clock(),
            43..=44 => self.act_as(),
            _ => self.query(),
        };
        if let Err(error) = refused {
            assert_eq!(self.host, before, "{error}");
            self.errors.insert(error);
        }
    }

    fn create(&mut self) -> Result<(), Error> {
        let (process, count) = (self.process(), self.random.near(4) as u8);
        let mode = self.random.mode();
        let told = self.host.create(process, count, mode);
        self.check_awake(process, &told);
        let (identifier, owner) = (told?, self.numbers[usize::from(process) - 1]);
        self.sets.push(Made { identifier, owner, mode });
        Ok(())
    }

    fn act_as(&mut self) -> Result<(), Error> {
        let process = self.process();
        let numbers =
            Numbers { user: self.random.near(4) as u32, group: self.random.near(3) as u32 };
        let told = self.host.act_as(process, numbers.user, numbers.group);
        self.check_awake(process, &told);
        told?;
        self.numbers[usize::from(process) - 1] = numbers;
        Ok(())
    }

    fn operate(&mut self) -> Result<(), Error> {
        let (process, identifier) = (self.process(), self.identifier());
        let above = OPERATIONS as u64 + 4;
        let length = if self.random.below(20) == 0 { self.random.below(above) } else { 2 };
        let operations: Vec<Operation> = (0..length).map(|_| self.random.operation()).collect();
        let (start, wait) = (self.time, self.random.wait());
        let call = Call { process, identifier, operations, start, wait };
        let before = self.host.clone();
        let answer = call.hand_in(call.operations.len(), &mut self.host);
        self.check_awake(process, &answer);
        // What these refuse is not asked for permission.
        let earlier = [Error::Invalid, Error::TooManyOperations, Error::NoSemaphore];
        if !earlier.iter().any(|&error| answer == Err(error)) {
            self.check(process, identifier, call.bits(), &answer);
        }
        call.check(&before, &answer);
        call.check_wait(&before, &answer);
        match answer? {
            Answer::Asleep { .. } => self.asleep.push(call),
            Answer::Done(wakings) => self.wake(wakings),
        }
        Ok(())
    }

    fn set_value(&mut self) -> Result<(), Error> {
        let (process, identifier) = (self.process(), self.identifier());
        let (number, value) = (self.random.near(3) as u16, self.random.value());
        let told = self.host.set_value(process, identifier, number, value);
        self.check(process, identifier, ALTER, &told);
        self.wake(told?);
        Ok(())
    }

    /// Where nobody is done by it, the values stay as they are set.
    fn set_all(&mut self) -> Result<(), Error> {
        let (process, identifier) = (self.process(), self.identifier());
        let values: Vec<i32> = (0..self.random.below(4)).map(|_| self.random.value()).collect();
        let told = self.host.set_all(process, identifier, &values);
        self.check(process, identifier, ALTER, &told);
        let wakings = told?;
        if wakings.clone().all(|waking| waking.ending != Ending::Done) {
            if let Ok(set) = self.host.query_set(process, identifier) {
                assert!(set.semaphores().iter().map(|each| i32::from(each.value)).eq(values));
            }
        }
        self.wake(wakings);
        Ok(())
    }

    fn remove(&mut self) -> Result<(), Error> {
        let (process, identifier) = (self.process(), self.identifier());
        let told = self.host.remove(process, identifier);
        self.check_awake(process, &told);
        let caller = self.caller(process, identifier);
        let denied = caller.map_or(false, |(numbers, made)| !made.permits_removal(numbers));
        assert_eq!(told == Err(Error::NotOwner), denied);
        let wakings = told?;
        self.sets.retain(|made| made.identifier != identifier);
        self.wake(wakings);
        Ok(())
    }

    fn signal(&mut self) -> Result<(), Error> {
        let process = self.process();
        let wakings = self.host.signal(process)?;
        assert_eq!(wakings.len(), usize::from(self.is_asleep(process)));
        self.wake(wakings);
        Ok(())
    }

    fn exit(&mut self) -> Result<(), Error> {
        let process = self.process();
        let wakings = self.host.exit(process)?;
        self.take(process);
        self.wake(wakings);
        Ok(())
    }

    /// It ends all who are due, oldest first, and nobody else.
    fn clock(&mut self) -> Result<(), Error> {
        let time = self.random.time(self.time);
        let wakings = self.host.clock(time)?;
        self.time = time;
        let due = self.asleep.iter().filter(|call| call.is_due(time)).map(|call| call.process);
        assert!(wakings.clone().map(|waking| waking.process).eq(due));
        assert!(wakings.clone().all(|waking| waking.ending == Ending::TimedOut));
        assert_eq!(wakings.looks(), 0);
        self.wake(wakings);
        Ok(())
    }

    fn query(&mut self) -> Result<(), Error> {
        let (process, identifier) = (self.process(), self.identifier());
        let number = self.random.near(3) as u16;
        let told = self.host.query(process, identifier, number);
        self.check(process, identifier, READ, &told);
        let semaphore = told?;
        assert_eq!(semaphore.increase, semaphore.increase_mask.count_ones());
        assert_eq!(semaphore.zero, semaphore.zero_mask.count_ones());
        let set = self.host.query_set(process, identifier)?;
        assert_eq!(set.semaphores()[usize::from(number)], semaphore);
        let waiting = set.semaphores().iter().map(|each| each.increase + each.zero);
        assert_eq!(waiting.sum::<u32>(), set.judged());
        Ok(())
    }

    /// Who is ended with a position would be refused so once more, unless somebody who was done
    /// behind it changed the state.
    fn wake(&mut self, wakings: Wakings) {
        let woken: Vec<Waking> = wakings.collect();
        let last_done = woken.iter().rposition(|waking| waking.ending == Ending::Done);
        for (at, waking) in woken.iter().enumerate() {
            let call = self.take(waking.process).expect("only sleepers wake");
            let ending = waking.ending;
            if ending.position().is_some() && last_done <= Some(at) {
                let again = call.first(call.operations.len(), &self.host);
                let error = again.expect_err("refused once more");
                assert_eq!((error.code(), error.position()), (ending.code(), ending.position()));
            }
            self.endings.insert(ending);
        }
    }
}

/// Each with a position comes with the first and with the second; later ones come now and then.
#[test]
fn every_error_and_every_ending_comes() {
    let mut traffic = Traffic::new();
    for _ in 0..EVENTS {
        traffic.event();
    }
    traffic.errors.retain(|error| error.position() <= Some(1));
    traffic.endings.retain(|ending| ending.position() <= Some(1));
    let errors = [
        Error::NoProcess,
        Error::ProcessAsleep,
        Error::Invalid,
        Error::TooManyOperations,
        Error::NoSemaphore,
        Error::NotPermitted,
        Error::NotOwner,
        Error::NoSlot,
        Error::BadValue,
        Error::BadTime,
        Error::WouldSleep { position: 0 },
        Error::WouldSleep { position: 1 },
        Error::OutOfRange { position: 0 },
        Error::OutOfRange { position: 1 },
    ];
    assert_eq!(traffic.errors, errors.into());
    let endings = [
        Ending::Done,
        Ending::WouldSleep { position: 0 },
        Ending::WouldSleep { position: 1 },
        Ending::OutOfRange { position: 0 },
        Ending::OutOfRange { position: 1 },
        Ending::TimedOut,
        Ending::Removed,
        Ending::Interrupted,
    ];
    assert_eq!(traffic.endings, endings.into());
}
