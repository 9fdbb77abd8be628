//! One call of the library's functions: by the library, on lent parts with guards around them, and
//! by the second cache.

use crate::drawn::Dice;
use crate::forms;
use crate::library::{
    robustness_canonical, robustness_consult, robustness_judge, robustness_look_up,
    robustness_make_empty, robustness_refusal, robustness_search, robustness_sound,
    robustness_write_run,
};
use crate::oracle::{self, Beside, Verdict};

/// What stands beside a verdict from a cache, whose records have neither the exact fraction nor the zones
/// that were dropped.
const FILED: Beside = [0; 4];

#[derive(Clone, Copy, PartialEq, Eq, Debug)]
pub enum Call {
    Refusal,
    Canonical,
    Search,
    WriteRun,
    Judge,
    MakeEmpty,
    Sound,
    LookUp,
    Consult,
}

/// All that a call could read or write, whether or not it is lent to that call.
#[derive(Clone, PartialEq, Eq)]
pub struct Lent {
    pub cache: Vec<u8>,
    pub automaton: Vec<u8>,
    pub form: Vec<u8>,
    pub length: u64,
    pub store: Vec<i32>,
    pub run: Vec<i64>,
    pub passes: u64,
    pub filed: u64,
    pub answer: Vec<u64>,
}

pub fn random_bytes(dice: &mut Dice, count: usize) -> Vec<u8> {
    (0..count).map(|_| dice.range(0, 255) as u8).collect()
}

fn random_number(dice: &mut Dice) -> u64 {
    u64::from(dice.range(1, u32::MAX)) << dice.range(0, 32)
}

/// The bytes of the canonical form, unless the automaton is turned down.
pub fn form_length(automaton: &[u8]) -> Option<usize> {
    let accepted = oracle::refusal(automaton).is_ok();
    accepted.then(|| forms::form(automaton).len())
}

impl Lent {
    /// With random contents of the store, the form and the numbers, to see which of them stand. The
    /// answer has room for a verdict, and often for more or less than its eight numbers; the form's
    /// buffer has all the bytes that it needs, and often no more.
    pub fn new(dice: &mut Dice, cache: &[u8], automaton: &[u8], store: usize) -> Lent {
        let lent = Lent {
            cache: cache.to_vec(),
            automaton: automaton.to_vec(),
            form: Vec::new(),
            length: random_number(dice),
            store: (0..store).map(|_| dice.range(1, u32::MAX) as i32).collect(),
            run: Vec::new(),
            passes: 7_777_777_777,
            filed: random_number(dice),
            answer: Vec::new(),
        };
        let all = automaton.len();
        let room = form_length(automaton).map_or([0, 1, all], |form| [form, all, all + 20]);
        let (length, room) = (dice.pick(&[4, 7, 8, 8, 9, 20]), dice.pick(&room));
        lent.answering(dice, length).forming(dice, room)
    }

    /// With a buffer of another length for the form.
    pub fn forming(mut self, dice: &mut Dice, length: usize) -> Lent {
        self.form = random_bytes(dice, length);
        self
    }

    /// With a buffer of these numbers for a run.
    pub fn running(mut self, run: &[i64]) -> Lent {
        self.run = run.to_vec();
        self
    }

    /// With an answer of another length.
    pub fn answering(mut self, dice: &mut Dice, length: usize) -> Lent {
        self.answer = (0..length).map(|_| random_number(dice)).collect();
        self
    }

    /// Whether the automaton's form was written, and the bytes past it are as they were before.
    pub fn formed(&self, before: &Lent) -> bool {
        let form = forms::form(&before.automaton);
        let past = before.form.get(form.len()..);
        self.form.starts_with(&form) && self.form.get(form.len()..) == past
    }

    /// The first four numbers of an answer that has them.
    pub fn verdict(&self) -> [u64; 4] {
        self.answer[..4].try_into().expect("four numbers")
    }

    /// Kind, n, d and zones, and what stands beside them, as many as are lent.
    fn tell(&mut self, verdict: Verdict, beside: Beside) {
        let Verdict { kind, n, d, zones } = verdict;
        let first = [u32::from(kind), n, d, zones].map(u64::from);
        let numbers = first.into_iter().chain(beside);
        for (place, number) in self.answer.iter_mut().zip(numbers) {
            *place = number;
        }
    }
}

/// Where all of it stands. The pointers may reach past the parts, where guards are.
pub struct Places {
    pub automaton: *const u8,
    pub form: *mut u8,
    pub length: *mut u64,
    pub cache: *mut u8,
    pub store: *mut i32,
    pub run: *mut i64,
    pub passes: *mut u64,
    pub filed: *mut u64,
    pub answer: *mut u64,
}

impl Places {
    /// The library's reply. What stands at the places must be as long as what is to be lent.
    pub fn call(&self, call: Call, lent: &Lent) -> u32 {
        let (a, a_len) = (self.automaton, lent.automaton.len());
        let (f, f_len) = (self.form, lent.form.len());
        let (c, c_len) = (self.cache, lent.cache.len());
        let (s, s_len) = (self.store, lent.store.len());
        let (r, r_len) = (self.run, lent.run.len());
        let (t, t_len) = (self.answer, lent.answer.len());
        unsafe {
            match call {
                Call::Refusal => robustness_refusal(a, a_len),
                Call::Canonical => robustness_canonical(a, a_len, f, f_len, self.length),
                Call::Search => robustness_search(a, a_len, s, s_len, t, t_len),
                Call::WriteRun => robustness_write_run(a, a_len, s, s_len, r, r_len, t, t_len),
                Call::Judge => robustness_judge(a, a_len, r, r_len, self.passes),
                Call::MakeEmpty => robustness_make_empty(c, c_len),
                Call::Sound => robustness_sound(c, c_len),
                Call::LookUp => {
                    robustness_look_up(c, c_len, a, a_len, f, f_len, self.filed, t, t_len)
                }
                Call::Consult => {
                    robustness_consult(c, c_len, a, a_len, f, f_len, s, s_len, t, t_len)
                }
            }
        }
    }
}

const GUARDS: usize = 16;

/// A part between guards that a call must leave alone.
struct Guarded<T>(Vec<T>);

impl<T: Copy + PartialEq + From<u8>> Guarded<T> {
    fn new(part: &[T]) -> Guarded<T> {
        let mut all = Self::guards();
        all.extend(part);
        all.extend(Self::guards());
        Guarded(all)
    }

    fn guards() -> Vec<T> {
        (0..GUARDS).map(|i| T::from(0xa1 + i as u8)).collect()
    }

    fn start(&mut self) -> *mut T {
        self.0.as_mut_ptr().wrapping_add(GUARDS)
    }

    /// The part as it was left, unless a guard was changed.
    fn part(self) -> Option<Vec<T>> {
        let guards = Self::guards();
        let end = self.0.len() - GUARDS;
        if self.0[..GUARDS] == guards[..] && self.0[end..] == guards[..] {
            Some(self.0[GUARDS..end].to_vec())
        } else {
            None
        }
    }
}

/// The library's reply, with what it leaves in place of what was lent. None if it wrote past that.
pub fn proved(call: Call, lent: &mut Lent) -> Option<u32> {
    let mut automaton = Guarded::new(&lent.automaton);
    let mut form = Guarded::new(&lent.form);
    let mut length = Guarded::new(&[lent.length]);
    let mut cache = Guarded::new(&lent.cache);
    let mut store = Guarded::new(&lent.store);
    let mut run = Guarded::new(&lent.run);
    let mut passes = Guarded::new(&[lent.passes]);
    let mut filed = Guarded::new(&[lent.filed]);
    let mut answer = Guarded::new(&lent.answer);
    let places = Places {
        automaton: automaton.start(),
        form: form.start(),
        length: length.start(),
        cache: cache.start(),
        store: store.start(),
        run: run.start(),
        passes: passes.start(),
        filed: filed.start(),
        answer: answer.start(),
    };
    let reply = places.call(call, lent);
    lent.automaton = automaton.part()?;
    lent.form = form.part()?;
    lent.length = length.part()?[0];
    lent.cache = cache.part()?;
    lent.store = store.part()?;
    lent.run = run.part()?;
    lent.passes = passes.part()?[0];
    lent.filed = filed.part()?[0];
    lent.answer = answer.part()?;
    Some(reply)
}

/// The reply that documents 01 and 02 ask for, with what it leaves in place of what was lent.
pub fn expected(call: Call, lent: &mut Lent) -> u32 {
    let Lent {
        cache,
        automaton,
        form,
        store,
        ..
    } = lent;
    let done = match call {
        Call::Refusal => oracle::refusal(automaton),
        Call::Canonical => {
            oracle::canonical(automaton, form).map(|form| lent.length = form.len() as u64)
        }
        Call::Search => {
            oracle::searched(automaton, store).map(|(verdict, beside)| lent.tell(verdict, beside))
        }
        Call::WriteRun | Call::Judge => unreachable!("tests/story holds them to document 02"),
        Call::MakeEmpty => oracle::make_empty(cache),
        Call::Sound => oracle::sound(cache),
        Call::LookUp => oracle::look_up(cache, automaton, form).map(|found| {
            lent.filed = u64::from(found.is_some());
            found.into_iter().for_each(|v| lent.tell(v, FILED));
        }),
        Call::Consult => {
            oracle::consult(cache, automaton, form, store).map(|v| lent.tell(v, FILED))
        }
    };
    done.err().unwrap_or(0)
}
