//! The C functions of the proved crate exports, declared once for the tests and the benchmarks, and
//! safe calls of them.

// Each program calls some of them.
#![allow(dead_code)]

/// Kind, n, d and zones, the first numbers of an answer.
pub type Verdict = [u64; 4];
/// N and d of the exact fraction, the next two.
pub type Exact = [u64; 2];
/// The zones that were dropped as again and as inside, the last two.
pub type Dropped = [u64; 2];
/// All numbers of an answer.
pub type Answer = [u64; 8];
/// The same as a search tells them.
pub type Findings = (Verdict, Exact, Dropped);

// A slice goes as where it begins and its length. The functions ask nothing of their arguments but
// that they are there, and reply 0 or a refusal's number.
#[link(name = "exports", kind = "static")]
extern "C" {
    pub fn robustness_refusal(automaton: *const u8, automaton_len: usize) -> u32;
    pub fn robustness_canonical(
        automaton: *const u8,
        automaton_len: usize,
        form: *mut u8,
        form_len: usize,
        length: *mut u64,
    ) -> u32;
    pub fn robustness_search(
        automaton: *const u8,
        automaton_len: usize,
        store: *mut i32,
        store_len: usize,
        answer: *mut u64,
        answer_len: usize,
    ) -> u32;
    pub fn robustness_write_run(
        automaton: *const u8,
        automaton_len: usize,
        store: *mut i32,
        store_len: usize,
        run: *mut i64,
        run_len: usize,
        answer: *mut u64,
        answer_len: usize,
    ) -> u32;
    pub fn robustness_judge(
        automaton: *const u8,
        automaton_len: usize,
        run: *const i64,
        run_len: usize,
        passes: *mut u64,
    ) -> u32;
    pub fn robustness_make_empty(cache: *mut u8, cache_len: usize) -> u32;
    pub fn robustness_sound(cache: *const u8, cache_len: usize) -> u32;
    pub fn robustness_look_up(
        cache: *const u8,
        cache_len: usize,
        automaton: *const u8,
        automaton_len: usize,
        form: *mut u8,
        form_len: usize,
        filed: *mut u64,
        answer: *mut u64,
        answer_len: usize,
    ) -> u32;
    pub fn robustness_consult(
        cache: *mut u8,
        cache_len: usize,
        automaton: *const u8,
        automaton_len: usize,
        form: *mut u8,
        form_len: usize,
        store: *mut i32,
        store_len: usize,
        answer: *mut u64,
        answer_len: usize,
    ) -> u32;
}

/// What the numbers of an answer have before, to see that a refusal leaves them.
const BEFORE: u64 = 7_777_777_777;
/// One number more than an answer has is lent, to see that it stands.
const LENT: usize = 9;

fn told(number: u32, lent: [u64; LENT]) -> Result<Answer, u32> {
    if number > 0 {
        assert_eq!(lent, [BEFORE; LENT], "{number} leaves the numbers");
        return Err(number);
    }
    let [answer @ .., behind] = lent;
    assert_eq!(behind, BEFORE, "behind the answer");
    Ok(answer)
}

/// A record has neither the exact fraction nor the counts of zones that were dropped.
fn filed(answer: Answer) -> Verdict {
    let [kind, n, d, zones, later @ ..] = answer;
    assert_eq!(later, [0; 4], "what a record does not have");
    [kind, n, d, zones]
}

fn common(a: u64, b: u64) -> u64 {
    if b == 0 {
        a
    } else {
        common(b, a % b)
    }
}

/// The exact fraction is in lowest terms, 1/0 for no limit, and never above the safe one of a verdict
/// that holds. Only a zone that is kept contains others.
fn searched(answer: Answer) -> Findings {
    let [kind, n, d, zones, exact_n, exact_d, again, inside] = answer;
    let contained = zones > 0 || (again, inside) == (0, 0);
    assert!(contained, "no zone, again {again}, inside {inside}");
    let lowest = exact_n >= 1 && common(exact_n, exact_d) == 1;
    assert!(lowest, "exact {exact_n}/{exact_d}");
    let product = |n: u64, d: u64| u128::from(n) * u128::from(d);
    let above = kind == 1 && product(exact_n, d) > product(n, exact_d);
    assert!(!above, "exact {exact_n}/{exact_d} is above {n}/{d}");
    ([kind, n, d, zones], [exact_n, exact_d], [again, inside])
}

pub fn refusal(automaton: &[u8]) -> u32 {
    unsafe { robustness_refusal(automaton.as_ptr(), automaton.len()) }
}

/// The length of the form that was written, or a refusal.
pub fn canonical(automaton: &[u8], form: &mut [u8]) -> Result<usize, u32> {
    let mut length = BEFORE;
    let (a, a_len) = (automaton.as_ptr(), automaton.len());
    let (f, f_len) = (form.as_mut_ptr(), form.len());
    let number = unsafe { robustness_canonical(a, a_len, f, f_len, &mut length) };
    if number > 0 {
        assert_eq!(length, BEFORE, "{number} leaves the length");
        return Err(number);
    }
    Ok(usize::try_from(length).expect("a length"))
}

/// All that the search tells, as it is, or a refusal.
pub fn search_answer(automaton: &[u8], store: &mut [i32]) -> Result<Answer, u32> {
    let mut lent = [BEFORE; LENT];
    let (a, a_len) = (automaton.as_ptr(), automaton.len());
    let (s, s_len) = (store.as_mut_ptr(), store.len());
    let number = unsafe { robustness_search(a, a_len, s, s_len, lent.as_mut_ptr(), LENT) };
    told(number, lent)
}

/// The same in its parts.
pub fn search_findings(automaton: &[u8], store: &mut [i32]) -> Result<Findings, u32> {
    search_answer(automaton, store).map(searched)
}

pub fn search(automaton: &[u8], store: &mut [i32]) -> Result<Verdict, u32> {
    search_findings(automaton, store).map(|(verdict, ..)| verdict)
}

/// The search's findings, and a run in its buffer where it is reached, or a refusal.
pub fn write_run_findings(
    automaton: &[u8],
    store: &mut [i32],
    run: &mut [i64],
) -> Result<Findings, u32> {
    let mut lent = [BEFORE; LENT];
    let (a, a_len) = (automaton.as_ptr(), automaton.len());
    let (s, s_len) = (store.as_mut_ptr(), store.len());
    let (r, r_len) = (run.as_mut_ptr(), run.len());
    let t = lent.as_mut_ptr();
    let number = unsafe { robustness_write_run(a, a_len, s, s_len, r, r_len, t, LENT) };
    told(number, lent).map(searched)
}

pub fn write_run(automaton: &[u8], store: &mut [i32], run: &mut [i64]) -> Result<Verdict, u32> {
    write_run_findings(automaton, store, run).map(|(verdict, ..)| verdict)
}

/// Whether the buffer begins with a run to the target, or a refusal.
pub fn judge(automaton: &[u8], run: &[i64]) -> Result<bool, u32> {
    let mut passes = BEFORE;
    let (a, a_len) = (automaton.as_ptr(), automaton.len());
    let number = unsafe { robustness_judge(a, a_len, run.as_ptr(), run.len(), &mut passes) };
    if number > 0 {
        assert_eq!(passes, BEFORE, "{number} leaves the number");
        return Err(number);
    }
    assert!(passes <= 1, "{passes} is neither yes nor no");
    Ok(passes == 1)
}

pub fn make_empty(cache: &mut [u8]) -> u32 {
    unsafe { robustness_make_empty(cache.as_mut_ptr(), cache.len()) }
}

pub fn sound(cache: &[u8]) -> u32 {
    unsafe { robustness_sound(cache.as_ptr(), cache.len()) }
}

/// The verdict filed, or none, or a refusal.
pub fn look_up(cache: &[u8], automaton: &[u8], form: &mut [u8]) -> Result<Option<Verdict>, u32> {
    let (mut there, mut lent) = (BEFORE, [BEFORE; LENT]);
    let (c, c_len) = (cache.as_ptr(), cache.len());
    let (a, a_len) = (automaton.as_ptr(), automaton.len());
    let (f, f_len) = (form.as_mut_ptr(), form.len());
    let t = lent.as_mut_ptr();
    let number = unsafe { robustness_look_up(c, c_len, a, a_len, f, f_len, &mut there, t, LENT) };
    if (number, there) == (0, 0) {
        assert_eq!(lent, [BEFORE; LENT], "no verdict, so none is written");
        return Ok(None);
    }
    let expected = if number == 0 { 1 } else { BEFORE };
    assert_eq!(there, expected, "filed, beside {number}");
    told(number, lent).map(filed).map(Some)
}

pub fn consult(
    cache: &mut [u8],
    automaton: &[u8],
    form: &mut [u8],
    store: &mut [i32],
) -> Result<Verdict, u32> {
    let mut lent = [BEFORE; LENT];
    let (c, c_len) = (cache.as_mut_ptr(), cache.len());
    let (a, a_len) = (automaton.as_ptr(), automaton.len());
    let (f, f_len) = (form.as_mut_ptr(), form.len());
    let (s, s_len) = (store.as_mut_ptr(), store.len());
    let t = lent.as_mut_ptr();
    let number = unsafe { robustness_consult(c, c_len, a, a_len, f, f_len, s, s_len, t, LENT) };
    told(number, lent).map(filed)
}
