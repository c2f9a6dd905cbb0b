//! The proved monitor as a host sees it: its entries as C declares them.

use crate::words::Monitor;

#[repr(C)]
#[derive(Clone, Copy, Debug)]
pub struct Call {
    clock: u32,
    party: u32,
    kind: u32,
    a: u32,
    b: u32,
    c: u32,
}

#[repr(C)]
#[derive(Clone, Copy, Debug)]
pub struct Answer {
    code: i64,
    value: u32,
    event: u32,
    token: u32,
    service: u32,
    tx: u32,
}

const _: () = assert!(size_of::<Call>() == 24 && size_of::<Answer>() == 32);

impl Call {
    pub fn new([clock, party, kind, a, b, c]: [u32; 6]) -> Self {
        Call {
            clock,
            party,
            kind,
            a,
            b,
            c,
        }
    }
}

impl Answer {
    /// Fields but the code are 32 bits.
    pub fn new([code, rest @ ..]: [i64; 6]) -> Self {
        let [value, event, token, service, tx] = rest.map(|n| n as u32);
        Answer {
            code,
            value,
            event,
            token,
            service,
            tx,
        }
    }
}

/// What running a drill file tells: its code, how many calls were run, and the place after them.
#[repr(C)]
#[derive(Clone, Copy, Debug, PartialEq, Eq)]
pub struct Passed {
    pub code: i64,
    pub calls: usize,
    pub used: usize,
}

// A slice of the library's is a pointer and a length.
#[link(name = "monitor", kind = "static")]
extern "C" {
    fn monitor_fresh(m: *mut Monitor);
    fn monitor_sound(m: *const Monitor) -> bool;
    fn monitor_equal(a: *const Monitor, b: *const Monitor) -> bool;
    fn monitor_step(m: *mut Monitor, call: Call) -> Answer;
    fn monitor_run(
        m: *mut Monitor,
        calls: *const u32,
        numbers: usize,
        answers: *mut i64,
        places: usize,
    ) -> i64;
    fn monitor_file(
        m: *mut Monitor,
        input: *const u8,
        bytes: usize,
        answers: *mut i64,
        places: usize,
    ) -> Passed;
}

pub fn fresh(m: &mut Monitor) {
    unsafe { monitor_fresh(m) }
}

/// A record made fresh by the library, of words that all were the greatest.
pub fn made() -> Monitor {
    let mut m = Monitor::fresh();
    m.words_mut().fill(u32::MAX);
    fresh(&mut m);
    m
}

pub fn is_sound(m: &Monitor) -> bool {
    unsafe { monitor_sound(m) }
}

pub fn equal(a: &Monitor, b: &Monitor) -> bool {
    unsafe { monitor_equal(a, b) }
}

pub fn step(m: &mut Monitor, call: [u32; 6]) -> [i64; 6] {
    let r = unsafe { monitor_step(m, Call::new(call)) };
    let [value, event, token, service, tx] =
        [r.value, r.event, r.token, r.service, r.tx].map(i64::from);
    [r.code, value, event, token, service, tx]
}

pub fn run(m: &mut Monitor, calls: &[u32], answers: &mut [i64]) -> i64 {
    unsafe {
        monitor_run(
            m,
            calls.as_ptr(),
            calls.len(),
            answers.as_mut_ptr(),
            answers.len(),
        )
    }
}

pub fn file(m: &mut Monitor, input: &[u8], answers: &mut [i64]) -> Passed {
    unsafe {
        monitor_file(
            m,
            input.as_ptr(),
            input.len(),
            answers.as_mut_ptr(),
            answers.len(),
        )
    }
}
