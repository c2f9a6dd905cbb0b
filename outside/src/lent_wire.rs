//! The proved wire side of a request as a host sees it: its entries as C declares them.

use crate::lent::{Answer, Call};
use crate::wire::Request as Plain;

/// What a sequence says of a request.
#[repr(C)]
#[derive(Clone, Copy, Debug, PartialEq, Eq)]
pub struct Request {
    pub service: u32,
    pub token: u32,
    pub reply: u32,
    pub tx: u32,
}

/// What writing tells: 0 and how many bytes were written, or a refusal and 0.
#[repr(C)]
#[derive(Clone, Copy, Debug, PartialEq, Eq)]
pub struct Written {
    pub code: i64,
    pub length: usize,
}

/// What reading tells: 0 and the request, or a refusal and zeros.
#[repr(C)]
#[derive(Clone, Copy, Debug, PartialEq, Eq)]
pub struct Read {
    pub code: i64,
    pub request: Request,
}

/// How many requests are to be written of a call, one or none, and which.
#[repr(C)]
#[derive(Clone, Copy, Debug, PartialEq, Eq)]
pub struct Outgoing {
    pub count: u32,
    pub request: Request,
}

const _: () = assert!(size_of::<Request>() == 16 && size_of::<Read>() == 24);
const _: () = assert!(size_of::<Written>() == 16 && size_of::<Outgoing>() == 20);

// A slice of the library's is a pointer and a length.
#[link(name = "wire", kind = "static")]
extern "C" {
    fn wire_write(buffer: *mut u8, bytes: usize, request: Request) -> Written;
    fn wire_read(input: *const u8, bytes: usize) -> Read;
    fn wire_of(call: Call, answer: Answer) -> Outgoing;
}

impl Request {
    pub const NONE: Request = Request {
        service: 0,
        token: 0,
        reply: 0,
        tx: 0,
    };

    pub fn new(r: &Plain) -> Self {
        Request {
            service: r.service,
            token: r.token,
            reply: r.reply,
            tx: r.tx,
        }
    }
}

pub fn write(buffer: &mut [u8], request: Request) -> Written {
    unsafe { wire_write(buffer.as_mut_ptr(), buffer.len(), request) }
}

pub fn read(input: &[u8]) -> Read {
    unsafe { wire_read(input.as_ptr(), input.len()) }
}

pub fn of(call: [u32; 6], answer: [i64; 6]) -> Outgoing {
    unsafe { wire_of(Call::new(call), Answer::new(answer)) }
}
