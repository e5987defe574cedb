//! The hub for C, by some of the calls of `capi/chanhub.h` and under their names: a program that uses no others is linked
//! with this library or with that one. Values are numbers, and what is passed is not tested.

use crate::hub::{Case, LiveHub, Pid, Port, Step, What};
use crate::value::Value as Number;
use std::ffi::{CString, c_char, c_int, c_uint};
use std::fmt::Write;
use std::slice;

#[repr(C)]
#[derive(Default)]
pub struct Value {
    number: u64,
    is_bytes: bool,
    length: u8,
    bytes: [u8; 32],
}

#[repr(C)]
#[derive(Default)]
pub struct Told {
    what: u8,
    fault: u8,
    index: u8,
    port: u16,
    value: Value,
}

#[repr(C)]
pub struct CaseC {
    sends: bool,
    port: u16,
    value: Value,
}

impl From<&CaseC> for Case {
    fn from(case: &CaseC) -> Case {
        if case.sends {
            Case::Send(case.port, Number::number(case.value.number))
        } else {
            Case::Recv(case.port)
        }
    }
}

#[repr(C)]
#[derive(Default)]
pub struct Counts {
    made: bool,
    closed: bool,
    capacity: u32,
    sent: u64,
    received: u64,
}

impl From<What> for Told {
    fn from(what: What) -> Told {
        let (number, index) = match what {
            What::Made(_) => (1, 0),
            What::Sent(case) => (2, case),
            What::Got(case, _) => (3, case),
            What::Drained(case) => (4, case),
            What::Closed(case) => (5, case),
            What::Default => (6, 0),
            What::Done => (7, 0),
            What::Parked => (8, 0),
            What::Stalled => (9, 0),
            What::Fault(_) => (10, 0),
        };
        let mut told = Told {
            what: number,
            index,
            ..Told::default()
        };
        match what {
            What::Made(port) => told.port = port,
            What::Got(_, value) => told.value.number = value.as_number().unwrap_or(0),
            What::Fault(fault) => told.fault = fault as u8,
            _ => (),
        }
        told
    }
}

/// # Safety
/// Every address that is passed is that of a hub, or of a place for what is written there.
#[unsafe(no_mangle)]
pub unsafe extern "C" fn chanhub_open(
    hub: *mut *mut LiveHub,
    _edition: c_uint,
    processes: c_uint,
    limit: u32,
) -> c_int {
    let opened = Box::new(LiveHub::new(processes as u8, limit as usize));
    unsafe { *hub = Box::into_raw(opened) };
    0
}

/// # Safety
/// As for `chanhub_open`, and so of all below. This is the last use of the hub.
#[unsafe(no_mangle)]
pub unsafe extern "C" fn chanhub_free(hub: *mut LiveHub) {
    drop(unsafe { Box::from_raw(hub) });
}

#[unsafe(no_mangle)]
pub extern "C" fn chanhub_number(number: u64) -> Value {
    Value {
        number,
        ..Value::default()
    }
}

/// # Safety
/// See above.
#[unsafe(no_mangle)]
pub unsafe extern "C" fn chanhub_make(hub: *const LiveHub, pid: c_uint, capacity: u32) -> Told {
    unsafe { &*hub }
        .step(pid as Pid, Step::Make(capacity))
        .into()
}

/// # Safety
/// See above.
#[unsafe(no_mangle)]
pub unsafe extern "C" fn chanhub_send(
    hub: *const LiveHub,
    pid: c_uint,
    port: c_uint,
    value: Value,
) -> Told {
    let case = Case::Send(port as Port, Number::number(value.number));
    unsafe { &*hub }
        .step(pid as Pid, Step::call(&[case], false, 0))
        .into()
}

/// # Safety
/// See above.
#[unsafe(no_mangle)]
pub unsafe extern "C" fn chanhub_recv(hub: *const LiveHub, pid: c_uint, port: c_uint) -> Told {
    let case = Case::Recv(port as Port);
    unsafe { &*hub }
        .step(pid as Pid, Step::call(&[case], false, 0))
        .into()
}

/// # Safety
/// See above; there are at most 16 cases.
#[unsafe(no_mangle)]
pub unsafe extern "C" fn chanhub_select(
    hub: *const LiveHub,
    pid: c_uint,
    cases: *const CaseC,
    count: usize,
    has_default: bool,
    word: u64,
) -> Told {
    let mut given = [Case::Recv(0); 16];
    for (place, case) in given
        .iter_mut()
        .zip(unsafe { slice::from_raw_parts(cases, count) })
    {
        *place = case.into();
    }
    unsafe { &*hub }
        .step(pid as Pid, Step::call(&given[..count], has_default, word))
        .into()
}

/// # Safety
/// See above.
#[unsafe(no_mangle)]
pub unsafe extern "C" fn chanhub_exit(hub: *const LiveHub, pid: c_uint) -> Told {
    unsafe { &*hub }.step(pid as Pid, Step::Exit).into()
}

/// # Safety
/// See above.
#[unsafe(no_mangle)]
pub unsafe extern "C" fn chanhub_look(hub: *const LiveHub, port: c_uint) -> Counts {
    match unsafe { &*hub }.look(port as Port) {
        Some(counts) => Counts {
            made: true,
            closed: counts.closed,
            capacity: 0,
            sent: counts.sent.into(),
            received: counts.received.into(),
        },
        None => Counts::default(),
    }
}

/// # Safety
/// See above.
#[unsafe(no_mangle)]
pub unsafe extern "C" fn chanhub_journal(hub: *const LiveHub, length: *mut usize) -> *mut c_char {
    let text = unsafe { &*hub }.with_journal(|processes, entries| {
        let mut text = format!("chanhub journal 1\nprocs {processes}\n");
        for entry in entries {
            writeln!(text, "{entry}").expect("a string takes all");
        }
        text
    });
    unsafe { *length = text.len() };
    CString::new(text).expect("no byte is 0").into_raw()
}

/// # Safety
/// See above. The text is one of `chanhub_journal`.
#[unsafe(no_mangle)]
pub unsafe extern "C" fn chanhub_free_text(text: *mut c_char) {
    drop(unsafe { CString::from_raw(text) });
}
