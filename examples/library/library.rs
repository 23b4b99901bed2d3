//! library TEXT..: the canonical links of pure identity URIs, by four threads, each with a session over the same tables.
//! Build: rustc --edition 2021 -O library.rs $(pkg-config --libs tdl)
use std::os::raw::c_void;
use std::ptr::{null, null_mut};

const OK: u32 = 0;
const NO: u32 = 1;
const ROOM: usize = 8192;
const THREADS: usize = 4;
const STEM: &[u8] = b"https://id.gs1.org";
/// Pure identity URIs to canonical links, with any filter value and any company prefix length.
const CHOICE: Choice = Choice { size: std::mem::size_of::<Choice>(), from: 2, to: 6, filter: 255, gcp: 0, flags: 0 };

#[repr(C)]
struct Choice {
    size: usize,
    from: u8,
    to: u8,
    filter: u8,
    gcp: u8,
    flags: u32,
}

#[repr(C)]
struct Handle(*mut c_void);

#[link(name = "tdl")]
extern "C" {
    #[rustfmt::skip]
    fn tdl_open(handle: *mut Handle, choice: *const Choice, encoding: *const u8, encoding_len: usize, stem: *const u8, stem_len: usize,
        tables: *const u8, tables_len: usize, prefixes: *const u8, prefixes_len: usize, out: *mut u8, capacity: usize, len: *mut usize) -> u32;
    #[rustfmt::skip]
    fn tdl_share(handle: *mut Handle, other: *mut Handle, choice: *const Choice, encoding: *const u8, encoding_len: usize, stem: *const u8,
        stem_len: usize) -> u32;
    fn tdl_translate(handle: *mut Handle, text: *const u8, text_len: usize, out: *mut u8, capacity: usize, len: *mut usize) -> u32;
    fn tdl_close(handle: *mut Handle);
}

/// A session. It is in one call at a time, which `&mut` says, and may go to another thread.
struct Session {
    handle: Handle,
    out: Vec<u8>,
}

unsafe impl Send for Session {}

impl Session {
    fn closed() -> Session {
        Session { handle: Handle(null_mut()), out: vec![0; ROOM] }
    }

    /// Opens a session over the built-in tables, or returns its status.
    fn open() -> Result<Session, u32> {
        let (mut made, mut len) = (Session::closed(), 0);
        #[rustfmt::skip]
        let status = unsafe {
            tdl_open(&mut made.handle, &CHOICE, null(), 0, STEM.as_ptr(), STEM.len(), null(), 0, null(), 0, null_mut(), 0, &mut len)
        };
        if status == OK { Ok(made) } else { Err(status) }
    }

    /// Returns a session over the same tables, or its status.
    fn share(&mut self) -> Result<Session, u32> {
        let mut made = Session::closed();
        let status = unsafe { tdl_share(&mut made.handle, &mut self.handle, &CHOICE, null(), 0, STEM.as_ptr(), STEM.len()) };
        if status == OK { Ok(made) } else { Err(status) }
    }

    /// Returns `ok` and the translation, or `no` and the reason why there is none; or the status.
    fn translate(&mut self, text: &[u8]) -> Result<String, u32> {
        let mut len = 0;
        let status = unsafe { tdl_translate(&mut self.handle, text.as_ptr(), text.len(), self.out.as_mut_ptr(), ROOM, &mut len) };
        let said = String::from_utf8_lossy(&self.out[..len]);
        match status {
            OK => Ok(format!("ok {said}")),
            NO => Ok(format!("no {said}")),
            _ => Err(status),
        }
    }
}

impl Drop for Session {
    fn drop(&mut self) {
        unsafe { tdl_close(&mut self.handle) }
    }
}

fn main() -> Result<(), String> {
    let failed = |status: u32| format!("libtdl: status {status}");
    let texts: Vec<String> = std::env::args().skip(1).collect();
    let mut first = Session::open().map_err(failed)?;
    let mut started = Vec::new();
    for k in 0..THREADS {
        let mut session = first.share().map_err(failed)?;
        let mine: Vec<String> = texts.iter().skip(k).step_by(THREADS).cloned().collect();
        started.push(std::thread::spawn(move || mine.iter().map(|text| session.translate(text.as_bytes())).collect::<Vec<_>>()));
    }
    let mut answers = Vec::new();
    for thread in started {
        answers.push(thread.join().map_err(|_| "a thread panicked")?.into_iter());
    }
    for n in 0..texts.len() {
        println!("{}", answers[n % THREADS].next().ok_or("no answer")?.map_err(failed)?);
    }
    Ok(())
}
