//! A build of the library: the one that is linked, or one loaded from a shared object, so that two
//! builds can be measured in one process. All `unsafe` code of this crate is here.

use std::ffi::{c_char, c_int, c_void, CStr, CString};
use xapool_host::raw::{self, RawResult};

pub trait Library {
    fn init(&self, pool: &mut [u64]) -> RawResult;
    fn check(&self, pool: &[u64]) -> RawResult;
    fn run(&self, pool: &mut [u64], batch: &[u8], reply: &mut [u8]) -> RawResult;
    /// None: this build has no such call yet.
    fn list(&self, pool: &[u64], first: u64, last: u64, buffer: &mut [u8]) -> Option<RawResult>;
}

/// The library that this program is linked with.
pub struct Linked;

impl Library for Linked {
    fn init(&self, pool: &mut [u64]) -> RawResult {
        raw::init(pool)
    }

    fn check(&self, pool: &[u64]) -> RawResult {
        raw::check(pool)
    }

    fn run(&self, pool: &mut [u64], batch: &[u8], reply: &mut [u8]) -> RawResult {
        raw::run(pool, batch, reply)
    }

    fn list(&self, pool: &[u64], first: u64, last: u64, buffer: &mut [u8]) -> Option<RawResult> {
        Some(raw::list(pool, first, last, buffer))
    }
}

type Init = unsafe extern "C" fn(*mut u64, usize) -> RawResult;
type Check = unsafe extern "C" fn(*const u64, usize) -> RawResult;
type Run = unsafe extern "C" fn(*mut u64, usize, *const u8, usize, *mut u8, usize) -> RawResult;
type List = unsafe extern "C" fn(*const u64, usize, u64, u64, *mut u8, usize) -> RawResult;

/// A library loaded from a shared object; it is never unloaded.
pub struct Loaded {
    init: Init,
    check: Check,
    run: Run,
    list: Option<List>,
}

extern "C" {
    fn dlopen(path: *const c_char, flags: c_int) -> *mut c_void;
    fn dlsym(object: *mut c_void, name: *const c_char) -> *mut c_void;
    fn dlerror() -> *const c_char;
    fn clock_gettime(clock: c_int, time: *mut Timespec) -> c_int;
}

/// As on x86-64 Linux.
#[repr(C)]
struct Timespec {
    seconds: i64,
    nanoseconds: i64,
}

/// The clock of the processor time of this thread.
const THREAD_TIME: c_int = 3;

/// Nanoseconds of processor time of this thread: what a busy machine does meanwhile does not count.
pub fn processor_time() -> f64 {
    let mut time = Timespec { seconds: 0, nanoseconds: 0 };
    // SAFETY: the struct is as the call writes it, and borrowed for the call.
    let failed = unsafe { clock_gettime(THREAD_TIME, &mut time) };
    assert_eq!(failed, 0, "no clock of processor time");
    time.seconds as f64 * 1e9 + time.nanoseconds as f64
}

/// All symbols at once, none of them seen by other objects.
const RTLD_NOW: c_int = 2;

impl Loaded {
    pub fn open(path: &str) -> Result<Loaded, String> {
        let name = CString::new(path).map_err(|error| error.to_string())?;
        // SAFETY: a name that ends in 0; the objects that are named have no code that runs here.
        let object = unsafe { dlopen(name.as_ptr(), RTLD_NOW) };
        if object.is_null() {
            return Err(last_error());
        }
        let [init, check, run] = [c"xapool_init", c"xapool_check", c"xapool_run"];
        // SAFETY: functions of these names have these types (include/xapool.h).
        unsafe {
            Ok(Loaded {
                init: std::mem::transmute::<*mut c_void, Init>(symbol(object, init)?),
                check: std::mem::transmute::<*mut c_void, Check>(symbol(object, check)?),
                run: std::mem::transmute::<*mut c_void, Run>(symbol(object, run)?),
                // An older build is measured without it.
                list: symbol(object, c"xapool_list")
                    .ok()
                    .map(|list| std::mem::transmute::<*mut c_void, List>(list)),
            })
        }
    }
}

fn symbol(object: *mut c_void, name: &CStr) -> Result<*mut c_void, String> {
    // SAFETY: an object that dlopen gave, and a name that ends in 0.
    let found = unsafe { dlsym(object, name.as_ptr()) };
    if found.is_null() {
        Err(last_error())
    } else {
        Ok(found)
    }
}

fn last_error() -> String {
    // SAFETY: called just after a call that failed, so there is a text, and it is read at once.
    unsafe { CStr::from_ptr(dlerror()) }.to_string_lossy().into_owned()
}

impl Library for Loaded {
    fn init(&self, pool: &mut [u64]) -> RawResult {
        // SAFETY: pointer and length are those of a slice borrowed for the call.
        unsafe { (self.init)(pool.as_mut_ptr(), pool.len()) }
    }

    fn check(&self, pool: &[u64]) -> RawResult {
        // SAFETY: as in `init`; the call only reads.
        unsafe { (self.check)(pool.as_ptr(), pool.len()) }
    }

    fn run(&self, pool: &mut [u64], batch: &[u8], reply: &mut [u8]) -> RawResult {
        // SAFETY: three slices borrowed for the call; the two that are written are borrowed alone.
        unsafe {
            (self.run)(
                pool.as_mut_ptr(),
                pool.len(),
                batch.as_ptr(),
                batch.len(),
                reply.as_mut_ptr(),
                reply.len(),
            )
        }
    }

    fn list(&self, pool: &[u64], first: u64, last: u64, buffer: &mut [u8]) -> Option<RawResult> {
        let list = self.list?;
        let (words, bytes) = (pool.len(), buffer.len());
        // SAFETY: two slices borrowed for the call; the one that is written is borrowed alone.
        Some(unsafe { list(pool.as_ptr(), words, first, last, buffer.as_mut_ptr(), bytes) })
    }
}
