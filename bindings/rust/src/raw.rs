//! The calls of `include/sip.h`, and each of them safe: what is behind a pointer is borrowed for the
//! call, and a handle is owned and let go of once.

use crate::question::Entry;
use crate::sketch::Update;
use std::cell::Cell;
use std::os::raw::c_void;
use std::ptr;

/// A handle as the library has it. All zeros are an empty one.
#[repr(C)]
#[derive(Clone, Copy)]
struct Spot {
    at: *mut c_void,
    full: bool,
}

#[repr(C)]
#[derive(Clone, Copy, Default)]
pub(crate) struct ToldCode {
    pub(crate) records: u64,
    pub(crate) weights: [u64; 2],
    pub(crate) fingerprint: u64,
    pub(crate) parts: u32,
    pub(crate) first_part: u32,
    pub(crate) last_part: u32,
    pub(crate) seats: u32,
    pub(crate) depth: u8,
    pub(crate) negatives: [bool; 2],
}

#[repr(C)]
#[derive(Clone, Copy)]
pub(crate) struct QuestionCode {
    pub(crate) lo: u64,
    pub(crate) hi: u64,
    pub(crate) kind: u8,
    pub(crate) side: u8,
}

#[repr(C)]
#[derive(Clone, Copy, Default)]
pub(crate) struct AnswerCode {
    pub(crate) number: i64,
    pub(crate) item: u64,
    pub(crate) pairs: usize,
    pub(crate) question: u8,
    pub(crate) kind: u8,
}

#[repr(C)]
#[derive(Clone, Copy, Default)]
pub(crate) struct EndingCode {
    pub(crate) records: u64,
    pub(crate) weights: [u64; 2],
    pub(crate) fingerprint: u64,
    pub(crate) question: u8,
    pub(crate) round: u8,
    pub(crate) reason: u8,
    pub(crate) refusal: u8,
}

extern "C" {
    fn sip_version() -> u32;
    fn sip_status_text(status: u32, to: *mut u8, room: usize, size: *mut usize) -> u32;
    fn sip_sketch_begin(
        sketch: *mut Spot,
        seed: *const u8,
        seed_length: usize,
        depth: u8,
        part: u32,
        parts: u32,
        kinds: *const u8,
        kinds_length: usize,
    ) -> u32;
    fn sip_sketch_load(
        sketch: *mut Spot,
        bytes: *const u8,
        length: usize,
        offset: *mut usize,
    ) -> u32;
    fn sip_sketch_save(sketch: *mut Spot, to: *mut u8, room: usize, size: *mut usize) -> u32;
    fn sip_sketch_keep_tables(sketch: *mut Spot) -> u32;
    fn sip_sketch_update(
        sketch: *mut Spot,
        updates: *const Update,
        count: usize,
        at: *mut usize,
    ) -> u32;
    fn sip_sketch_update_records(
        sketch: *mut Spot,
        form: u8,
        records: *const u8,
        length: usize,
        at: *mut usize,
    ) -> u32;
    fn sip_sketch_absorb(sketch: *mut Spot, part: *mut Spot) -> u32;
    fn sip_sketch_told(sketch: *mut Spot, told: *mut ToldCode) -> u32;
    fn sip_sketch_seat(sketch: *mut Spot, place: usize, kind: *mut u8, is_used: *mut bool) -> u32;
    fn sip_sketch_free(sketch: *mut Spot);
    fn sip_asking_begin(
        asking: *mut Spot,
        sketch: *mut Spot,
        questions: *const QuestionCode,
        count: usize,
        ending: *mut EndingCode,
    ) -> u32;
    fn sip_asking_wants(asking: *mut Spot, wants: *mut u8) -> u32;
    fn sip_asking_due(asking: *mut Spot, to: *mut u8, room: usize, count: *mut usize) -> u32;
    fn sip_asking_feed(
        asking: *mut Spot,
        bytes: *const u8,
        length: usize,
        taken: *mut usize,
    ) -> u32;
    fn sip_asking_close(asking: *mut Spot) -> u32;
    fn sip_asking_to_store(asking: *mut Spot, to: *mut u8, room: usize, size: *mut usize) -> u32;
    fn sip_asking_stored(asking: *mut Spot) -> u32;
    fn sip_asking_answer(asking: *mut Spot, answer: *mut AnswerCode) -> u32;
    fn sip_asking_pairs(
        asking: *mut Spot,
        from: usize,
        to: *mut Entry,
        room: usize,
        count: *mut usize,
    ) -> u32;
    fn sip_asking_next(asking: *mut Spot) -> u32;
    fn sip_asking_ended(asking: *mut Spot, ending: *mut EndingCode) -> u32;
    fn sip_asking_free(asking: *mut Spot);
    fn sip_run_begin(
        run: *mut Spot,
        seed: *const u8,
        seed_length: usize,
        depth: u8,
        questions: *const QuestionCode,
        count: usize,
        ending: *mut EndingCode,
    ) -> u32;
    fn sip_run_wants(run: *mut Spot, wants: *mut u8) -> u32;
    fn sip_run_due(run: *mut Spot, to: *mut u8, room: usize, count: *mut usize) -> u32;
    fn sip_run_update(
        run: *mut Spot,
        updates: *const Update,
        count: usize,
        taken: *mut usize,
    ) -> u32;
    fn sip_run_update_records(
        run: *mut Spot,
        form: u8,
        records: *const u8,
        length: usize,
        taken: *mut usize,
    ) -> u32;
    fn sip_run_end(run: *mut Spot) -> u32;
    fn sip_run_ask(run: *mut Spot, asking: *mut Spot, ending: *mut EndingCode) -> u32;
    fn sip_run_free(run: *mut Spot);
}

/// The status of a call that did what it was for.
pub(crate) const OK: u32 = 0;

/// The version of the library.
pub(crate) fn version() -> u32 {
    // Safe: it takes nothing.
    unsafe { sip_version() }
}

/// What a status says.
pub(crate) fn text_of(status: u32) -> String {
    let mut text = [0; 63];
    let mut size = 0;
    // Safe: both are of this call alone.
    unsafe { sip_status_text(status, text.as_mut_ptr(), text.len(), &raw mut size) };
    String::from_utf8_lossy(&text[..size]).into_owned()
}

/// A handle that is let go of once, by the call that is for what it has.
pub(crate) struct Handle {
    // A call takes out what there is and puts it back, also one that only reads: so the handle is
    // no value that two threads may read.
    spot: Cell<Spot>,
    free: unsafe extern "C" fn(*mut Spot),
}

// Safe: what is behind the pointer is the handle's own, and the library has no state (THREADS in
// the header).
unsafe impl Send for Handle {}

impl Drop for Handle {
    fn drop(&mut self) {
        // Safe: it is a handle of the library, or all zeros.
        unsafe { (self.free)(self.spot.as_ptr()) }
    }
}

impl Handle {
    fn empty(free: unsafe extern "C" fn(*mut Spot)) -> Handle {
        let spot = Spot {
            at: ptr::null_mut(),
            full: false,
        };
        Handle {
            spot: Cell::new(spot),
            free,
        }
    }

    /// An empty handle for a sketch.
    pub(crate) fn of_sketch() -> Handle {
        Handle::empty(sip_sketch_free)
    }

    /// An empty handle for a run.
    pub(crate) fn of_run() -> Handle {
        Handle::empty(sip_run_free)
    }

    /// An empty handle for what is asked.
    pub(crate) fn of_asking() -> Handle {
        Handle::empty(sip_asking_free)
    }

    // The pointer for one call: nothing else has it, since the handle is not `Sync`.
    fn spot(&self) -> *mut Spot {
        self.spot.as_ptr()
    }

    pub(crate) fn begin_sketch(
        &mut self,
        seed: &[u8],
        depth: u8,
        part: u32,
        parts: u32,
        kinds: &[u8],
    ) -> u32 {
        // Safe here and below: each pointer is to what is borrowed for the call, with its length,
        // and no two of them share memory.
        unsafe {
            sip_sketch_begin(
                self.spot(),
                seed.as_ptr(),
                seed.len(),
                depth,
                part,
                parts,
                kinds.as_ptr(),
                kinds.len(),
            )
        }
    }

    pub(crate) fn load(&mut self, bytes: &[u8], offset: &mut usize) -> u32 {
        unsafe { sip_sketch_load(self.spot(), bytes.as_ptr(), bytes.len(), offset) }
    }

    pub(crate) fn save(&self, to: &mut [u8], size: &mut usize) -> u32 {
        unsafe { sip_sketch_save(self.spot(), to.as_mut_ptr(), to.len(), size) }
    }

    pub(crate) fn keep_tables(&mut self) -> u32 {
        unsafe { sip_sketch_keep_tables(self.spot()) }
    }

    pub(crate) fn update(&mut self, updates: &[Update], at: &mut usize) -> u32 {
        unsafe { sip_sketch_update(self.spot(), updates.as_ptr(), updates.len(), at) }
    }

    pub(crate) fn update_records(&mut self, form: u8, records: &[u8], at: &mut usize) -> u32 {
        unsafe { sip_sketch_update_records(self.spot(), form, records.as_ptr(), records.len(), at) }
    }

    pub(crate) fn absorb(&mut self, part: &Handle) -> u32 {
        // Two handles: `part` is another one, since this one is borrowed alone.
        unsafe { sip_sketch_absorb(self.spot(), part.spot()) }
    }

    pub(crate) fn told(&self, told: &mut ToldCode) -> u32 {
        unsafe { sip_sketch_told(self.spot(), told) }
    }

    pub(crate) fn seat(&self, place: usize, kind: &mut u8, is_used: &mut bool) -> u32 {
        unsafe { sip_sketch_seat(self.spot(), place, kind, is_used) }
    }

    pub(crate) fn begin_asking(
        &mut self,
        sketch: &mut Handle,
        questions: &[QuestionCode],
        ending: &mut EndingCode,
    ) -> u32 {
        unsafe {
            sip_asking_begin(
                self.spot(),
                sketch.spot(),
                questions.as_ptr(),
                questions.len(),
                ending,
            )
        }
    }

    pub(crate) fn wants(&self, wants: &mut u8) -> u32 {
        unsafe { sip_asking_wants(self.spot(), wants) }
    }

    pub(crate) fn due(&mut self, to: &mut [u8], count: &mut usize) -> u32 {
        unsafe { sip_asking_due(self.spot(), to.as_mut_ptr(), to.len(), count) }
    }

    pub(crate) fn feed(&mut self, bytes: &[u8], taken: &mut usize) -> u32 {
        unsafe { sip_asking_feed(self.spot(), bytes.as_ptr(), bytes.len(), taken) }
    }

    pub(crate) fn close(&mut self) -> u32 {
        unsafe { sip_asking_close(self.spot()) }
    }

    pub(crate) fn to_store(&self, to: &mut [u8], size: &mut usize) -> u32 {
        unsafe { sip_asking_to_store(self.spot(), to.as_mut_ptr(), to.len(), size) }
    }

    pub(crate) fn stored(&mut self) -> u32 {
        unsafe { sip_asking_stored(self.spot()) }
    }

    pub(crate) fn answer(&self, answer: &mut AnswerCode) -> u32 {
        unsafe { sip_asking_answer(self.spot(), answer) }
    }

    pub(crate) fn pairs(&self, from: usize, to: &mut [Entry], count: &mut usize) -> u32 {
        unsafe { sip_asking_pairs(self.spot(), from, to.as_mut_ptr(), to.len(), count) }
    }

    pub(crate) fn next(&mut self) -> u32 {
        unsafe { sip_asking_next(self.spot()) }
    }

    pub(crate) fn ended(&self, ending: &mut EndingCode) -> u32 {
        unsafe { sip_asking_ended(self.spot(), ending) }
    }

    pub(crate) fn begin_run(
        &mut self,
        seed: &[u8],
        depth: u8,
        questions: &[QuestionCode],
        ending: &mut EndingCode,
    ) -> u32 {
        unsafe {
            sip_run_begin(
                self.spot(),
                seed.as_ptr(),
                seed.len(),
                depth,
                questions.as_ptr(),
                questions.len(),
                ending,
            )
        }
    }

    pub(crate) fn run_wants(&self, wants: &mut u8) -> u32 {
        unsafe { sip_run_wants(self.spot(), wants) }
    }

    pub(crate) fn run_due(&mut self, to: &mut [u8], count: &mut usize) -> u32 {
        unsafe { sip_run_due(self.spot(), to.as_mut_ptr(), to.len(), count) }
    }

    pub(crate) fn run_update(&mut self, updates: &[Update], taken: &mut usize) -> u32 {
        unsafe { sip_run_update(self.spot(), updates.as_ptr(), updates.len(), taken) }
    }

    pub(crate) fn run_update_records(
        &mut self,
        form: u8,
        records: &[u8],
        taken: &mut usize,
    ) -> u32 {
        unsafe { sip_run_update_records(self.spot(), form, records.as_ptr(), records.len(), taken) }
    }

    pub(crate) fn run_end(&mut self) -> u32 {
        unsafe { sip_run_end(self.spot()) }
    }

    pub(crate) fn run_ask(&mut self, asking: &mut Handle, ending: &mut EndingCode) -> u32 {
        unsafe { sip_run_ask(self.spot(), asking.spot(), ending) }
    }
}
