//! Safe wrappers of the checker's C functions: of those that are linked, and of those that a program
//! loads from another archive.

extern "C" {
    fn walk_image(image: *const u8, length: usize, root: u32, address: u32) -> u64;
    fn machine_start(
        memory: *const u8,
        memory_length: usize,
        track: *mut u32,
        track_length: usize,
        root: u32,
        registers: *mut u32,
        registers_length: usize,
    ) -> u64;
    fn machine_step(
        operation: *const u32,
        operation_length: usize,
        registers: *mut u32,
        registers_length: usize,
        memory: *mut u8,
        memory_length: usize,
        track: *mut u32,
        track_length: usize,
    ) -> u64;
    fn list_report(
        image: *mut u8,
        image_length: usize,
        list: *const u8,
        list_length: usize,
        track: *mut u32,
        track_length: usize,
        out: *mut u8,
        out_length: usize,
    ) -> u64;
}

/// The types of these functions, in their order.
pub type WalkImage = unsafe extern "C" fn(*const u8, usize, u32, u32) -> u64;
pub type MachineStart =
    unsafe extern "C" fn(*const u8, usize, *mut u32, usize, u32, *mut u32, usize) -> u64;
pub type MachineStep = unsafe extern "C" fn(
    *const u32,
    usize,
    *mut u32,
    usize,
    *mut u8,
    usize,
    *mut u32,
    usize,
) -> u64;

pub type ListReport =
    unsafe extern "C" fn(*mut u8, usize, *const u8, usize, *mut u32, usize, *mut u8, usize) -> u64;

/// The function of libwalk.a.
#[derive(Clone, Copy)]
pub struct Walk(WalkImage);

impl Walk {
    /// # Safety
    /// The function must be a `walk_image` as include/wuzhamben.h describes it.
    pub const unsafe fn new(walk_image: WalkImage) -> Walk {
        Walk(walk_image)
    }

    /// The walk of one address: an entry's track word, `0x1_0000_0000` plus a fault, or
    /// `0x2_0000_0000` plus a refusal.
    pub fn walk(&self, image: &[u8], root: u32, address: u32) -> u64 {
        // SAFETY: the pointer and the length are those of a slice that lives through the call.
        unsafe { (self.0)(image.as_ptr(), image.len(), root, address) }
    }
}

/// The functions of libffi.a.
#[derive(Clone, Copy)]
pub struct Machine {
    start: MachineStart,
    step: MachineStep,
}

impl Machine {
    /// # Safety
    /// The functions must be a `machine_start` and a `machine_step` as include/wuzhamben.h describes
    /// them.
    pub const unsafe fn new(start: MachineStart, step: MachineStep) -> Machine {
        Machine { start, step }
    }

    /// A start. `registers` are root, context, mode and domains, and hold what the start returned.
    pub fn start(&self, memory: &[u8], track: &mut [u32], root: u32, registers: &mut [u32]) -> u64 {
        // SAFETY: each pointer and length are those of a slice that lives through the call, and the
        // slices that are written overlap no other.
        unsafe {
            (self.start)(
                memory.as_ptr(),
                memory.len(),
                track.as_mut_ptr(),
                track.len(),
                root,
                registers.as_mut_ptr(),
                registers.len(),
            )
        }
    }

    /// One operation: kind, a, b and c. The answer is a value, `0x1_0000_0000` plus a fault,
    /// `0x2_0000_0000` plus a refusal, or `0x3_0000_0000` where the words are no operation or no
    /// registers.
    pub fn step(
        &self,
        operation: &[u32],
        registers: &mut [u32],
        memory: &mut [u8],
        track: &mut [u32],
    ) -> u64 {
        // SAFETY: as in `start`.
        unsafe {
            (self.step)(
                operation.as_ptr(),
                operation.len(),
                registers.as_mut_ptr(),
                registers.len(),
                memory.as_mut_ptr(),
                memory.len(),
                track.as_mut_ptr(),
                track.len(),
            )
        }
    }
}

/// The function of libreport_ffi.a.
#[derive(Clone, Copy)]
pub struct Report(ListReport);

/// The words of a report's track: 8 contexts, and the global row.
pub const REPORT_TRACK: usize = 9216;

/// The bytes of a buffer that every report fits into.
pub const REPORT_BUFFER: usize = 262_272;

impl Report {
    /// # Safety
    /// The function must be a `list_report` as include/wuzhamben.h describes it.
    pub const unsafe fn new(list_report: ListReport) -> Report {
        Report(list_report)
    }

    /// The report of an image and a list: its length, or `0x3_0000_0000` and more where there is none.
    /// `image` and `track` hold memory and track afterwards, and `out` begins with the report.
    pub fn report(&self, image: &mut [u8], list: &[u8], track: &mut [u32], out: &mut [u8]) -> u64 {
        // SAFETY: as in `Machine::start`.
        unsafe {
            (self.0)(
                image.as_mut_ptr(),
                image.len(),
                list.as_ptr(),
                list.len(),
                track.as_mut_ptr(),
                track.len(),
                out.as_mut_ptr(),
                out.len(),
            )
        }
    }
}

/// The functions that are linked.
// SAFETY: `scripts/archives` made the archives that build.rs links.
const WALK: Walk = unsafe { Walk::new(walk_image) };
const MACHINE: Machine = unsafe { Machine::new(machine_start, machine_step) };
const REPORT: Report = unsafe { Report::new(list_report) };

/// `Walk::walk` of the function that is linked.
pub fn walk(image: &[u8], root: u32, address: u32) -> u64 {
    WALK.walk(image, root, address)
}

/// `Machine::start` of the functions that are linked.
pub fn start(memory: &[u8], track: &mut [u32], root: u32, registers: &mut [u32]) -> u64 {
    MACHINE.start(memory, track, root, registers)
}

/// `Machine::step` of the functions that are linked.
pub fn step(operation: &[u32], registers: &mut [u32], memory: &mut [u8], track: &mut [u32]) -> u64 {
    MACHINE.step(operation, registers, memory, track)
}

/// `Report::report` of the function that is linked.
pub fn report(image: &mut [u8], list: &[u8], track: &mut [u32], out: &mut [u8]) -> u64 {
    REPORT.report(image, list, track, out)
}
