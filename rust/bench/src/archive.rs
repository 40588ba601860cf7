//! Archives that `scripts/archives` made, loaded while the program runs, so that two of them can be timed
//! side by side.
use calls::{ListReport, Machine, MachineStart, MachineStep, Report, Walk, WalkImage};
use std::ffi::{c_char, c_int, c_void, CStr, CString};
use std::os::unix::ffi::OsStrExt;
use std::path::Path;
use std::process::Command;
use std::{io, mem};

extern "C" {
    fn dlopen(path: *const c_char, flags: c_int) -> *mut c_void;
    fn dlsym(library: *mut c_void, name: *const c_char) -> *mut c_void;
}

/// Of dlopen: every symbol is bound at once.
const RTLD_NOW: c_int = 2;

/// An archive's shared library, which stays loaded to the end of the program.
struct Library<'a> {
    archive: &'a Path,
    handle: *mut c_void,
}

fn no(archive: &Path, what: &str) -> io::Error {
    io::Error::other(format!("{}: {what}", archive.display()))
}

impl<'a> Library<'a> {
    /// Loads an archive.
    ///
    /// # Safety
    /// It must be one that `scripts/archives` made: such a one runs nothing when it is loaded.
    unsafe fn load(archive: &'a Path) -> io::Result<Library<'a>> {
        let folder = programs::Folder::with_image(None);
        let library = folder.path().join("library.so");
        let linked = Command::new("cc")
            .args(["-shared", "-nostdlib", "-o"])
            .arg(&library)
            .arg("-Wl,--whole-archive")
            .arg(archive)
            .output()?;
        if !linked.status.success() {
            return Err(no(archive, &String::from_utf8_lossy(&linked.stderr)));
        }
        let library = CString::new(library.as_os_str().as_bytes())?;
        // SAFETY: the path ends with 0, and the library runs nothing when it is loaded.
        let handle = unsafe { dlopen(library.as_ptr(), RTLD_NOW) };
        if handle.is_null() {
            return Err(no(archive, "its shared library does not load"));
        }
        Ok(Library { archive, handle })
    }

    /// Where a function stands.
    fn function(&self, name: &CStr) -> io::Result<*mut c_void> {
        // SAFETY: the library is loaded, and the name ends with 0.
        let found = unsafe { dlsym(self.handle, name.as_ptr()) };
        if found.is_null() {
            let what = format!("it has no {}", name.to_string_lossy());
            return Err(no(self.archive, &what));
        }
        Ok(found)
    }
}

/// The walk of an archive.
///
/// # Safety
/// `scripts/archives` must have made the archive: its code is called with the types of the C header.
pub unsafe fn walk(archive: &Path) -> io::Result<Walk> {
    // SAFETY: as for this function.
    let library = unsafe { Library::load(archive)? };
    let walk_image = library.function(c"walk_image")?;
    // SAFETY: include/wuzhamben.h declares the function with this type, and the library stays loaded.
    unsafe {
        let walk_image = mem::transmute::<*mut c_void, WalkImage>(walk_image);
        Ok(Walk::new(walk_image))
    }
}

/// The machine of an archive.
///
/// # Safety
/// As for `walk`.
pub unsafe fn machine(archive: &Path) -> io::Result<Machine> {
    // SAFETY: as for this function.
    let library = unsafe { Library::load(archive)? };
    let start = library.function(c"machine_start")?;
    let step = library.function(c"machine_step")?;
    // SAFETY: as in `walk`.
    unsafe {
        let start = mem::transmute::<*mut c_void, MachineStart>(start);
        let step = mem::transmute::<*mut c_void, MachineStep>(step);
        Ok(Machine::new(start, step))
    }
}

/// The report of an archive.
///
/// # Safety
/// As for `walk`.
pub unsafe fn report(archive: &Path) -> io::Result<Report> {
    // SAFETY: as for this function.
    let library = unsafe { Library::load(archive)? };
    let list_report = library.function(c"list_report")?;
    // SAFETY: as in `walk`.
    unsafe {
        let list_report = mem::transmute::<*mut c_void, ListReport>(list_report);
        Ok(Report::new(list_report))
    }
}

#[cfg(test)]
mod tests {
    use super::*;
    use model::generate::image_a;
    use std::path::PathBuf;

    /// An archive that is built now.
    fn present(name: &str) -> PathBuf {
        programs::repository().join("target/staticlib").join(name)
    }

    #[test]
    fn the_present_archive_walks_as_the_linked_one() {
        // SAFETY: `scripts/archives` made it.
        let loaded = unsafe { walk(&present("libwalk.a")) }.expect("the archive");
        for address in (0..0x40_1000).step_by(0x800) {
            let found = loaded.walk(&image_a(), 0, address);
            assert_eq!(found, calls::walk(&image_a(), 0, address), "{address:#x}");
        }
    }

    #[test]
    fn the_present_archive_steps_as_the_linked_one() {
        // SAFETY: `scripts/archives` made it.
        let loaded = unsafe { machine(&present("libffi.a")) }.expect("the archive");
        let start = || (image_a(), vec![0; 2048], [0; 4]);
        let (mut ours, mut theirs) = (start(), start());
        let (memory, track, registers) = &mut ours;
        loaded.start(memory, track, 0, registers);
        let (memory, track, registers) = &mut theirs;
        calls::start(memory, track, 0, registers);
        assert!(ours == theirs, "the starts differ");
        for operation in [
            [0, 0x1000, 4, 0],
            [1, 0x404, 4, 0x4832],
            [0, 0x1000, 4, 0],
            [5, 0, 0, 0],
            [9, 0x1000, 0, 0],
        ] {
            let (memory, track, registers) = &mut ours;
            let found = loaded.step(&operation, registers, memory, track);
            let (memory, track, registers) = &mut theirs;
            let expected = calls::step(&operation, registers, memory, track);
            assert_eq!(found, expected, "{operation:?}");
            assert!(ours == theirs, "{operation:?} leaves another state");
        }
    }

    #[test]
    fn the_present_archive_reports_as_the_linked_one() {
        // SAFETY: `scripts/archives` made it.
        let loaded = unsafe { report(&present("libreport_ffi.a")) }.expect("the archive");
        let list = b"op,a,b,c\nread,1000,4,0\nwrite,404,4,4832\nread,1000,4,0\n";
        let start = || {
            let track = vec![0; calls::REPORT_TRACK];
            (image_a(), track, vec![0; calls::REPORT_BUFFER])
        };
        let (mut ours, mut theirs) = (start(), start());
        let (image, track, out) = &mut ours;
        let found = loaded.report(image, list, track, out);
        let (image, track, out) = &mut theirs;
        assert_eq!(found, calls::report(image, list, track, out));
        assert!(ours == theirs, "they leave other buffers");
    }

    #[test]
    fn an_archive_without_the_functions_is_an_error() {
        let (of_walk, of_machine) = (present("libwalk.a"), present("libffi.a"));
        let missing = PathBuf::from("no-such-archive");
        // SAFETY: `scripts/archives` made the archives, and the last is not there.
        unsafe {
            assert!(walk(&of_machine).is_err());
            assert!(machine(&of_walk).is_err());
            assert!(report(&of_walk).is_err());
            assert!(walk(&missing).is_err());
            assert!(machine(&missing).is_err());
        }
    }
}
