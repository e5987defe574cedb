//! What becomes of the chapters that a hub no longer keeps.

use crate::sys;
use std::ffi::{c_void, CString};
use std::fmt;
use std::io;
use std::mem;
use std::os::raw::{c_char, c_int};
use std::os::unix::ffi::OsStrExt;
use std::panic::{self, AssertUnwindSafe};
use std::path::Path;
use std::ptr::{self, NonNull};
use std::sync::{Arc, Mutex, MutexGuard, PoisonError};

type Closure = Box<dyn FnMut(Option<&str>) + Send>;

/// Says what becomes of the chapters that a hub no longer keeps.
///
/// [`Hub::open_endless`](crate::Hub::open_endless) takes this and explains what a chapter is.
pub struct Chapters(Option<Closure>);

impl Chapters {
    /// Discards the chapters.
    pub fn discard() -> Chapters {
        Chapters(None)
    }

    /// Gives the chapters to a closure: each one once, in order.
    ///
    /// The closure gets the text of the chapter. It gets `None` if there was no memory for the text; that chapter is lost.
    ///
    /// The closure runs in the thread whose call made the chapter fall out of the hub, before that call returns or waits for its
    /// answer. The last chapters come when the hub is freed, in the thread that drops its last clone or seat. Two threads never run
    /// the closure at the same time.
    ///
    /// Other calls go on while the closure runs, but a call that makes another chapter fall out waits until it has returned. So the
    /// closure must not wait for such a call. It must not use a seat of the hub, drop the last end of a [`typed`](crate::typed)
    /// channel or [`cut`](crate::Hub::cut) the hub either, since that could wait for the closure itself. It may look at the hub and
    /// read its journal. But if the closure owns a clone of the hub or an end of such a channel, the hub is never freed.
    ///
    /// # Panics
    ///
    /// If the closure panics, no call fails: the panic hook reports the panic, and the call goes on. The closure is not called
    /// again, so all later chapters are lost.
    ///
    /// # Examples
    ///
    /// ```
    /// use chanhub::{Chapters, Edition, Hub};
    /// use std::sync::mpsc;
    ///
    /// let (give, chapters) = mpsc::channel();
    /// let to_channel = Chapters::give_to(move |text| {
    ///     let text = text.expect("memory").to_owned();
    ///     let _ = give.send(text); // it fails if nobody wants chapters any longer
    /// });
    /// let (hub, mut seats) = Hub::open_endless(Edition::Two, 1, 3, to_channel).unwrap();
    /// let mut seat = seats.remove(0);
    /// let (sender, receiver) = seat.channel(1).unwrap();
    /// for number in 7..=9u64 {
    ///     sender.send(&mut seat, number).unwrap();
    ///     receiver.recv(&mut seat).unwrap();
    /// }
    /// drop((seat, hub));
    /// let chapters: Vec<String> = chapters.iter().collect();
    /// assert_eq!(chapters[0], "chanhub journal 2\nprocs 1\n0 make 1\n0 send 1 7\n0 recv 1\n");
    /// assert_eq!(chapters[1], "chanhub journal 2\nprocs 1\n0 make 1\n0 send 1 8\n0 recv 1\n0 send 1 9\n");
    /// // The last one begins with a checkpoint: the port is made again, with the 9 in its buffer.
    /// assert_eq!(chapters[2], "chanhub journal 2\nprocs 1\n0 make 1\n0 send 1 9\n0 recv 1\n0 exit\n");
    /// ```
    ///
    /// A closure that borrows what could die before the hub does not compile:
    ///
    /// ```compile_fail,E0597
    /// use chanhub::{Chapters, Edition, Hub};
    ///
    /// let opened;
    /// {
    ///     let mut lengths = Vec::new();
    ///     let lengths = &mut lengths;
    ///     let measure = Chapters::give_to(|text| lengths.push(text.map(str::len)));
    ///     opened = Hub::open_endless(Edition::Two, 1, 3, measure);
    /// }
    /// ```
    pub fn give_to(closure: impl FnMut(Option<&str>) + Send + 'static) -> Chapters {
        Chapters(Some(Box::new(closure)))
    }

    /// Writes the chapters to files: each one to a file of its own, in order.
    ///
    /// # Examples
    ///
    /// ```
    /// use chanhub::{ChapterFiles, Chapters, Edition, Hub};
    ///
    /// # let folder = std::env::temp_dir().join(format!("chanhub-chapters-{}", std::process::id()));
    /// # std::fs::create_dir_all(&folder).unwrap();
    /// let name = "run";
    /// # let name = folder.join(name);
    /// let files = ChapterFiles::new(name).unwrap();
    /// let (hub, seats) = Hub::open_endless(Edition::Two, 1, 100_000, Chapters::write_to(&files)).unwrap();
    /// // The program runs here.
    /// drop((hub, seats)); // now all chapters are written: run.0, run.1, and so on
    /// if let Some(error) = files.error() {
    ///     panic!("a chapter is missing: {error}");
    /// }
    /// # assert_eq!(std::fs::read_to_string(folder.join("run.0")).unwrap(), "chanhub journal 2\nprocs 1\n0 exit\n");
    /// # std::fs::remove_dir_all(folder).unwrap();
    /// ```
    pub fn write_to(files: &ChapterFiles) -> Chapters {
        let files = files.clone();
        Chapters::give_to(move |text| files.write(text))
    }

    pub(crate) fn into_handler(self) -> Option<Handler> {
        self.0.map(Handler::new)
    }
}

impl fmt::Debug for Chapters {
    fn fmt(&self, f: &mut fmt::Formatter<'_>) -> fmt::Result {
        f.debug_struct("Chapters").finish_non_exhaustive()
    }
}

/// Files for the chapters of a hub. [`Chapters::write_to`] takes this.
///
/// The files are `name.0`, `name.1`, and so on, one for each chapter. A file gets its name once it is whole, and replaces one that
/// has the same name; before, it is called `name.0.tmp`. `chanhub_tool chain` checks that the files, given in order, are one history.
///
/// If a chapter cannot be written, its file is left out, and the hub goes on. The first time, a line on standard error says why, and
/// [`error`](ChapterFiles::error) returns the reason from then on.
///
/// A clone refers to the same files. Use other files for each hub, or their chapters are numbered together.
#[derive(Clone, Debug)]
pub struct ChapterFiles(Arc<Mutex<Writer>>);

/// The state of a `chanhub_files`.
#[derive(Debug)]
struct Writer {
    name: CString,
    next: u64,
    error: c_int,
}

impl ChapterFiles {
    /// Returns files with this name and a number after it. No file is made yet.
    ///
    /// # Errors
    ///
    /// Returns an error of kind [`InvalidInput`](io::ErrorKind::InvalidInput) if the name contains a zero byte.
    pub fn new(name: impl AsRef<Path>) -> io::Result<ChapterFiles> {
        let name = CString::new(name.as_ref().as_os_str().as_bytes())?;
        let writer = Writer {
            name,
            next: 0,
            error: 0,
        };
        Ok(ChapterFiles(Arc::new(Mutex::new(writer))))
    }

    /// Returns why the first chapter that is missing was not written, or `None` if none is missing.
    ///
    /// The hub writes its last chapters when it is freed, so only then is `None` final.
    pub fn error(&self) -> Option<io::Error> {
        match self.lock().error {
            0 => None,
            error => Some(io::Error::from_raw_os_error(error)),
        }
    }

    fn write(&self, text: Option<&str>) {
        let mut writer = self.lock();
        let mut files = sys::Files {
            name: writer.name.as_ptr(),
            next: writer.next,
            error: writer.error,
        };
        let (text, length) = text.map_or((ptr::null(), 0), |text| (text.as_ptr(), text.len()));
        // SAFETY: the function keeps neither pointer. The name ends with a zero byte, and the text has `length` bytes.
        unsafe { sys::chanhub_write_chapter(&mut files, text.cast(), length) };
        writer.next = files.next;
        writer.error = files.error;
    }

    fn lock(&self) -> MutexGuard<'_, Writer> {
        self.0.lock().unwrap_or_else(PoisonError::into_inner)
    }
}

/// The closure of a hub, to which the hub has a pointer. It has to be dropped after the hub is freed.
///
/// This is no `Box`, since a `Box` may be taken for the only pointer to what it owns.
pub(crate) struct Handler(NonNull<Handling>);

struct Handling {
    closure: Closure,
    has_panicked: bool,
}

impl Handler {
    fn new(closure: Closure) -> Handler {
        let handling = Handling {
            closure,
            has_panicked: false,
        };
        Handler(NonNull::from(Box::leak(Box::new(handling))))
    }

    /// Returns the pointer that [`handle`] takes.
    pub(crate) fn pointer(&self) -> *mut c_void {
        self.0.as_ptr().cast()
    }
}

impl Drop for Handler {
    fn drop(&mut self) {
        // SAFETY: the pointer is that of a `Box`, and the hub that had it too is freed.
        drop(unsafe { Box::from_raw(self.0.as_ptr()) });
    }
}

/// Gives a chapter to the closure of a [`Handler`].
///
/// # Safety
///
/// The pointer must be that of a `Handler` which is not dropped yet, and only one thread at a time may call. Unless it is NULL, the
/// text must have `length` bytes until this returns.
pub(crate) unsafe extern "C" fn handle(pointer: *mut c_void, text: *const c_char, length: usize) {
    let handling = &mut *pointer.cast::<Handling>();
    let text = sys::text_of(text, length);
    handling.give(text.as_deref());
}

impl Handling {
    /// Calls the closure, unless it has panicked. A panic must not unwind into the library.
    fn give(&mut self, text: Option<&str>) {
        if self.has_panicked {
            return;
        }
        let closure = &mut self.closure;
        // The closure is not called again after a panic, so it does not matter in what state it is then.
        if let Err(payload) = panic::catch_unwind(AssertUnwindSafe(|| closure(text))) {
            self.has_panicked = true;
            mem::forget(payload); // its drop could panic too
        }
    }
}

#[cfg(test)]
mod tests {
    use super::*;
    use std::sync::mpsc;

    #[test]
    fn a_text_for_which_there_was_no_memory_is_none() {
        let (give, texts) = mpsc::channel();
        let to_channel = Chapters::give_to(move |text| give.send(text.map(str::len)).unwrap());
        let handler = to_channel.into_handler().unwrap();
        // SAFETY: the handler exists, and the other text has no bytes.
        unsafe {
            handle(handler.pointer(), ptr::null(), 0);
            handle(handler.pointer(), NonNull::dangling().as_ptr(), 0);
        }
        drop(handler);
        assert_eq!(texts.iter().collect::<Vec<_>>(), [None, Some(0)]);
    }
}
