//! A recorder: where the lines of a store's calls go.

use crate::ffi;
use std::io;
use std::os::raw::{c_char, c_void};

/// Takes a line of a log, with its end.
pub type Sink = Box<dyn FnMut(&[u8]) -> io::Result<()> + Send>;

/// A sink that writes to a file or another writer.
pub fn to_writer(mut writer: impl io::Write + Send + 'static) -> Sink {
    Box::new(move |line| writer.write_all(line))
}

/// A sink, the buffer for a line, and the first error of the sink, after which it gets no more lines.
pub(crate) struct Recorder {
    sink: Sink,
    line: Box<[u8; ffi::LINE_BYTES]>,
    pub(crate) error: Option<io::Error>,
}

impl Recorder {
    pub(crate) fn new(sink: Sink) -> Recorder {
        let mut recorder = Recorder { sink, line: Box::new([0; ffi::LINE_BYTES]), error: None };
        recorder.put(b"V1\n");
        recorder
    }

    fn put(&mut self, line: &[u8]) {
        if self.error.is_none() {
            self.error = (self.sink)(line).err();
        }
    }

    /// Puts the line that `render` makes in a buffer of the size given.
    #[cold]
    #[inline(never)]
    pub(crate) fn line(&mut self, render: impl FnOnce(*mut u8, usize) -> i32) {
        let n = render(self.line.as_mut_ptr(), self.line.len());
        if n <= 0 || self.error.is_some() {
            return;
        }
        self.error = (self.sink)(&self.line[..n as usize]).err();
    }

    /// A recorder for `luzhanem_dispatch_recorded`, good while this one is lent.
    pub(crate) fn lent(&mut self) -> Box<ffi::Recorder> {
        let context: *mut Recorder = self;
        Box::new(ffi::Recorder { put: put_line, context: context.cast(), line: [0; ffi::LINE_BYTES] })
    }
}

/// SAFETY: the library calls it with the context of [`Recorder::lent`], which lives as long, and with n bytes.
unsafe extern "C" fn put_line(context: *mut c_void, line: *const c_char, n: usize) {
    let recorder = &mut *context.cast::<Recorder>();
    recorder.put(std::slice::from_raw_parts(line.cast::<u8>(), n));
}
