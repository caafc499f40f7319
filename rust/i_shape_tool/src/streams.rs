//! The standard streams as the program is given them. Rust's runtime opens the null device in place of one that is closed,
//! and its streams take what they can't read or write for the end of the input and for written.

use std::io::{self, Read, Write};

/// Returns standard input. Reading fails if it is closed, or open for writing only.
pub fn input() -> impl Read {
    system::stream(0, io::stdin())
}

/// Returns standard output. Writing fails if it is closed, or open for reading only.
pub fn output() -> impl Write {
    system::stream(1, io::stdout())
}

#[cfg(unix)]
mod system {
    use std::fs::File;
    use std::io::{self, Read, Write};
    use std::os::fd::AsFd;

    /// A file of the stream's own, or none where there is none.
    pub struct Stream(Option<File>);

    pub fn stream(number: usize, standard: impl AsFd) -> Stream {
        let own = standard.as_fd().try_clone_to_owned().map(File::from).ok();
        Stream(own.filter(|_| !at_start::is_closed(number)))
    }

    impl Stream {
        fn file(&mut self) -> io::Result<&mut File> {
            self.0
                .as_mut()
                .ok_or_else(|| io::ErrorKind::NotConnected.into())
        }
    }

    impl Read for Stream {
        fn read(&mut self, bytes: &mut [u8]) -> io::Result<usize> {
            self.file()?.read(bytes)
        }
    }

    impl Write for Stream {
        fn write(&mut self, bytes: &[u8]) -> io::Result<usize> {
            self.file()?.write(bytes)
        }

        fn flush(&mut self) -> io::Result<()> {
            self.file()?.flush()
        }
    }

    /// What is seen before Rust's runtime starts.
    #[cfg(target_os = "linux")]
    #[allow(unsafe_code)]
    mod at_start {
        use std::ffi::c_int;
        use std::sync::atomic::{AtomicBool, Ordering};

        const GET_FLAGS: c_int = 1;

        static IS_CLOSED: [AtomicBool; 2] = [const { AtomicBool::new(false) }; 2];

        unsafe extern "C" {
            fn fcntl(file: c_int, command: c_int, ...) -> c_int;
        }

        // SAFETY: the C library calls these functions, and this one uses nothing of Rust's runtime.
        #[used]
        #[unsafe(link_section = ".init_array")]
        static AT_START: extern "C" fn() = look;

        extern "C" fn look() {
            for (file, is_closed) in (0..).zip(&IS_CLOSED) {
                // SAFETY: it takes any number, and changes nothing.
                let flags = unsafe { fcntl(file, GET_FLAGS) };
                is_closed.store(flags < 0, Ordering::Relaxed);
            }
        }

        pub fn is_closed(number: usize) -> bool {
            IS_CLOSED[number].load(Ordering::Relaxed)
        }
    }

    /// Elsewhere a closed stream reads and writes as the null device.
    #[cfg(not(target_os = "linux"))]
    mod at_start {
        pub fn is_closed(_number: usize) -> bool {
            false
        }
    }
}

#[cfg(not(unix))]
mod system {
    pub fn stream<S>(_number: usize, standard: S) -> S {
        standard
    }
}
