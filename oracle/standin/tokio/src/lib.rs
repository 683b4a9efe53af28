//! Stand-in for the few parts of tokio that the original uses, on one thread: every future is ready when it is first
//! polled, and a spawned task runs to its end at once.
use std::{
    future::Future,
    pin::pin,
    task::{Context, Poll, Waker},
};

pub fn block_on<F: Future>(future: F) -> F::Output {
    match pin!(future).poll(&mut Context::from_waker(Waker::noop())) {
        Poll::Ready(value) => value,
        Poll::Pending => unreachable!("nothing here waits"),
    }
}

pub mod task {
    use std::{fmt, future};

    pub struct JoinError;

    impl fmt::Display for JoinError {
        fn fmt(&self, f: &mut fmt::Formatter) -> fmt::Result {
            f.write_str("join error")
        }
    }

    pub fn spawn<F: Future>(future: F) -> future::Ready<Result<F::Output, JoinError>> {
        future::ready(Ok(crate::block_on(future)))
    }
}

pub mod sync {
    use std::{
        cell::Cell,
        sync::{Arc, Mutex},
    };

    /// A lock that can't wait: readers are counted, a writer is -1, and a clash panics.
    #[derive(Default)]
    pub struct RwLock<T>(Mutex<Cell<i32>>, T);
    pub struct ReadGuard<'a, T>(&'a RwLock<T>);
    pub struct WriteGuard<'a, T>(&'a RwLock<T>);
    pub struct OwnedRwLockReadGuard<T>(Arc<RwLock<T>>);

    impl<T> RwLock<T> {
        pub fn new(value: T) -> Self {
            RwLock(Mutex::new(Cell::new(0)), value)
        }
        fn holders(&self, change: impl Fn(i32) -> i32) {
            let held = self.0.lock().unwrap();
            held.set(change(held.get()));
        }
        fn add_reader(&self) {
            self.holders(|n| if n >= 0 { n + 1 } else { panic!("read while written") });
        }
        pub async fn read(&self) -> ReadGuard<'_, T> {
            self.add_reader();
            ReadGuard(self)
        }
        pub async fn read_owned(self: Arc<Self>) -> OwnedRwLockReadGuard<T> {
            self.add_reader();
            OwnedRwLockReadGuard(self)
        }
        pub async fn write(&self) -> WriteGuard<'_, T> {
            self.holders(|n| if n == 0 { -1 } else { panic!("written while held") });
            WriteGuard(self)
        }
    }

    impl<T> Drop for ReadGuard<'_, T> {
        fn drop(&mut self) {
            self.0.holders(|n| n - 1);
        }
    }

    impl<T> Drop for OwnedRwLockReadGuard<T> {
        fn drop(&mut self) {
            self.0.holders(|n| n - 1);
        }
    }

    impl<T> Drop for WriteGuard<'_, T> {
        fn drop(&mut self) {
            self.0.holders(|_| 0);
        }
    }
}

pub mod fs {
    use std::{fs, io, path::Path};

    pub struct File(pub(crate) fs::File);

    impl File {
        pub async fn create(path: &Path) -> io::Result<File> {
            fs::File::create(uuid::wanted(path.to_str().unwrap())).map(File)
        }
    }

    pub async fn metadata(path: &Path) -> io::Result<fs::Metadata> {
        fs::metadata(path)
    }
}

pub mod io {
    use std::io::{Read, Result, Write, copy as copy_all};

    pub trait AsyncRead: Read {}
    impl<T: Read + ?Sized> AsyncRead for T {}

    pub trait AsyncReadExt: AsyncRead {
        fn read(&mut self, buffer: &mut [u8]) -> impl Future<Output = Result<usize>> + Send {
            std::future::ready(Read::read(self, buffer))
        }
    }
    impl<T: AsyncRead + ?Sized> AsyncReadExt for T {}

    pub trait AsyncWriteExt {
        fn flush(&mut self) -> impl Future<Output = Result<()>> + Send;
    }

    impl AsyncWriteExt for crate::fs::File {
        async fn flush(&mut self) -> Result<()> {
            self.0.flush()
        }
    }

    pub async fn copy<R: AsyncRead + ?Sized>(from: &mut R, to: &mut crate::fs::File) -> Result<u64> {
        copy_all(from, &mut to.0)
    }
}
