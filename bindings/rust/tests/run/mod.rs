// What runs futures, for tests and for the examples of pages. (It has no `use`, since pages include it.)

/// Runs a future to its end in this thread.
#[allow(dead_code, reason = "not all who include this call it")]
pub fn run<F: std::future::Future>(future: F) -> F::Output {
    struct Unpark(std::thread::Thread);
    impl std::task::Wake for Unpark {
        fn wake(self: std::sync::Arc<Self>) {
            self.0.unpark();
        }
    }
    let waker = std::sync::Arc::new(Unpark(std::thread::current())).into();
    let mut future = std::pin::pin!(future);
    loop {
        match future
            .as_mut()
            .poll(&mut std::task::Context::from_waker(&waker))
        {
            std::task::Poll::Ready(result) => return result,
            std::task::Poll::Pending => std::thread::park(),
        }
    }
}

/// Polls a future once, with a waker that does this.
#[allow(dead_code, reason = "not all who include this call it")]
pub fn poll<F, W>(future: &mut F, wake: &std::sync::Arc<W>) -> std::task::Poll<F::Output>
where
    F: std::future::Future + Unpin,
    W: std::task::Wake + Send + Sync + 'static,
{
    let waker = std::sync::Arc::clone(wake).into();
    std::pin::Pin::new(future).poll(&mut std::task::Context::from_waker(&waker))
}

/// A waker that says whether it was called.
#[derive(Default)]
#[allow(dead_code, reason = "not all who include this make one")]
pub struct Flag(pub std::sync::atomic::AtomicBool);

impl std::task::Wake for Flag {
    fn wake(self: std::sync::Arc<Self>) {
        self.0.store(true, std::sync::atomic::Ordering::SeqCst);
    }
}

#[allow(dead_code, reason = "not all who include this call it")]
impl Flag {
    /// Whether it was called since the last look.
    pub fn take(&self) -> bool {
        self.0.swap(false, std::sync::atomic::Ordering::SeqCst)
    }
}
