/// Most failures that are told in full.
const MOST_TOLD: usize = 25;

#[derive(Default)]
pub struct Tally {
    passed: usize,
    failed: usize,
}

impl Tally {
    pub fn pass(&mut self, count: usize) {
        self.passed += count;
    }

    pub fn fail(&mut self, message: &str) {
        self.failed += 1;
        if self.failed <= MOST_TOLD {
            println!("{message}");
        } else if self.failed == MOST_TOLD + 1 {
            println!("further failures are only counted");
        }
    }

    pub fn add(&mut self, results: Vec<Result<(), String>>) {
        for result in results {
            match result {
                Ok(()) => self.pass(1),
                Err(message) => self.fail(&message),
            }
        }
    }

    /// The last line; the exit status is 0 exactly if nothing failed.
    pub fn end(self) -> ! {
        println!("{} passed, {} failed", self.passed, self.failed);
        std::process::exit(i32::from(self.failed > 0));
    }
}

/// Does the work for every number below `count`, `jobs` at a time.
pub fn for_all<T: Send>(jobs: usize, count: usize, work: impl Fn(usize) -> T + Sync) -> Vec<T> {
    let next = std::sync::atomic::AtomicUsize::new(0);
    let done = std::sync::Mutex::new(Vec::new());
    std::thread::scope(|scope| {
        for _ in 0..jobs {
            scope.spawn(|| loop {
                let number = next.fetch_add(1, std::sync::atomic::Ordering::Relaxed);
                if number >= count {
                    return;
                }
                let result = work(number);
                done.lock().unwrap().push((number, result));
            });
        }
    });
    let mut done = done.into_inner().unwrap();
    done.sort_by_key(|(number, _)| *number);
    done.into_iter().map(|(_, result)| result).collect()
}
