//! What `lq threads` does: reads that follow one another are a batch, and in a batch each slot but
//! the first has a thread of its own, which stays.
use crate::desk::{Desk, SLOTS};
use std::sync::atomic::{AtomicUsize, Ordering};
use std::sync::{Arc, Condvar, Mutex, MutexGuard, PoisonError};

const LONGEST_BATCH: usize = 1024;

/// How often a thread looks for what it waits for before it sleeps.
#[derive(Clone, Copy)]
pub struct Looks {
    pub of_caller: usize,
    pub of_workers: usize,
}

struct Shared {
    desk: Mutex<Desk>,
    // The slots whose reads are not done.
    left: AtomicUsize,
    // Whether the caller sleeps.
    caller: Mutex<bool>,
    of_caller: Condvar,
    looks: Looks,
}

/// What the thread of a slot and the caller share.
struct Worker {
    work: Mutex<Work>,
    condition: Condvar,
    // Whether reads are posted, to look without the lock.
    is_posted: AtomicUsize,
}

#[derive(Default)]
struct Work {
    reads: usize,
    replies: Replies,
    is_asleep: bool,
    is_ended: bool,
}

/// The replies to the reads of a slot, and where each ends. Both keep their memory.
#[derive(Default)]
struct Replies {
    text: Vec<u8>,
    ends: Vec<usize>,
    written: usize,
}

impl Replies {
    fn clear(&mut self) {
        self.text.clear();
        self.ends.clear();
        self.written = 0;
    }

    fn read(&mut self, desk: &Mutex<Desk>, slot: usize, reads: usize) {
        for _ in 0..reads {
            lock(desk).read(slot as u64, &mut self.text);
            self.ends.push(self.text.len());
        }
    }

    fn write_next(&mut self, out: &mut Vec<u8>) {
        let from = if self.written == 0 {
            0
        } else {
            self.ends[self.written - 1]
        };
        out.extend_from_slice(&self.text[from..self.ends[self.written]]);
        self.written += 1;
    }
}

fn lock<T>(mutex: &Mutex<T>) -> MutexGuard<'_, T> {
    mutex.lock().unwrap_or_else(PoisonError::into_inner)
}

fn wait<'a, T>(condition: &Condvar, guard: MutexGuard<'a, T>) -> MutexGuard<'a, T> {
    condition
        .wait(guard)
        .unwrap_or_else(PoisonError::into_inner)
}

fn serve(slot: usize, worker: &Worker, shared: &Shared) {
    loop {
        for _ in 0..shared.looks.of_workers {
            if worker.is_posted.load(Ordering::Acquire) != 0 {
                break;
            }
            std::hint::spin_loop();
        }
        let mut work = lock(&worker.work);
        while work.reads == 0 && !work.is_ended {
            work.is_asleep = true;
            work = wait(&worker.condition, work);
            work.is_asleep = false;
        }
        if work.is_ended {
            return;
        }
        let reads = std::mem::take(&mut work.reads);
        worker.is_posted.store(0, Ordering::Release);
        work.replies.read(&shared.desk, slot, reads);
        drop(work);
        if shared.left.fetch_sub(1, Ordering::SeqCst) == 1 && *lock(&shared.caller) {
            shared.of_caller.notify_one();
        }
    }
}

pub struct Readers {
    shared: Arc<Shared>,
    workers: [Option<(Arc<Worker>, std::thread::JoinHandle<()>)>; SLOTS + 1],
    batch: Vec<u64>,
    own: Replies,
}

impl Readers {
    pub fn new(looks: Looks) -> Readers {
        let shared = Shared {
            desk: Mutex::new(Desk::new()),
            left: AtomicUsize::new(0),
            caller: Mutex::new(false),
            of_caller: Condvar::new(),
            looks,
        };
        Readers {
            shared: Arc::new(shared),
            workers: [const { None }; SLOTS + 1],
            batch: Vec::new(),
            own: Replies::default(),
        }
    }

    /// Carries out a line that is no read, after the reads before it.
    pub fn answer(&mut self, line: &[u8], out: &mut Vec<u8>) {
        self.read_all(out);
        lock(&self.shared.desk).answer(line, out);
        for slot in 1..=SLOTS {
            if self.workers[slot].is_some() && !lock(&self.shared.desk).is_taken(slot as u64) {
                self.end(slot);
            }
        }
    }

    pub fn add_read(&mut self, slot: u64, out: &mut Vec<u8>) {
        self.batch.push(slot);
        if self.batch.len() == LONGEST_BATCH {
            self.read_all(out);
        }
    }

    /// Carries out the reads of the batch, those of each slot beside those of the others.
    pub fn read_all(&mut self, out: &mut Vec<u8>) {
        let batch = std::mem::take(&mut self.batch);
        let mut reads = [0; SLOTS + 1];
        let mut first = 0;
        {
            let desk = lock(&self.shared.desk);
            for slot in batch.iter().filter(|slot| desk.is_taken(**slot)) {
                reads[*slot as usize] += 1;
                first = if first == 0 { *slot as usize } else { first };
            }
        }
        let others = |slot: &usize| reads[*slot] > 0 && *slot != first;
        let count = (1..=SLOTS).filter(others).count();
        self.shared.left.store(count, Ordering::SeqCst);
        for slot in (1..=SLOTS).filter(others) {
            self.post(slot, reads[slot]);
        }
        self.own.clear();
        self.own.read(&self.shared.desk, first, reads[first]);
        self.wait_for_all();
        let mut done = [const { None }; SLOTS + 1];
        for slot in (1..=SLOTS).filter(others) {
            done[slot] = self.workers[slot].as_ref().map(|it| lock(&it.0.work));
        }
        for slot in &batch {
            let slot = *slot as usize;
            match done.get_mut(slot) {
                Some(Some(work)) => work.replies.write_next(out),
                _ if slot == first && first != 0 => self.own.write_next(out),
                _ => Desk::refuse(out, 25),
            }
        }
        drop(done);
        self.batch = batch;
        self.batch.clear();
    }

    fn post(&mut self, slot: usize, reads: usize) {
        let (worker, _) = self.workers[slot].get_or_insert_with(|| {
            let worker = Arc::new(Worker {
                work: Mutex::default(),
                condition: Condvar::new(),
                is_posted: AtomicUsize::new(0),
            });
            let (its, shared) = (worker.clone(), self.shared.clone());
            (
                worker,
                std::thread::spawn(move || serve(slot, &its, &shared)),
            )
        });
        let mut work = lock(&worker.work);
        work.replies.clear();
        work.reads = reads;
        worker.is_posted.store(1, Ordering::Release);
        let is_asleep = work.is_asleep;
        drop(work);
        if is_asleep {
            worker.condition.notify_one();
        }
    }

    fn wait_for_all(&self) {
        let is_done = || self.shared.left.load(Ordering::SeqCst) == 0;
        for _ in 0..self.shared.looks.of_caller {
            if is_done() {
                return;
            }
            std::hint::spin_loop();
        }
        let mut is_asleep = lock(&self.shared.caller);
        *is_asleep = true;
        while !is_done() {
            is_asleep = wait(&self.shared.of_caller, is_asleep);
        }
        *is_asleep = false;
    }

    fn end(&mut self, slot: usize) {
        if let Some((worker, thread)) = self.workers[slot].take() {
            lock(&worker.work).is_ended = true;
            worker.condition.notify_one();
            let _ = thread.join();
        }
    }
}

impl Drop for Readers {
    fn drop(&mut self) {
        (1..=SLOTS).for_each(|slot| self.end(slot));
    }
}
