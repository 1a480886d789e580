//! The instances in two threads: instance 4, which takes the longest of ISAP's here, beside the others.

pub fn by_instance<T: Send>(work: impl Fn(u32) -> T + Sync) -> [T; 5] {
    std::thread::scope(|scope| {
        let fourth = scope.spawn(|| work(4));
        let (first, second, third, fifth) = (work(1), work(2), work(3), work(5));
        [first, second, third, fourth.join().expect("instance 4 is done"), fifth]
    })
}
