// Times of tasks that take turns.
use std::time::Instant;

/// Seconds that a task takes.
pub fn timed(task: impl FnOnce()) -> f64 {
    let start = Instant::now();
    task();
    start.elapsed().as_secs_f64()
}

/// Seconds of each task in its quickest round. The tasks take turns, so that a slow moment of the machine falls on all of them.
pub fn quickest(rounds: usize, tasks: &mut [&mut dyn FnMut()]) -> Vec<f64> {
    let mut least = vec![f64::MAX; tasks.len()];
    for _ in 0..rounds {
        for (task, least) in tasks.iter_mut().zip(&mut least) {
            *least = least.min(timed(task));
        }
    }
    least
}

/// What ratios range over, and nine tenths of them.
pub fn spread(mut ratios: Vec<f64>) -> String {
    ratios.sort_by(f64::total_cmp);
    let (last, part) = (ratios.len() - 1, ratios.len() / 20);
    let [least, greatest, low, high] = [0, last, part, last - part].map(|at| ratios[at]);
    format!("{least:.2} to {greatest:.2}, nine tenths of the lines {low:.2} to {high:.2}")
}
