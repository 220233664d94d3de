// The two schedulability tests as one would write them in plain Rust, for tools/bench/run to compare the proved code with.
// It takes the same input as the program bench and prints the same lines. Nothing here is proved.
use std::error::Error;
use std::io::BufRead;

struct Task {
    number: u8,
    period: u64,
    deadline: u64,
}

#[derive(Default)]
struct Book {
    tasks: Vec<Task>, // by number: the smaller, the higher the priority
    hyperperiod: u64,
}

fn gcd(a: u64, b: u64) -> u64 {
    if b == 0 { a } else { gcd(b, a % b) }
}

impl Book {
    fn enter(&mut self, task: Task) {
        let whole = self.hyperperiod.max(1);
        self.hyperperiod = whole / gcd(whole, task.period) * task.period;
        let place = self.tasks.partition_point(|other| other.number < task.number);
        self.tasks.insert(place, task);
    }
}

/// The work that the tasks release in t ticks.
fn requested(tasks: &[Task], times: &[u32], t: u64) -> u64 {
    tasks
        .iter()
        .zip(times)
        .map(|(task, &time)| t.div_ceil(task.period) * time as u64)
        .sum()
}

/// The work that is due by t.
fn due(tasks: &[Task], times: &[u32], t: u64) -> u64 {
    tasks
        .iter()
        .zip(times)
        .filter(|(task, _)| task.deadline <= t)
        .map(|(task, &time)| ((t - task.deadline) / task.period + 1) * time as u64)
        .sum()
}

/// The latest deadline before t, or 0.
fn latest_deadline(tasks: &[Task], t: u64) -> u64 {
    tasks
        .iter()
        .filter(|task| task.deadline < t)
        .map(|task| (t - 1 - task.deadline) / task.period * task.period + task.deadline)
        .max()
        .unwrap_or(0)
}

fn well_shaped(tasks: &[Task], times: &[u32]) -> bool {
    tasks.len() == times.len() && times.iter().all(|&time| time > 0)
}

/// Fixed priority: the response time of each task, from its own time on, is within its deadline.
fn fixed(book: &Book, times: &[u32]) -> bool {
    let tasks = &book.tasks;
    well_shaped(tasks, times)
        && (0..tasks.len()).all(|i| {
            let mut t = times[i] as u64;
            while t <= tasks[i].deadline {
                let next = times[i] as u64 + requested(&tasks[..i], &times[..i], t);
                if next == t {
                    return true;
                }
                t = next;
            }
            false
        })
}

/// Earliest deadline: quick processor-demand analysis from the end of the synchronous busy period down.
fn earliest(book: &Book, times: &[u32]) -> bool {
    let tasks = &book.tasks;
    if !well_shaped(tasks, times) {
        return false;
    }
    if requested(tasks, times, book.hyperperiod) > book.hyperperiod {
        return false;
    }
    let mut end: u64 = times.iter().map(|&time| time as u64).sum();
    loop {
        let next = requested(tasks, times, end);
        if next == end {
            break;
        }
        end = next;
    }
    let first = tasks.iter().map(|task| task.deadline).min().unwrap_or(0);
    let mut t = latest_deadline(tasks, end);
    while t >= first && t > 0 {
        let work = due(tasks, times, t);
        if work > t {
            return false;
        }
        t = if work == t { latest_deadline(tasks, t) } else { work };
    }
    true
}

/// Asks about all lists in every round, and prints the counts.
fn ask(test: fn(&Book, &[u32]) -> bool, book: &Book, lists: &[u32], rounds: u64) {
    let length = book.tasks.len().max(1);
    let mut yes = 0u64;
    for _ in 0..rounds {
        for times in lists.chunks(length) {
            yes += test(book, times) as u64;
        }
    }
    println!("asked {}, yes {yes}", (lists.len() / length) as u64 * rounds);
}

fn main() -> Result<(), Box<dyn Error>> {
    let mut book = Book::default();
    let mut lists: Vec<u32> = Vec::new();
    for line in std::io::stdin().lock().lines() {
        let line = line?;
        let words: Vec<&str> = line.split_whitespace().collect();
        match words.as_slice() {
            ["task", number, period, deadline] => book.enter(Task {
                number: number.parse()?,
                period: period.parse()?,
                deadline: deadline.parse()?,
            }),
            ["list", times @ ..] => {
                for time in times {
                    lists.push(time.parse()?);
                }
            }
            ["fixed", rounds] => ask(fixed, &book, &lists, rounds.parse()?),
            ["earliest", rounds] => ask(earliest, &book, &lists, rounds.parse()?),
            _ => return Err("a line of no known form".into()),
        }
    }
    Ok(())
}
