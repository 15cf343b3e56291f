//! The times of the proved judge, of the second program and of one plain pass over the same bytes, in one run.

// Without the library there is nothing to measure.
#[cfg(not(plan_judge))]
fn main() {
    eprintln!("PLAN_JUDGE_LIB names the directory of libjudge_c.a");
    std::process::exit(2);
}

#[cfg(plan_judge)]
fn main() {
    measured::print();
}

#[cfg(plan_judge)]
mod measured {
    use second::judge::judging::{CYCLE_PLACES, ROOM_BYTES};
    use second::testing::generating::{all_atoms, chain, choice, longest, rule_chain, weight_chain, Case};
    use second::testing::proved;
    use second::{Refusal, Verdict};
    use std::hint::black_box;

    /// What is timed.
    type Program<'a> = Box<dyn FnMut() + 'a>;

    /// A program that judges.
    type Judge = fn(&[u8], &[u8], &mut [u8], &mut [u32]) -> Verdict;

    const PLAN_P: &[u8] = include_bytes!("../../examples/plan.aspif");
    const CAND_P: &[u8] = include_bytes!("../../examples/plan.cand");

    // A batch has the runs that fill so many microseconds, a program the batches that fill so many.
    const BATCH: f64 = 2_000.0;
    const ALL: f64 = 200_000.0;
    const MOST_RUNS: f64 = 10_000.0;
    const LEAST_ROUNDS: f64 = 5.0;
    const MOST_ROUNDS: f64 = 301.0;

    /// Inputs of one kind and of growing size: a name with the size in it, how one is made, the sizes.
    struct Kind {
        name: fn(String) -> String,
        case: fn(usize) -> Case,
        sizes: [usize; 3],
    }

    // The kinds; the last size of each is the row that the first table has.
    const KINDS: [Kind; 6] = [
        // A chain of rules, the last first.
        Kind {
            name: |n| format!("{n} bytes of rules, worst order"),
            case: |n| longest(n, |atoms| rule_chain(atoms, true)),
            sizes: [15_000, 30_000, 60_000],
        },
        // A chain of weight rules that is founded in twenty rounds.
        Kind {
            name: |n| format!("{n} bytes of weight rules"),
            case: |n| longest(n, |atoms| weight_chain(atoms, 20, true)),
            sizes: [15_000, 30_000, 60_000],
        },
        Kind { name: |n| format!("{n} differences that settle"), case: settling, sizes: [250, 500, 1_000] },
        Kind {
            name: |n| format!("a chain of {n} names, worst order"),
            case: |n| chain(n, -1_000_000, None),
            sizes: [125, 250, 500],
        },
        Kind {
            name: |n| format!("a negative cycle of {n} names"),
            case: |n| chain(n, -1, Some(n as i64 - 2)),
            sizes: [125, 250, 500],
        },
        Kind { name: |n| format!("{n} atoms by choice"), case: choice, sizes: [1_024, 2_048, 4_096] },
    ];

    // Differences over 20 names: the 190 pairs in turn, the last pair first.
    fn settling(differences: usize) -> Case {
        let mut lines = String::from("asp 1 0 0\n9 1 0 4 diff\n9 1 1 1 -\n9 1 2 2 <=\n9 0 3 -3\n");
        lines.extend((0..20).map(|i| format!("9 0 {} 0\n", 4 + i)));
        let pairs: Vec<(usize, usize)> = (0..20).flat_map(|i| (i + 1..20).map(move |j| (i, j))).rev().collect();
        for i in 0..differences {
            let ((x, y), term) = (pairs[i % pairs.len()], 24 + i);
            lines += &format!("9 2 {term} 1 2 {} {}\n9 4 {i} 1 {term} 0\n9 6 {} 0 1 {i} 2 3\n", 4 + x, 4 + y, i + 1);
        }
        ((lines + "0\n").into_bytes(), all_atoms(differences))
    }

    // The floor: one pass over some bytes, in which each run of digits becomes a number and all are added up.
    fn pass(bytes: &[u8], sum: u64) -> u64 {
        let (mut sum, mut number) = (sum, 0u64);
        for byte in bytes {
            if byte.is_ascii_digit() {
                number = number.wrapping_mul(10).wrapping_add(u64::from(byte - b'0'));
            } else {
                sum = sum.wrapping_add(number);
                number = 0;
            }
        }
        sum.wrapping_add(number)
    }

    /// The time of a clock, as C has it.
    #[repr(C)]
    struct Time {
        seconds: i64,
        nanoseconds: i64,
    }

    extern "C" {
        fn clock_gettime(clock: i32, time: *mut Time) -> i32;
    }

    // The clock of the processor time of a thread, by its number in Linux.
    const THREAD_CLOCK: i32 = 3;

    // The processor time that this thread has used, in microseconds.
    fn used() -> f64 {
        let mut time = Time { seconds: 0, nanoseconds: 0 };
        // SAFETY: the pointer is to a whole time, borrowed alone.
        let answer = unsafe { clock_gettime(THREAD_CLOCK, &mut time) };
        assert_eq!(answer, 0, "a clock of processor time");
        time.seconds as f64 * 1e6 + time.nanoseconds as f64 / 1e3
    }

    // The time of one run in microseconds, from a batch of some; a run before it is not counted.
    fn batch(program: &mut Program, runs: usize) -> f64 {
        program();
        let start = used();
        (0..runs).for_each(|_| program());
        (used() - start) / runs as f64
    }

    // The median of some times.
    fn median(mut times: Vec<f64>) -> f64 {
        times.sort_by(f64::total_cmp);
        times[times.len() / 2]
    }

    // The median times of some programs; their batches are taken in turn, so that noise hits all alike.
    fn medians(mut programs: Vec<Program>) -> Vec<f64> {
        let first: Vec<f64> = programs.iter_mut().map(|p| batch(p, 1)).collect();
        let round: f64 = first.iter().map(|time| time.max(BATCH)).sum();
        let rounds = (ALL * first.len() as f64 / round).clamp(LEAST_ROUNDS, MOST_ROUNDS) as usize | 1;
        let mut times = vec![Vec::new(); programs.len()];
        for _ in 0..rounds {
            for (i, program) in programs.iter_mut().enumerate() {
                times[i].push(batch(program, (BATCH / first[i]).clamp(1.0, MOST_RUNS) as usize));
            }
        }
        times.into_iter().map(median).collect()
    }

    /// What was measured of an input.
    struct Row {
        name: String,
        bytes: usize,
        verdict: Verdict,
        judge: f64,
        second: f64,
        floor: f64,
    }

    // One judging of an input by a program, in rooms of its own.
    fn judging(judge: Judge, case: &Case) -> impl FnMut() -> Verdict + '_ {
        let (mut room, mut cycle) = (vec![0u8; ROOM_BYTES], vec![0u32; CYCLE_PLACES]);
        move || black_box(judge(black_box(&case.0), black_box(&case.1), &mut room, &mut cycle))
    }

    // The three programs that an input is timed with.
    fn programs(case: &Case) -> [Program<'_>; 3] {
        let mut judge = judging(proved::judge, case);
        let mut second = judging(second::judge, case);
        let floor = || black_box(pass(black_box(&case.1), pass(black_box(&case.0), 0)));
        [Box::new(move || _ = judge()), Box::new(move || _ = second()), Box::new(move || _ = floor())]
    }

    // The verdict on an input; both judges must give the same.
    fn agreed(name: &str, case: &Case) -> Verdict {
        let verdict = judging(proved::judge, case)();
        assert_eq!(verdict, judging(second::judge, case)(), "{name}");
        verdict
    }

    // Measures some inputs together.
    fn rows(inputs: Vec<(String, Case)>) -> Vec<Row> {
        let times = medians(inputs.iter().flat_map(|(_, case)| programs(case)).collect());
        let row = |((name, case), times): ((String, Case), &[f64])| {
            let verdict = agreed(&name, &case);
            Row { name, bytes: case.0.len(), verdict, judge: times[0], second: times[1], floor: times[2] }
        };
        inputs.into_iter().zip(times.chunks(3)).map(row).collect()
    }

    // A number with a comma before its thousands.
    fn grouped(n: usize) -> String {
        if n < 1_000 {
            n.to_string()
        } else {
            format!("{},{:03}", n / 1_000, n % 1_000)
        }
    }

    // The inputs of a kind, by growing size.
    fn inputs(kind: &Kind) -> Vec<(String, Case)> {
        kind.sizes.iter().map(|size| ((kind.name)(grouped(*size)), (kind.case)(*size))).collect()
    }

    // A verdict in a word or two.
    fn word(verdict: Verdict) -> String {
        match verdict {
            Verdict::Accepted(n) => format!("accepted {n}"),
            Verdict::Refused(Refusal { number, place }) => format!("refused {number} {place}"),
        }
    }

    // The columns of a row.
    fn line(row: &Row) -> String {
        let Row { name, bytes, judge, second, floor, .. } = row;
        let (ratio, times) = (judge / second, judge / floor);
        let verdict = word(row.verdict);
        format!(
            "{name:<36} {bytes:>6} {verdict:>15} {judge:>10.1} {second:>10.1} {ratio:>6.2} {floor:>8.2} {times:>7.1}"
        )
    }

    // The names of the columns.
    fn heading() -> String {
        let front = format!("{:<36} {:>6} {:>15} {:>10} {:>10}", "input", "bytes", "verdict", "judge", "second");
        format!("{front} {:>6} {:>8} {:>7}", "ratio", "floor", "times")
    }

    const COLUMNS: &str = "\
bytes    of the text
judge    microseconds for one judging by the proved judge
second   the same by the second program
ratio    judge divided by second
floor    microseconds for one plain pass over text and candidate: every run of digits is made a number, all are added up
times    judge divided by floor
growth   judge divided by the judge of the row above, which is of half the size
Each time is processor time, the median of batches: judge, second and floor take turns in one process. The rooms are not
cleared between runs.
";

    // Both tables: the inputs, then the large ones as they grow.
    pub fn print() {
        print!("{COLUMNS}\n{}\n", heading());
        let plan_p = rows(vec![(String::from("plan P"), (PLAN_P.to_vec(), CAND_P.to_vec()))]);
        println!("{}", line(&plan_p[0]));
        let largest_printed = |kind| {
            let rows = rows(inputs(kind));
            println!("{}", line(&rows[rows.len() - 1]));
            rows
        };
        let all: Vec<Vec<Row>> = KINDS.iter().map(largest_printed).collect();
        println!("\n{} {:>7}", heading(), "growth");
        all.iter().for_each(|rows| print_growth(rows));
    }

    // The rows of a kind, each but the first with its growth.
    fn print_growth(rows: &[Row]) {
        println!("{}", line(&rows[0]));
        for pair in rows.windows(2) {
            println!("{} {:>7.1}", line(&pair[1]), pair[1].judge / pair[0].judge);
        }
    }
}
