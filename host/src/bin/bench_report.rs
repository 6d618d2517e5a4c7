//! Times the program `report` on the largest sheets beside a plain Rust program that does the same work.
//!
//! `bench_report REPORT` runs both as processes, standard input to standard output, turn by turn; each time is the best
//! of five rounds, and the program stops if the outputs differ. `bench_report --plain` is the plain side.

use std::env;
use std::io::{self, Read, Write};
use std::process::{Command, ExitCode, Stdio};
use std::time::{Duration, Instant};

const ROUNDS: usize = 5;

fn main() -> ExitCode {
    match env::args().nth(1).as_deref() {
        Some("--plain") => {
            let mut sheet = Vec::new();
            io::stdin().read_to_end(&mut sheet).expect("standard input can be read");
            io::stdout().write_all(&plain::report(&sheet)).expect("standard output can be written");
            ExitCode::SUCCESS
        }
        Some(report) => {
            let own = env::current_exe().expect("this program has a path");
            for (name, sheet) in sheets() {
                let (mut proved, mut plain) = (Duration::MAX, Duration::MAX);
                for _ in 0..ROUNDS {
                    let (left, time) = run(Command::new(report), &sheet);
                    proved = proved.min(time);
                    let mut command = Command::new(&own);
                    command.arg("--plain");
                    let (right, time) = run(command, &sheet);
                    plain = plain.min(time);
                    assert!(left == right && !left.starts_with(b"refused"), "{name}: the outputs differ");
                }
                let ratio = proved.as_secs_f64() / plain.as_secs_f64();
                println!("{name}: report {proved:.2?}, plain Rust {plain:.2?}, ratio {ratio:.2}");
            }
            ExitCode::SUCCESS
        }
        None => {
            eprintln!("bench_report: give it the path of the program report");
            ExitCode::FAILURE
        }
    }
}

/// What a program writes for a sheet, and how long it takes.
fn run(mut command: Command, sheet: &[u8]) -> (Vec<u8>, Duration) {
    let began = Instant::now();
    let mut child = command.stdin(Stdio::piped()).stdout(Stdio::piped()).spawn().expect("the program starts");
    let mut input = child.stdin.take().expect("it has a standard input");
    let mut output = child.stdout.take().expect("it has a standard output");
    let written = std::thread::scope(|scope| {
        scope.spawn(move || input.write_all(sheet));
        let mut written = Vec::new();
        output.read_to_end(&mut written).expect("its output can be read");
        written
    });
    child.wait().expect("it ends");
    (written, began.elapsed())
}

/// The largest sheets: many tips, and many columns, with unit costs and with a cost table.
fn sheets() -> Vec<(&'static str, Vec<u8>)> {
    let costs = "costs 4\n0 2 1 2\n2 0 2 1\n1 2 0 2\n2 1 2 0\n";
    vec![
        ("512 tips, 100 columns, costs 0", sheet(512, 100, "costs 0\n")),
        ("512 tips, 100 columns, costs 4", sheet(512, 100, costs)),
        ("1 tip, 65,000 columns, costs 0", sheet(1, 65_000, "costs 0\n")),
        ("1 tip, 65,000 columns, costs 4", sheet(1, 65_000, costs)),
    ]
}

/// A sheet of so many tips in a balanced tree, and so many columns.
fn sheet(tips: usize, columns: usize, costs: &str) -> Vec<u8> {
    let mut text = format!("names {tips}\n");
    for i in 0..tips {
        text += &format!("v{i}\n");
    }
    text += &format!("columns {columns}\n");
    let mut seed = 12_345_u64;
    for _ in 0..tips {
        for _ in 0..columns {
            seed = seed.wrapping_mul(6_364_136_223_846_793_005).wrapping_add(1_442_695_040_888_963_407);
            text.push(char::from(b"ACGTACGTACGTRYN?"[(seed >> 60) as usize]));
        }
        text.push('\n');
    }
    text += costs;
    text += &format!("tree 1\n{};\n", tree(0, tips));
    text.into_bytes()
}

fn tree(first: usize, count: usize) -> String {
    match count {
        1 => format!("v{first}"),
        _ => format!("({},{})", tree(first, count / 2), tree(first + count / 2, count - count / 2)),
    }
}

/// The same work in plain Rust: the sheet is read with its rules, and each column worked by rows.
mod plain {
    const BARRED: u32 = u32::MAX;

    struct Sheet<'a> {
        rows: Vec<&'a [u8]>,
        columns: usize,
        costs: [[u32; 4]; 4],
        nodes: Vec<Node>,
    }

    #[derive(Clone, Copy)]
    enum Node {
        Tip(usize),
        Inner(usize, usize),
    }

    /// The report of a sound sheet. A sheet that is not sound is not part of what is timed, and stops the program.
    pub fn report(bytes: &[u8]) -> Vec<u8> {
        let sheet = read(bytes);
        let mut out = Vec::with_capacity(1 << 20);
        let mut total = 0;
        put_text(&mut out, b"columns ", sheet.columns);
        out.push(b'\n');
        let n = sheet.nodes.len();
        let (mut rows, mut states, mut sets) = (vec![[0; 4]; n], vec![0; n], vec![0; n]);
        for j in 0..sheet.columns {
            total += column(&sheet, j, &mut rows, &mut states, &mut sets, &mut out);
        }
        put_text(&mut out, b"total ", total);
        out.push(b'\n');
        out
    }

    fn put_text(out: &mut Vec<u8>, word: &[u8], n: usize) {
        out.extend_from_slice(word);
        put_number(out, n);
    }

    fn put_number(out: &mut Vec<u8>, n: usize) {
        if n >= 10 {
            put_number(out, n / 10);
        }
        out.push(b'0' + (n % 10) as u8);
    }

    fn set_of(symbol: u8) -> u8 {
        match symbol {
            b'A' => 1,
            b'C' => 2,
            b'G' => 4,
            b'T' | b'U' => 8,
            b'R' => 5,
            b'Y' => 10,
            b'S' => 6,
            b'W' => 9,
            b'K' => 12,
            b'M' => 3,
            b'B' => 14,
            b'D' => 13,
            b'H' => 11,
            b'V' => 7,
            b'N' | b'?' | b'-' => 15,
            _ => panic!("an unlisted symbol"),
        }
    }

    fn sum(a: u32, b: u32) -> u32 {
        if a == BARRED || b == BARRED {
            BARRED
        } else {
            a + b
        }
    }

    fn least_up(costs: &[u32; 4], row: &[u32; 4]) -> u32 {
        (0..4).map(|y| sum(costs[y], row[y])).min().expect("there are four states")
    }

    fn column(
        sheet: &Sheet,
        j: usize,
        rows: &mut [[u32; 4]],
        states: &mut [usize],
        sets: &mut [u8],
        out: &mut Vec<u8>,
    ) -> usize {
        let n = sheet.nodes.len();
        let mut plain = [0; 4];
        for v in 0..n {
            match sheet.nodes[v] {
                Node::Tip(r) => {
                    let set = set_of(sheet.rows[r][j]);
                    if set.count_ones() == 1 {
                        plain[set.trailing_zeros() as usize] += 1;
                    }
                    rows[v] = std::array::from_fn(|x| if set >> x & 1 == 1 { 0 } else { BARRED });
                }
                Node::Inner(a, b) => {
                    let (left, right) = (rows[a], rows[b]);
                    rows[v] = std::array::from_fn(|x| {
                        sum(least_up(&sheet.costs[x], &left), least_up(&sheet.costs[x], &right))
                    });
                }
            }
        }
        let root = &rows[n - 1];
        let score = *root.iter().min().expect("there are four states");
        states[n - 1] = root.iter().position(|&e| e == score).expect("the least is reached");
        sets[n - 1] = (0..4).filter(|&x| root[x] == score).map(|x| 1 << x).sum();
        for v in (0..n).rev() {
            if let Node::Inner(a, b) = sheet.nodes[v] {
                for u in [a, b] {
                    let costs = &sheet.costs[states[v]];
                    let least = least_up(costs, &rows[u]);
                    states[u] = (0..4).find(|&y| sum(costs[y], rows[u][y]) == least).expect("the least is reached");
                    let mut set = 0;
                    for x in (0..4).filter(|x| sets[v] >> x & 1 == 1) {
                        let least = least_up(&sheet.costs[x], &rows[u]);
                        for y in 0..4 {
                            if sum(sheet.costs[x][y], rows[u][y]) == least {
                                set |= 1 << y;
                            }
                        }
                    }
                    sets[u] = set;
                }
            }
        }
        let quiet = usize::from(plain.iter().filter(|&&count| count >= 2).count() < 2);
        let ones = sets.iter().filter(|set| set.count_ones() == 1).count();
        for part in [j, score as usize, quiet, ones] {
            put_number(out, part);
            out.push(b' ');
        }
        out.extend(states.iter().map(|&x| b"ACGT"[x]));
        out.push(b'\n');
        score as usize
    }

    fn count(line: &[u8], word: &str) -> usize {
        let digits = line.strip_prefix(word.as_bytes()).expect("a count line");
        std::str::from_utf8(digits).expect("digits").parse().expect("a count")
    }

    fn read(bytes: &[u8]) -> Sheet<'_> {
        assert!(bytes.len() <= 65_536, "a sheet that is too long");
        assert!(bytes.iter().all(|&b| b == 10 || (32..=126).contains(&b)), "a byte that may not be");
        let mut lines = bytes.split(|&b| b == 10);
        let mut next = || lines.next().expect("a line");
        let tips = count(next(), "names ");
        let names: Vec<&[u8]> = (0..tips).map(|_| next()).collect();
        let columns = count(next(), "columns ");
        let rows: Vec<&[u8]> = (0..tips).map(|_| next()).collect();
        assert!(rows.iter().all(|row| row.len() == columns), "a row of the wrong length");
        assert!(rows.iter().all(|row| row.iter().all(|&b| set_of(b) > 0)), "an unlisted symbol");
        let mut costs = [[1; 4]; 4];
        match count(next(), "costs ") {
            0 => (0..4).for_each(|x| costs[x][x] = 0),
            _ => {
                for row in &mut costs {
                    for (entry, word) in row.iter_mut().zip(next().split(|&b| b == 32)) {
                        *entry = std::str::from_utf8(word).expect("digits").parse().expect("a cost");
                    }
                }
            }
        }
        assert_eq!(count(next(), "tree "), 1);
        let mut nodes = Vec::with_capacity(2 * tips);
        let text = next();
        let end = tree(text, 0, &names, &mut nodes);
        assert_eq!(&text[end..], b";");
        assert_eq!(nodes.len() + 1, 2 * tips);
        Sheet { rows, columns, costs, nodes }
    }

    fn tree(text: &[u8], at: usize, names: &[&[u8]], nodes: &mut Vec<Node>) -> usize {
        if text[at] == b'(' {
            let comma = tree(text, at + 1, names, nodes);
            assert_eq!(text[comma], b',');
            let left = nodes.len() - 1;
            let close = tree(text, comma + 1, names, nodes);
            assert_eq!(text[close], b')');
            nodes.push(Node::Inner(left, nodes.len() - 1));
            return close + 1;
        }
        let end = at + text[at..].iter().position(|b| b",);".contains(b)).expect("a name ends");
        let row = names.iter().position(|&name| name == &text[at..end]).expect("a name of the sheet");
        nodes.push(Node::Tip(row));
        end
    }
}
