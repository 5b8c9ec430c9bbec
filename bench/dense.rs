// The comparison of two small blocks by exact columns in plain Rust, for comparison of speed alone: one column of each list at a time, an
// amplitude as four numbers, one-qubit matrices from a table, and all eight powers of ω tried until none is left. It reads two accepted
// records from standard input, the second directly after the first, and prints the verdict and its two numbers; it makes no checks.
use std::io::Read;

// a + bω + cω² + dω³
type Amplitude = [i64; 4];

// No entry: the matrix has 0 there. Any other entry is a power of ω.
const NONE: u8 = 8;

// X, Y, Z, S, S inverse, T, T inverse and H without its factor, each two rows of two entries.
const MATRICES: [[[u8; 2]; 2]; 8] = [
    [[NONE, 0], [0, NONE]],
    [[NONE, 6], [2, NONE]],
    [[0, NONE], [NONE, 4]],
    [[0, NONE], [NONE, 2]],
    [[0, NONE], [NONE, 6]],
    [[0, NONE], [NONE, 1]],
    [[0, NONE], [NONE, 7]],
    [[0, 0], [0, 4]],
];

// ω has the order 8, and ω⁴ is −1.
fn times(entry: u8, [a, b, c, d]: Amplitude) -> Amplitude {
    match entry {
        0 => [a, b, c, d],
        1 => [-d, a, b, c],
        2 => [-c, -d, a, b],
        3 => [-b, -c, -d, a],
        4 => [-a, -b, -c, -d],
        5 => [d, -a, -b, -c],
        6 => [c, d, -a, -b],
        7 => [b, c, d, -a],
        _ => [0; 4],
    }
}

fn plus(x: Amplitude, y: Amplitude) -> Amplitude {
    [x[0] + y[0], x[1] + y[1], x[2] + y[2], x[3] + y[3]]
}

fn times_root_two([a, b, c, d]: Amplitude) -> Amplitude {
    [b - d, a + c, b + d, c - a]
}

fn one_qubit(column: &mut [Amplitude], matrix: [[u8; 2]; 2], bit: usize) {
    let [upper, lower] = matrix;
    for block in column.chunks_exact_mut(2 * bit) {
        let (zeros, ones) = block.split_at_mut(bit);
        for (zero, one) in zeros.iter_mut().zip(ones) {
            let (x, y) = (*zero, *one);
            *zero = plus(times(upper[0], x), times(upper[1], y));
            *one = plus(times(lower[0], x), times(lower[1], y));
        }
    }
}

fn gate(column: &mut [Amplitude], kind: u8, a: u8, b: u8) {
    if kind < 8 {
        return one_qubit(column, MATRICES[kind as usize], 1 << a);
    }
    let (a, b) = (1usize << a, 1usize << b);
    for w in 0..column.len() {
        match (kind, w & a != 0, w & b != 0) {
            (8, true, false) => column.swap(w, w | b),
            (9, true, true) => column[w] = times(4, column[w]),
            (10, true, false) => column.swap(w, w ^ a ^ b),
            _ => {}
        }
    }
}

// The column of input v, times so many roots of two.
fn run(column: &mut [Amplitude], gates: &[u8], v: usize, roots: usize) {
    column.fill([0; 4]);
    column[v] = [1, 0, 0, 0];
    for g in gates.chunks_exact(3) {
        gate(column, g[0], g[1], g[2]);
    }
    for z in column.iter_mut() {
        for _ in 0..roots {
            *z = times_root_two(*z);
        }
    }
}

fn h_gates(gates: &[u8]) -> usize {
    gates.chunks_exact(3).filter(|g| g[0] == 7).count()
}

// The power that fits all columns, or the first input at which none fits those up to it.
fn power_of(n: usize, first: &[u8], second: &[u8]) -> Result<u8, usize> {
    let (h1, h2) = (h_gates(first), h_gates(second));
    let mut left = vec![[0; 4]; 1 << n];
    let mut right = vec![[0; 4]; 1 << n];
    let mut powers: Vec<u8> = (0..8).collect();
    for v in 0..1 << n {
        run(&mut left, first, v, h2);
        run(&mut right, second, v, h1);
        powers.retain(|&j| left.iter().zip(&right).all(|(x, y)| times(j, *x) == *y));
        if powers.is_empty() {
            return Err(v);
        }
    }
    Ok(powers[0])
}

fn main() {
    let mut input = Vec::new();
    std::io::stdin().read_to_end(&mut input).unwrap();
    let size = 5 + 3 * (input[3] as usize + 256 * input[4] as usize);
    match power_of(input[2] as usize, &input[5..size], &input[size + 5..]) {
        Ok(0) => println!("equal 0 0"),
        Ok(power) => println!("turned {power} 0"),
        Err(v) => println!("different 0 {v}"),
    }
}
