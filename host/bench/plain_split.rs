// A plain Rust program that prints what the splitting program prints, written from document 01 for
// the comparison of speed: buffered input and output, one formatted line a simplex.
use std::io::{self, BufReader, BufWriter, Read, Write};

const SEPARATOR: u64 = u64::MAX;
const NODES: [usize; 20] = [0, 1, 2, 3, 4, 3, 6, 7, 4, 8, 9, 4, 10, 6, 15, 8, 21, 0, 0, 0];

const WEDGE_QUADS: [[usize; 4]; 3] = [[1, 2, 5, 4], [2, 0, 3, 5], [0, 1, 4, 3]];
const WEDGE: [[[[usize; 4]; 3]; 2]; 6] = [
    [[[0, 4, 5, 3], [0, 1, 5, 4], [0, 5, 1, 2]], [[0, 4, 5, 3], [0, 2, 4, 1], [0, 4, 2, 5]]],
    [[[1, 5, 3, 4], [1, 2, 3, 5], [1, 3, 2, 0]], [[1, 5, 3, 4], [1, 0, 5, 2], [1, 5, 0, 3]]],
    [[[2, 3, 4, 5], [2, 0, 4, 3], [2, 4, 0, 1]], [[2, 3, 4, 5], [2, 4, 3, 1], [2, 1, 3, 0]]],
    [[[3, 2, 1, 0], [3, 1, 5, 4], [3, 5, 1, 2]], [[3, 2, 1, 0], [3, 2, 4, 1], [3, 4, 2, 5]]],
    [[[4, 0, 2, 1], [4, 2, 3, 5], [4, 3, 2, 0]], [[4, 0, 2, 1], [4, 0, 5, 2], [4, 5, 0, 3]]],
    [[[5, 1, 0, 2], [5, 0, 4, 3], [5, 4, 0, 1]], [[5, 1, 0, 2], [5, 1, 3, 0], [5, 3, 1, 4]]],
];

const RENUMBER: [[usize; 8]; 8] = [
    [0, 1, 2, 3, 4, 5, 6, 7],
    [1, 2, 3, 0, 5, 6, 7, 4],
    [2, 3, 0, 1, 6, 7, 4, 5],
    [3, 0, 1, 2, 7, 4, 5, 6],
    [4, 7, 6, 5, 0, 3, 2, 1],
    [5, 4, 7, 6, 1, 0, 3, 2],
    [6, 5, 4, 7, 2, 1, 0, 3],
    [7, 6, 5, 4, 3, 2, 1, 0],
];
const HEX: [&[[usize; 4]]; 8] = [
    &[[0, 5, 6, 4], [0, 1, 2, 6], [0, 1, 6, 5], [0, 6, 7, 4], [0, 2, 3, 7], [0, 2, 7, 6]],
    &[[0, 5, 6, 4], [0, 1, 2, 6], [0, 1, 6, 5], [0, 6, 7, 4], [0, 6, 3, 7], [0, 2, 3, 6]],
    &[[0, 5, 6, 4], [0, 1, 2, 5], [0, 5, 2, 6], [0, 6, 7, 4], [0, 2, 3, 7], [0, 2, 7, 6]],
    &[[0, 5, 6, 4], [0, 1, 2, 5], [0, 5, 2, 6], [0, 6, 7, 4], [0, 6, 3, 7], [0, 2, 3, 6]],
    &[[0, 5, 7, 4], [0, 1, 6, 5], [0, 6, 7, 5], [0, 1, 2, 6], [0, 7, 2, 3], [0, 7, 6, 2]],
    &[[0, 5, 7, 4], [0, 1, 6, 5], [0, 6, 7, 5], [0, 1, 2, 6], [0, 6, 3, 7], [0, 2, 3, 6]],
    &[[0, 5, 7, 4], [0, 1, 2, 5], [2, 6, 7, 5], [0, 2, 3, 7], [0, 5, 2, 7]],
    &[[0, 5, 7, 4], [0, 5, 6, 7], [0, 6, 3, 7], [0, 1, 2, 5], [0, 6, 5, 2], [0, 3, 6, 2]],
];

fn smallest(ids: impl Iterator<Item = u64>) -> usize {
    ids.enumerate().min_by_key(|&(place, id)| (id, place)).map_or(0, |(place, _)| place)
}

// 0 if the diagonal from the quad's first node holds its smallest id, else 1.
fn diagonal(ids: &[u64], quad: [usize; 4]) -> usize {
    smallest(quad.iter().map(|&corner| ids[corner])) % 2
}

fn refusal(kind: u64, ids: &[u64]) -> u64 {
    if !(1..=19).contains(&kind) {
        return 1;
    }
    if ids.len() > 4096 {
        return 2;
    }
    let nodes = NODES[kind as usize];
    let fits = if nodes > 0 { ids.len() == nodes } else { kind == 19 || !ids.is_empty() };
    if !fits {
        return 3;
    }
    if kind != 19 && ids.contains(&SEPARATOR) {
        return 4;
    }
    if kind >= 17 {
        return 6;
    }
    0
}

fn print_rows<const N: usize>(out: &mut impl Write, kind: u64, ids: &[u64], rows: &[[usize; N]]) -> io::Result<()> {
    for row in rows {
        write!(out, "{kind}")?;
        for &corner in row {
            write!(out, " {}", ids[corner])?;
        }
        writeln!(out)?;
    }
    Ok(())
}

fn print_tets(out: &mut impl Write, number: u64, ids: &[u64], rows: &[[usize; 4]]) -> io::Result<()> {
    writeln!(out, "{number} 0 {}", rows.len())?;
    for &[a, b, c, d] in rows {
        writeln!(out, "11 {} {} {} {}", ids[a], ids[b], ids[c], ids[d])?;
    }
    Ok(())
}

fn print_record(out: &mut impl Write, number: u64, kind: u64, ids: &[u64]) -> io::Result<()> {
    let why = refusal(kind, ids);
    if why != 0 {
        return writeln!(out, "{number} {why} 0");
    }
    let first = smallest(ids.iter().copied());
    match kind {
        15 | 16 => {
            let turned = RENUMBER[first.min(7)].map(|corner| ids[corner]);
            let case = diagonal(&turned, [4, 5, 6, 7]) * 4
                + diagonal(&turned, [1, 2, 6, 5]) * 2
                + diagonal(&turned, [2, 3, 7, 6]);
            print_tets(out, number, &turned, HEX[case])
        }
        13 | 14 => {
            let branch = first.min(5);
            print_tets(out, number, ids, &WEDGE[branch][diagonal(ids, WEDGE_QUADS[branch % 3])])
        }
        11 | 12 => print_tets(out, number, ids, &[[0, 1, 2, 3]]),
        8..=10 => {
            writeln!(out, "{number} 0 2")?;
            let rows = if first == 1 || first == 3 { [[0, 1, 3], [2, 3, 1]] } else { [[0, 2, 3], [0, 1, 2]] };
            print_rows(out, 5, ids, &rows)
        }
        5..=7 => {
            writeln!(out, "{number} 0 1")?;
            print_rows(out, 5, ids, &[[0, 1, 2]])
        }
        2..=4 => {
            writeln!(out, "{number} 0 1")?;
            print_rows(out, 2, ids, &[if first == 0 { [0, 1] } else { [1, 0] }])
        }
        _ => {
            writeln!(out, "{number} 0 1")?;
            print_rows(out, 1, ids, &[[0]])
        }
    }
}

// Fills the buffer as far as the input goes.
fn fill(input: &mut impl Read, buffer: &mut [u8]) -> io::Result<usize> {
    let mut have = 0;
    while have < buffer.len() {
        match input.read(&mut buffer[have..])? {
            0 => break,
            more => have += more,
        }
    }
    Ok(have)
}

fn main() -> io::Result<()> {
    let mut input = BufReader::with_capacity(1 << 16, io::stdin().lock());
    let mut out = BufWriter::with_capacity(1 << 16, io::stdout().lock());
    let mut body = vec![0u8; 32770];
    let mut ids: Vec<u64> = Vec::with_capacity(4096);
    let mut number = 0u64;
    loop {
        let mut length = [0u8; 4];
        let have = fill(&mut input, &mut length)?;
        if have == 0 {
            break;
        }
        let len = u32::from_le_bytes(length) as usize;
        let odd = have < 4 || len < 2 || len > 32770 || len % 8 != 2;
        if odd || fill(&mut input, &mut body[..len])? < len {
            writeln!(out, "{number} 21 0")?;
            number += 1;
            break;
        }
        let kind = u16::from_le_bytes([body[0], body[1]]) as u64;
        ids.clear();
        ids.extend(body[2..len].chunks_exact(8).map(|b| u64::from_le_bytes(b.try_into().unwrap())));
        print_record(&mut out, number, kind, &ids)?;
        number += 1;
    }
    writeln!(out, "end {number}")?;
    out.flush()
}
