// The canonical form of terms by the standard library's sort and dedup, for comparison. Standard input: a byte (1: make the
// canonical form, 0: only read), then terms of 17 bytes, a set of 16 (low byte first) and a coefficient. Prints how many stay.
use std::io::Read;

fn main() {
    let mut input = Vec::new();
    std::io::stdin().read_to_end(&mut input).unwrap();
    let mut terms: Vec<(u128, u8)> = input[1..]
        .chunks_exact(17)
        .map(|t| (u128::from_le_bytes(t[..16].try_into().unwrap()), t[16]))
        .collect();
    if input[0] == 1 {
        terms.sort_unstable_by_key(|t| t.0);
        terms.dedup_by(|next, last| {
            let same = next.0 == last.0;
            if same {
                last.1 = (last.1 + next.1) % 8;
            }
            same
        });
        terms.retain(|t| t.0 != 0 && t.1 % 8 != 0);
    }
    println!("{}", terms.len());
}
