// Compares the two comparisons of crates/comparisons/out/libcomparisons.a, eight bytes at a time and byte by byte, with Rust's own, and times
// them on the same texts. A call counts the pairs of texts that are the same; the texts of each side stand one behind the other.
use crate::make::Random;
use crate::{now, save};
use std::hint::black_box;

#[link(name = "comparisons", kind = "static")]
extern "C" {
    fn inthuchot_same_by_words(a: *const u8, n: usize, b: *const u8, m: usize, lengths: *const usize, many: usize) -> u64;
    fn inthuchot_same_by_bytes(a: *const u8, n: usize, b: *const u8, m: usize, lengths: *const usize, many: usize) -> u64;
}

fn by_words(a: &[u8], b: &[u8], lengths: &[usize]) -> u64 {
    unsafe { inthuchot_same_by_words(a.as_ptr(), a.len(), b.as_ptr(), b.len(), lengths.as_ptr(), lengths.len()) }
}

fn by_bytes(a: &[u8], b: &[u8], lengths: &[usize]) -> u64 {
    unsafe { inthuchot_same_by_bytes(a.as_ptr(), a.len(), b.as_ptr(), b.len(), lengths.as_ptr(), lengths.len()) }
}

#[inline(never)]
fn plain(mut a: &[u8], mut b: &[u8], lengths: &[usize]) -> u64 {
    let mut same = 0;
    for &length in lengths {
        let (x, y) = (length.min(a.len()), length.min(b.len()));
        same += (a[..x] == b[..y]) as u64;
        (a, b) = (&a[x..], &b[y..]);
    }
    same
}

fn bytes(random: &mut Random, n: usize) -> Vec<u8> {
    (0..n).map(|_| random.next() as u8).collect()
}

fn agree(a: &[u8], b: &[u8], lengths: &[usize]) -> u64 {
    let expected = plain(a, b, lengths);
    let got = [by_words(a, b, lengths), by_bytes(a, b, lengths)];
    if got != [expected; 2] {
        save(&[a, b].concat(), &format!("texts of {} and {} bytes, lengths {lengths:?}: ours {got:?}, Rust's {expected}", a.len(), b.len()));
    }
    expected
}

// Every length with each of its bytes changed, every two lengths with a common front, and many texts in one call, of which some have a
// changed byte, some a side that ends early.
pub fn test(many: usize) {
    const LONGEST: usize = 300;
    let mut random = Random(0xc0de);
    let mut changed = 0;
    for n in 0..=LONGEST {
        let a = bytes(&mut random, n);
        assert_eq!(agree(&a, &a.clone(), &[n]), 1);
        for place in 0..n {
            let mut b = a.clone();
            b[place] ^= 1 << random.below(8);
            assert_eq!(agree(&a, &b, &[n]), 0);
            changed += 1;
        }
    }
    println!("texts of 0 to {LONGEST} bytes, the same and with one byte changed at each place ({changed} pairs): no difference");
    let text = bytes(&mut random, LONGEST);
    for n in 0..=LONGEST {
        for m in 0..=LONGEST {
            assert_eq!(agree(&text[..n], &text[..m], &[usize::MAX]), (n == m) as u64);
        }
    }
    println!("each two lengths of 0 to {LONGEST}, with a common front: no difference");
    let (mut pairs, mut same) = (0, 0);
    for _ in 0..many {
        let lengths: Vec<usize> = (0..random.below(20)).map(|_| random.below(LONGEST + 1)).collect();
        let a = bytes(&mut random, lengths.iter().sum());
        let mut b = a.clone();
        for _ in 0..random.below(6) {
            if let Some(at) = a.len().checked_sub(1).map(|last| random.below(last + 1)) {
                b[at] ^= 1 << random.below(8);
            }
        }
        if random.chance(20) {
            b.truncate(random.below(b.len() + 1));
        }
        same += agree(&a, &b, &lengths);
        pairs += lengths.len();
    }
    println!("{pairs} pairs in {many} calls, {same} of them the same: no difference");
}

const RUNS: usize = 400;
const BYTES: usize = 1 << 18;

// The same lengths in another order, so that no run is foretold by the one before.
fn shuffle(random: &mut Random, lengths: &mut [usize]) {
    for i in 1..lengths.len() {
        lengths.swap(i, random.below(i + 1));
    }
}

// b with the texts of a, or with each last byte changed.
fn copy(a: &[u8], b: &mut [u8], lengths: &[usize], other: bool) {
    b.copy_from_slice(a);
    let mut end = 0;
    for n in lengths {
        end += n;
        b[end - 1] ^= other as u8;
    }
}

// The best time of each way, in nanoseconds for a pair.
fn best(lengths: &mut [usize], other: bool) -> [f64; 3] {
    let ways: [fn(&[u8], &[u8], &[usize]) -> u64; 3] = [by_words, by_bytes, plain];
    let mut random = Random(77);
    let a = bytes(&mut random, lengths.iter().sum());
    let mut b = a.clone();
    let same = if other { 0 } else { lengths.len() as u64 };
    let mut times = [f64::MAX; 3];
    for _ in 0..RUNS {
        shuffle(&mut random, lengths);
        copy(&a, &mut b, lengths, other);
        for (way, time) in ways.iter().zip(&mut times) {
            let start = now();
            let reply = black_box(way(&a, &b, lengths));
            *time = time.min((now() - start) / lengths.len() as f64);
            assert_eq!(reply, same, "the replies differ");
        }
    }
    times
}

pub fn time() {
    println!(
        "\n{:<34} {:>6} {:>9} {:>9} {:>9} {:>7} {:>10} {:>10}",
        "comparing texts", "bytes", "words ns", "bytes ns", "Rust ns", "ratio", "words B/ns", "bytes B/ns"
    );
    let kinds = [
        ("the same, 256 bytes", 256..257, false),
        ("another last byte, 256 bytes", 256..257, true),
        ("the same, 3 to 32 bytes", 3..33, false),
        ("another last byte, 3 to 32 bytes", 3..33, true),
        ("the same, 3 to 7 bytes", 3..8, false),
        ("the same, 8 to 32 bytes", 8..33, false),
    ];
    for (name, long, other) in kinds {
        // each length as often as the others
        let round: usize = long.clone().sum();
        let mut lengths: Vec<usize> = (0..BYTES / round).flat_map(|_| long.clone()).collect();
        let mean = round as f64 / long.len() as f64;
        let [words, each, rust] = best(&mut lengths, other);
        println!(
            "{name:<34} {mean:>6.1} {words:>9.2} {each:>9.2} {rust:>9.2} {:>7.2} {:>10.2} {:>10.2}",
            words / each,
            mean / words,
            mean / each
        );
    }
}
