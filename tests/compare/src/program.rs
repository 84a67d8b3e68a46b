//! The programs `closing_sheet` and `reason_sheet`, a process for each sheet: a sample of good and damaged ones, and the inputs at the edge.

use crate::sheets::text;
use crate::Tally;
use dewgneiss::LONGEST_CLOSING;
use model::cases;
use model::generate::{self, Damage, Shape, DAMAGES, SHAPES};
use model::random::Random;
use model::{reasons, sheet, Sheet};
use std::io::Write;
use std::path::PathBuf;
use std::process::{Command, Stdio};

/// Where `bindings/program` leaves a program.
pub fn path(name: &str) -> PathBuf {
    PathBuf::from(env!("CARGO_MANIFEST_DIR")).join("../../target/bin").join(name)
}

/// What the program writes after reading the input.
pub fn run(name: &str, input: &[u8]) -> std::io::Result<Vec<u8>> {
    let mut child = Command::new(path(name)).stdin(Stdio::piped()).stdout(Stdio::piped()).spawn()?;
    let mut stdin = child.stdin.take().expect("it is piped");
    std::thread::scope(|scope| {
        // A program may stop reading before the end, so a failing write is none of the test's business.
        scope.spawn(move || stdin.write_all(input).ok());
        child.wait_with_output().map(|done| done.stdout)
    })
}

/// The programs, and what each is to write: its sheet, or the number in two digits.
const PROGRAMS: [(&str, fn(&[u8]) -> Vec<u8>); 2] = [("closing_sheet", closing), ("reason_sheet", reasons::answer)];

fn closing(bytes: &[u8]) -> Vec<u8> {
    sheet::close(bytes, LONGEST_CLOSING).unwrap_or_else(|number| format!("{number:02}\n").into_bytes())
}

fn compare(what: &str, bytes: &[u8], tally: &mut Tally) {
    for (name, answer) in PROGRAMS {
        let expected = answer(bytes);
        let written = run(name, bytes);
        let same = written.as_ref().is_ok_and(|w| *w == expected);
        tally.expect(same, || format!("{name}, {what}: {:?}\nexpected {:?}, written {written:?}", text(bytes), text(&expected)));
    }
}

/// The inputs at the edge of what a sheet can be.
fn edges(tally: &mut Tally) {
    let full = sheet::write(&Sheet::of(vec![0; 32], 64, vec![1; 32 * 64]));
    for (what, bytes) in [
        ("nothing", Vec::new()),
        ("the longest sheet", full.clone()),
        ("the most rounds", sheet::write(&cases::most_rounds().sheet)),
        ("one byte past the longest sheet", [&full[..], b"\n"].concat()),
        ("the longest sheet less a byte", full[..full.len() - 1].to_vec()),
        ("a sheet as long as a buffer", vec![b'0'; 65_536]),
        ("good counts and then too much", [&b"0101"[..], &[b'0'; 100_000]].concat()),
        ("bad counts and then too much", [&b"2101"[..], &[b'0'; 100_000]].concat()),
        ("a full sheet and then too much", [&full[..], &[b'0'; 100_000]].concat()),
        ("no digits and then too much", vec![b'x'; 100_000]),
        ("a line of floors", b"01010004\nf0003\n0005\n".to_vec()),
        ("a line of floors of 0", b"01010004\nf0000\n0005\n".to_vec()),
    ] {
        compare(what, &bytes, tally);
    }
}

/// A standard input that is empty, closed or cannot be read gives 06.
fn without_input(tally: &mut Tally) {
    for (name, _) in PROGRAMS {
        let program = path(name);
        let closed = |mut shell: Command| shell.args(["-c", "exec \"$0\" <&-"]).arg(&program).output();
        let folder = std::fs::File::open(env!("CARGO_MANIFEST_DIR")).expect("this folder");
        for (what, done) in [
            ("an empty standard input", Command::new(&program).stdin(Stdio::null()).output()),
            ("a closed standard input", closed(Command::new("sh"))),
            ("a folder as standard input", Command::new(&program).stdin(folder).output()),
        ] {
            let written = done.map(|done| done.stdout);
            tally.expect(written.as_ref().is_ok_and(|w| w == b"06\n"), || format!("{name}, {what}: {written:?}"));
        }
    }
}

pub fn sheets(count: u64, seed: u64) -> Tally {
    let mut tally = Tally::default();
    let mut r = Random::new(seed.wrapping_add(3));
    for case in cases::table() {
        compare(case.name, &sheet::write(&case.sheet), &mut tally);
    }
    edges(&mut tally);
    without_input(&mut tally);
    for k in 0..count as usize {
        if k % 2 == 0 {
            let shape = SHAPES[k / 2 % SHAPES.len()];
            compare(&format!("{shape:?}"), &sheet::write(&generate::sheet(shape, &mut r)), &mut tally);
        } else {
            let damage: Damage = DAMAGES[k / 2 % DAMAGES.len()];
            let s = generate::sheet(Shape::Small, &mut r);
            compare(&format!("{damage:?}"), &generate::damaged(&s, damage, &mut r), &mut tally);
        }
    }
    tally
}
