//! The deepest packs, each entry in a thread that has no more stack than `STACK` says. A call that needs more ends the
//! process; an answer that differs from the reference's fails.

use model::Refusal;
use rulepack::STACK;
use std::io::Write;
use std::process::{Command, Stdio};
use std::sync::Arc;
use std::thread;

/// Room for the reference, which is not frugal.
const AMPLE: usize = 1 << 28;

fn in_a_thread<T: Send + 'static>(stack: usize, run: impl FnOnce() -> T + Send + 'static) -> T {
    thread::Builder::new().stack_size(stack).spawn(run).expect("a thread").join().expect("an answer")
}

fn told<T>(answer: Result<T, rulepack::Refusal>) -> Result<(), Refusal> {
    answer.map(|_| ()).map_err(|r| Refusal { number: r.number, place: r.place, detail: r.detail })
}

/// Asks the three entries, each in a thread of that stack, and the reference.
fn asked(name: &'static str, pack: Vec<u8>) {
    let pack = Arc::new(pack);
    let mut area = vec![0; 4 * 4096];
    let ask: [(&str, fn(&[u8], &mut [u8]) -> Result<(), Refusal>, fn(&[u8]) -> Result<(), Refusal>); 3] = [
        ("types", |pack, _| told(rulepack::check_types(pack)), model::check_types),
        (
            "root",
            |pack, area| told(rulepack::check_root(pack, 0, area)),
            |pack| model::check_root(pack, 0, usize::MAX).map(|_| ()),
        ),
        ("order", |pack, area| told(rulepack::order(pack, area)), |pack| model::order(pack, usize::MAX).map(|_| ())),
    ];
    for (entry, ours, reference) in ask {
        let (of, mut lent) = (pack.clone(), std::mem::take(&mut area));
        let (came, back) = in_a_thread(STACK, move || (ours(&of, &mut lent), lent));
        area = back;
        let of = pack.clone();
        let wanted = in_a_thread(AMPLE, move || reference(&of));
        assert_eq!(came, wanted, "{entry} of {name}");
    }
}

#[test]
fn the_deepest_packs() {
    for (name, pack) in model::deepest::packs() {
        asked(name, pack);
    }
}

/// A pack of less than 2,000 bytes, for which a root once took 2.3 MiB.
#[test]
fn records_nested_61_deep() {
    asked("61 records nested", model::deepest::nested_records(61).bytes());
}

/// The program, which reads a pack into its own stack, in a process that has 1 MiB. `bin/check-pack` makes it.
#[test]
fn the_program() {
    let program = concat!(env!("CARGO_MANIFEST_DIR"), "/../crates/check_pack/out/check_pack");
    assert!(std::path::Path::new(program).exists(), "{program} is not there: `bin/check-pack` makes it");
    for (name, pack) in model::deepest::packs() {
        let wanted = match model::check_types(&pack) {
            Ok(()) => "types ok".to_string(),
            Err(r) => format!("refused {} {} {}", r.number, r.place, r.detail),
        };
        let mut child = Command::new("sh")
            .args(["-c", &format!("ulimit -s 1024 && exec {program}")])
            .stdin(Stdio::piped())
            .stdout(Stdio::piped())
            .spawn()
            .expect("a shell");
        child.stdin.take().expect("its input").write_all(&pack).expect("a pack that is read");
        let came = child.wait_with_output().expect("an answer");
        assert!(came.status.success(), "{name}: {}", came.status);
        assert_eq!(String::from_utf8_lossy(&came.stdout).lines().next(), Some(wanted.as_str()), "{name}");
    }
}
