//! The library and the plain reference on the same packs: a short run, for every build. `diff` has the long ones.

use model::generate::{self, Style};
use model::random::Random;
use model::{Pack, Refusal};

fn told<T>(answer: Result<T, rulepack::Refusal>) -> Result<T, Refusal> {
    answer.map_err(|r| Refusal { number: r.number, place: r.place, detail: r.detail })
}

#[test]
fn random_packs() {
    let mut reports = 0;
    for seed in 0..1500 {
        let mut random = Random::new(seed);
        let style = Style::any(&mut random);
        let mut maker = generate::roots(&mut random, style);
        let values = random.below(12);
        generate::values(&mut random, &mut maker, values);
        let mut pack = maker.bytes();
        if random.one_in(4) {
            generate::damage(&mut random, &mut pack);
        }
        assert_eq!(told(rulepack::check_types(&pack)), model::check_types(&pack), "seed {seed}");
        let listed = told(rulepack::order_report(&pack));
        let wanted = model::order(&pack, usize::MAX).map(|v| v.iter().map(|v| *v as u16).collect());
        assert_eq!(listed, wanted, "seed {seed}");
        for root in 0..style.roots as u64 {
            let nodes = told(rulepack::root_report(&pack, root));
            let wanted = model::check_root(&pack, root, usize::MAX).map(|words| {
                words
                    .into_iter()
                    .map(|(id, bits)| rulepack::Node {
                        id: id as u16,
                        word: rulepack::Word::decode(bits).expect("a word"),
                    })
                    .collect()
            });
            assert_eq!(nodes, wanted, "seed {seed}, root {root}");
            reports += usize::from(nodes.is_ok());
        }
    }
    assert!(reports > 1000, "{reports} reports");
}

/// The 40-byte pack of document 01.
#[test]
fn the_worked_pack() {
    let words: [u32; 10] = [0x5250_4B01, 0, 0, 0x0003_0006, 0, 2, 0x4000_0003, 0x0001_0002, 2, 0x0001_0002];
    let pack: Vec<u8> = words.iter().flat_map(|w| w.to_be_bytes()).collect();
    assert_eq!(Pack::read(&pack).expect("a pack").counts.values, 3);
    assert_eq!(rulepack::check_types(&pack), Ok(()));
    assert_eq!(rulepack::order_report(&pack), Ok(vec![1, 2, 0]));
    assert_eq!(rulepack::root_report(&pack, 0).map_err(|r| r.number), Err(5));
}
