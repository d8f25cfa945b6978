//! The cases of the program `worked`, as text, asked of the reference. crates/worked/src/main.rt has the words.

fn hex(digits: &str) -> Option<Vec<u8>> {
    if digits.is_empty() || digits.len() % 2 == 1 || !digits.bytes().all(|b| b"0123456789ABCDEF".contains(&b)) {
        return None;
    }
    Some((0..digits.len() / 2).map(|i| u8::from_str_radix(&digits[2 * i..2 * i + 2], 16).expect("digits")).collect())
}

/// The bytes of a word: `HEX`, `N*HEX` or `N*HEX+STEP`.
fn bytes(word: &str) -> Option<Vec<u8>> {
    let Some((times, what)) = word.split_once('*') else {
        return hex(word);
    };
    let times: usize = times.parse().ok()?;
    let Some((row, step)) = what.split_once('+') else {
        return Some(hex(what)?.repeat(times));
    };
    let (mut row, step) = (hex(row)?, hex(step)?);
    let mut all = Vec::new();
    for _ in 0..times {
        all.extend(&row);
        let mut carry = 0;
        for i in (0..row.len()).rev() {
            let sum = u16::from(row[i]) + u16::from(step[i]) + carry;
            row[i] = sum as u8;
            carry = sum >> 8;
        }
    }
    Some(all)
}

/// What `worked` has in its area before, and how long that is.
const FILL: u8 = 165;
const AREA: usize = 16400;

/// The answer as numbers, and the area after it.
fn asked(word: &str, pack: &[u8], root: u64, room: usize) -> ((u64, u64, u64), Vec<u8>) {
    let mut area = vec![FILL; AREA];
    let mut put = |at: usize, bytes: &[u8]| area[at..at + bytes.len()].copy_from_slice(bytes);
    let answer = match word {
        "formed" => model::Pack::read(pack).and_then(|p| model::formed::formed(&p)),
        "types" => model::check_types(pack),
        "order" => model::order(pack, room)
            .map(|values| (0..).zip(values).for_each(|(i, v)| put(2 * i, &(v as u16).to_be_bytes()))),
        _ => model::check_root(pack, root, room)
            .map(|words| words.into_iter().for_each(|(id, w)| put(4 * id, &w.to_be_bytes()))),
    };
    (answer.err().map_or((0, 0, 0), |r| (u64::from(r.number), u64::from(r.place), r.detail)), area)
}

#[test]
fn the_cases_of_worked() {
    let path = concat!(env!("CARGO_MANIFEST_DIR"), "/../../crates/worked/stdin");
    let text = std::fs::read_to_string(path).expect("the cases of worked");
    let mut words = text.lines().enumerate().flat_map(|(n, line)| {
        line.split('#').next().expect("a line").split_whitespace().map(move |word| (n + 1, word))
    });
    let (mut pack, mut area, mut in_area, mut room, mut cases) = (Vec::new(), Vec::new(), false, AREA, 0);
    while let Some((line, word)) = words.next() {
        let mut number = || words.next().expect("a number").1.parse::<u64>().expect("a number");
        match word {
            "group" => drop(words.next()),
            "case" => (pack, area, in_area, room) = (Vec::new(), Vec::new(), false, AREA),
            "area" => in_area = true,
            "room" => room = number() as usize,
            "formed" | "types" | "order" | "root" => {
                let root = if word == "root" { number() } else { 0 };
                let wanted = (number(), number(), number());
                let (came, after) = asked(word, &pack, root, room);
                assert_eq!(came, wanted, "line {line}");
                if matches!(word, "order" | "root") {
                    let mut wanted: Vec<u8> = area.clone();
                    wanted.resize(AREA, FILL);
                    assert_eq!(after, wanted, "line {line}: the area");
                }
                cases += 1;
            }
            _ => {
                let more = bytes(word).unwrap_or_else(|| panic!("line {line}: {word}"));
                if in_area { area.extend(more) } else { pack.extend(more) }
            }
        }
    }
    assert!(cases >= 525, "{cases} cases");
}
