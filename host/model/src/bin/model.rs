//! The reference's answers for a pack on standard input: `model types`, `model root N`, `model order`.
//!
//! A refusal is printed as `NUMBER PLACE DETAIL`. A report is `0 0 0`, and after it a line `NODE WORD` for each node of
//! the root (the word in hexadecimal), or the values in their order. `model all` prints what the program prints.

use std::io::Read;

fn show<T>(answer: model::Answer<T>, report: impl Fn(T)) {
    match answer {
        Ok(t) => {
            println!("0 0 0");
            report(t);
        }
        Err(r) => println!("{} {} {}", r.number, r.place, r.detail),
    }
}

fn refused(r: model::Refusal) {
    println!("refused {} {} {}", r.number, r.place, r.detail);
}

fn all(pack: &[u8]) -> model::Answer<()> {
    model::check_types(pack)?;
    println!("types ok");
    let roots = model::Pack::read(pack)?.counts.roots;
    for root in 0..roots {
        model::check_root(pack, root as u64, usize::MAX)?;
    }
    println!("roots {roots}");
    let order = model::order(pack, usize::MAX)?;
    println!("{}", order.iter().fold(String::from("order"), |s, v| format!("{s} {v}")));
    Ok(())
}

fn main() {
    let mut pack = Vec::new();
    std::io::stdin().read_to_end(&mut pack).expect("standard input");
    let words: Vec<String> = std::env::args().skip(1).collect();
    match words.iter().map(String::as_str).collect::<Vec<_>>()[..] {
        ["types"] => show(model::check_types(&pack), |()| {}),
        ["root", n] => {
            let n = n.parse().expect("a root number");
            show(model::check_root(&pack, n, usize::MAX), |words| {
                for (node, word) in words {
                    println!("{node} {word:08X}");
                }
            });
        }
        ["order"] => show(model::order(&pack, usize::MAX), |values| {
            println!("{}", values.iter().map(usize::to_string).collect::<Vec<_>>().join(" "));
        }),
        ["all"] => {
            if let Err(r) = all(&pack) {
                refused(r);
            }
        }
        _ => {
            eprintln!("model types | root N | order | all, a pack on standard input");
            std::process::exit(2);
        }
    }
}
