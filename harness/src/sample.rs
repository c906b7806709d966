//! The sample that the program `replay` compares with: calls and their answers.
use crate::differential::{script, sequence, Case};
use crate::files::file_of;
use crate::layout::least;
use crate::model::apply;
use crate::plan::Dice;
use crate::wire::*;

/// The size of a frame of the sample, and where its calls begin.
const FRAME: usize = 65_536;
const HEAD: usize = 136;

/// The words of the pool, and the rows, that the program `replay` has.
const WORDS: usize = 8_192;
const ROWS: u32 = 4_096;

/// Words are read, one is written over and written back, with calls on what that gives.
fn tamper(d: &mut Dice, case: &mut Case) {
    let mut words = vec![0u32; WORDS];
    case.calls.iter().for_each(|c| {
        apply(&mut words, c);
    });
    // of the header, of records, the first two of nodes, and the first of an index; where there is none, stands what an earlier pool of the frame has left
    let first = 64 + 8 * words[2] as usize;
    let index = if words[4] == 0 { first } else { (least(words[2] as u64, words[3] as u64, 0) as usize).min(WORDS - 6) };
    let at = d.pick(&[0, 1, 2, 3, 4, 5, 64, 65, 66, 68, 72, first, first + 1, index]);
    let write = |x: u32| Call { a: at as u32, tail: x.to_le_bytes().to_vec(), ..Call::new(WRITE_WORDS) };
    let x = d.pick(&[0, 1, words[at + 1], u32::MAX, words[at] ^ 2]);
    let net = Net { family: words[1] as u8, ..Net::default() };
    let on = |code: u8| Call { b: 6, net: net.clone(), ..Call::new(code) };
    case.calls.extend([Call { a: at as u32, ..on(READ_WORDS) }, write(x)]);
    case.calls.push(Call { net: Net { len: 8, ..net.clone() }, ..Call::new(SUPERNET) });
    case.calls.extend([HELD, CONTAINS, IS_EMPTY, EQUAL, LIST, RANGES, SAVE, LAST, PAGE].map(on));
    // refused on any words, then granted with an empty file and refused for a range that goes backward
    case.calls.extend([ADD_RANGE, ADD_FILE, REMOVE_FILE].map(Call::new));
    case.calls.push(write(words[at]));
    let empty = file_of(net.family, std::iter::empty());
    case.calls.extend([ADD_FILE, REMOVE_FILE].map(|code| Call { tail: empty.clone(), ..on(code) }));
    case.calls.extend([Call { net: Net { lo: 1, ..net.clone() }, ..Call::new(ADD_RANGE) }, Call::new(FREE)]);
}

/// One frame: 128 bytes that say how it was made, how many bytes of calls and of answers there are, the calls, the answers, zeros. As many sequences as fit, each with its words and lists at its end.
fn frame(d: &mut Dice, seed: u64) -> Result<Vec<u8>, String> {
    let (mut calls, mut answers) = (vec![], vec![]);
    loop {
        let mut case = sequence(d, 40);
        // each begins with a layout, as the pool of a frame goes on from one to the next
        if case.words > WORDS || case.calls[0].code != LAYOUT {
            continue;
        }
        case.words = WORDS;
        tamper(d, &mut case);
        let s = script(&case)?;
        let (mut c, mut a) = (vec![], vec![]);
        for (k, call) in s.calls.iter().enumerate() {
            let first = k == 0 || s.steps[k] != s.steps[k - 1];
            let last = s.steps[k] == case.calls.len() - 1 && call.code == LIST && call.b <= ROWS;
            if first || last {
                call.put(&mut c);
                s.answers[k].put(&mut a);
            }
        }
        if HEAD + calls.len() + answers.len() + c.len() + a.len() > FRAME {
            break;
        }
        calls.extend(c);
        answers.extend(a);
    }
    let words = format!("Answers of iprange 0.6.7 and of the model in harness/src; made by: harness/run sample --seed {seed}");
    let mut f = words.into_bytes();
    f.resize(127, b' ');
    f.push(b'\n');
    f.extend((calls.len() as u32).to_le_bytes());
    f.extend((answers.len() as u32).to_le_bytes());
    f.extend(calls);
    f.extend(answers);
    f.resize(FRAME, 0);
    Ok(f)
}

/// Writes the sample that the program `replay` compares with: so many frames, on standard output.
pub fn sample(frames: u64, seed: u64) -> bool {
    let mut d = Dice(seed);
    for _ in 0..frames {
        match frame(&mut d, seed) {
            Ok(f) => std::io::Write::write_all(&mut std::io::stdout(), &f).expect("standard output"),
            Err(what) => {
                eprintln!("{what}");
                return false;
            }
        }
    }
    true
}
