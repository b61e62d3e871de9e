//! The inputs are what they are said to be, by the plain version.

use super::{dense_schema, dense_schema_with_fixed, file, fixed_captions, with_last_element_wrong, with_other_root};
use super::{Mix, MIXES, SMALL_SHADE, SPOTS};
use crate::calls::Calls;
use crate::plain::{Keys, Plain, BACK, WORDS};
use crate::steps::{numbers, Step};

const PLAIN: Plain = Plain { keys: Keys::Pairs };
const SIZES: [usize; 6] = [500, 1000, 2000, 4000, 8184, 8192];

fn table(schema: &[u32]) -> Vec<u64> {
    let mut table = vec![0; WORDS];
    assert_eq!(PLAIN.translate(&file(schema), &mut table), 0);
    table
}

#[test]
fn schemas_are_taken() {
    table(&SMALL_SHADE);
    let fixed = table(&dense_schema_with_fixed());
    assert_eq!((fixed[6626], &fixed[6672..]), (16, &[15, 3, 15][..]));
    let (schema, tokens) = fixed_captions(8184);
    assert_eq!(PLAIN.check(&table(&schema), &tokens, 8184, &mut [0; 48]).number, 0);
    assert_eq!(PLAIN.check(&table(&schema), &Mix::FewIds.document(8184), 8184, &mut [0; 48]).number, 8);
    let dense = table(&dense_schema());
    assert!((0..48).all(|element| dense[2 + element * 138 + 6] == 64));
    assert!(file(&dense_schema()).len() <= 65_536);
}

#[test]
fn documents_are_valid_and_refused_where_they_should_be() {
    for mix in MIXES {
        let table = table(&mix.schema());
        for size in SIZES {
            let tokens = mix.document(size);
            let answer = |tokens: &[u32]| PLAIN.check(&table, tokens, size as u64, &mut [0; 48]);
            assert_eq!(answer(&tokens).number, 0, "{} {}", mix.name(), size);
            assert_eq!(answer(&with_other_root(&tokens)).number, 10);
            let wrong = answer(&with_last_element_wrong(&tokens));
            assert_eq!(wrong.number, 8);
            assert!(tokens[wrong.place as usize + 1..].iter().all(|token| token & 7 != 1));
        }
    }
}

#[test]
fn edits_are_done_and_taken_back() {
    for mix in MIXES {
        let table = table(&mix.schema());
        let mut buffer = mix.document(8184);
        buffer.resize(8192, 0);
        let before = buffer.clone();
        let mut noted = vec![0; BACK];
        for spot in SPOTS {
            for pair in mix.pairs(&buffer[..8184], spot) {
                let (edit, back) = (pair.edit, pair.back);
                let done = PLAIN.edit(&table, &mut buffer, 8184, edit.operation, edit.place, &edit.piece, &mut noted, &mut [4000; 48]);
                assert_eq!(done.number, 0, "{} {}", mix.name(), pair.name);
                assert_eq!(
                    (noted[0], u64::from(noted[1]), &noted[3..][..noted[2] as usize]),
                    (back.operation, back.place, &back.piece[..])
                );
                let undone =
                    PLAIN.edit(&table, &mut buffer, done.used, back.operation, back.place, &back.piece, &mut noted, &mut [4000; 48]);
                assert_eq!((undone.number, undone.used), (0, 8184), "{} {}", mix.name(), pair.back_name);
                assert_eq!(buffer, before);
            }
            for refused in mix.refused_inserts(&buffer[..8184], spot) {
                let room = if refused.is_full { 8184 } else { 8192 };
                let edit = refused.edit;
                let answer =
                    PLAIN.edit(&table, &mut buffer[..room], 8184, edit.operation, edit.place, &edit.piece, &mut noted, &mut [4000; 48]);
                assert_eq!(answer.number, refused.number, "{} {}", mix.name(), refused.after);
            }
        }
    }
}

#[test]
fn steps_are_done_and_taken_back() {
    for mix in MIXES {
        let table = table(&mix.schema());
        let tokens = mix.document(8184);
        for count in [1, 16, 256] {
            let step = Step::spread(mix, &table, &tokens, 8192, count);
            let places: Vec<u64> = step.there.iter().map(|edit| edit.place * 4 / 8184).collect();
            assert!(count == 1 || (0..4).all(|quarter| places.contains(&quarter)), "{} is spread", mix.name());
            let mut buffer = tokens.clone();
            buffer.resize(8192, 0);
            let there = PLAIN.list(&table, &mut buffer, 8184, &numbers(&step.there), &mut [4000; 48]);
            assert_eq!((there.last.number, there.done as usize), (0, count), "{}", mix.name());
            assert_eq!(buffer[..there.last.used as usize], step.tokens);
            let back = PLAIN.list(&table, &mut buffer, there.last.used, &numbers(&step.back), &mut [4000; 48]);
            assert_eq!((back.last.number, back.done as usize, back.last.used), (0, count, 8184));
            assert_eq!(buffer[..8184], tokens);
        }
    }
}
