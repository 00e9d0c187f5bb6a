//! Explanations of refused decks: each points into the refused statement's cards, names the thing that stands there, and
//! tells its own reason.

use independent::generate::{self, Made, Rng};
use independent::reader::read;
use independent::Level;
use luvinqata::{compile_to_vec, punch, Explanation, Refusal, CARD};

/// Decks of each reason, and others.
const EACH: u64 = 40;
const OTHERS: u64 = 12_000;

/// What the explanation of a reason says: one of these, of the longest beginning that fits.
const SAYS: &[(&str, &[&str])] = &[
    ("1 ", &["one to nine digits: --digits 5"]),
    ("2 no byte", &["the deck is empty"]),
    ("2 a ", &["over after"]),
    ("2 over 512 cards", &["cards: 512 at most"]),
    ("3 ", &["is no character of a card", "lower case", "a tab"]),
    ("4 no digit", &["stands in columns 1 to 5"]),
    ("4 a number 0", &["0 is no statement number"]),
    ("4 on", &["so this card continues the one before"]),
    ("5 the tenth", &["tenth card that continues"]),
    ("5 an orphan", &["none stands before it"]),
    ("6 a blank card", &["a blank card is an empty statement"]),
    ("6 a number alone", &["has no statement: CONTINUE"]),
    ("6 blank cards", &["a blank card", "has no statement"]),
    ("7", &["statements, and 400 at most"]),
    ("10 GO TO", &["'GOTO", "after 'GOTO", "a decimal point"]),
    ("10 one exit", &["a second statement number after a comma is wanted"]),
    (
        "10 over ten exits",
        &["')' after two to ten statement numbers is wanted"],
    ),
    ("10 computed GO TO", &["'GOTO("]),
    (
        "10 IF's exits",
        &["statement number", "the end of the statement is wanted"],
    ),
    (
        "10 IF's expression",
        &[
            "parenthesis is wanted",
            "an operator",
            "** is no operator",
            "'=' is wanted",
            "is wanted",
        ],
    ),
    ("10 DO", &["'DO"]),
    (
        "10 DIMENSION",
        &["dimension", "an array's name", "the end of the statement"],
    ),
    ("10 subscript", &["a subscript like"]),
    (
        "10 operators",
        &[
            "is wanted",
            "** is no operator",
            "after an operator",
            "an operator is missing",
        ],
    ),
    (
        "10 parentheses",
        &[
            "closes no parenthesis",
            "is not closed",
            "an operator is missing",
            "is wanted",
        ],
    ),
    (
        "10 no form",
        &["no statement begins with", "is wanted", "a decimal point"],
    ),
    (
        "10 a word with a tail",
        &["stands alone", "PAUSE is no statement", "breaks off after 'CONTINU'"],
    ),
    ("11 over six", &["characters: a name has six at most"]),
    (
        "11 first letter",
        &[
            "begins with",
            "this is an assignment to",
            "DIMENSIONI has ten characters",
        ],
    ),
    ("12 ", &["digits"]),
    ("13 ", &["is no statement number: they go from 1 to 99999"]),
    ("14 ", &["the seventeenth parenthesis"]),
    ("15 rows 0", &["has a dimension 0"]),
    ("15 columns 0", &["has a dimension 0"]),
    ("15 seen", &["stands already on card"]),
    ("15 twice", &["stands already on card"]),
    ("15 ends in F", &["ends in F", "stands already on card"]),
    ("16 undeclared", &["is no array"]),
    ("16 a plain name", &["is no array"]),
    ("16 declared later", &["is used before its DIMENSION"]),
    ("16 one", &["has one subscript here, not two"]),
    ("16 two", &["has two subscripts here, not one"]),
    ("16 a bare", &["is an array"]),
    ("16 bare", &["is an array"]),
    ("18 names", &["101 names"]),
    ("18 DOs", &["65 DOs"]),
    ("18 constants", &["different constants"]),
    ("18 elements", &["257 elements"]),
    ("18 exits", &["exits: 1024 at most"]),
    ("18 code", &["instructions: 4096 at most"]),
    ("18 cells", &["cells: 4096 at most"]),
    ("20 no statement", &["only comments"]),
    ("20 END missing", &["put END after it"]),
    ("20 END not last", &["statements come after it"]),
    ("21 defined twice", &["stands on card"]),
    ("21 on DIMENSION", &["a DIMENSION has the statement number"]),
    ("21 on END", &["an END has the statement number"]),
    ("22 ", &["no statement has the number"]),
    ("23 last statement before", &["not after it"]),
    ("23 last statement itself", &["this DO is itself"]),
    ("23 last statement a GO TO", &["is a GO TO"]),
    ("23 last statement a computed", &["is a GO TO"]),
    ("23 last statement an IF", &["is an IF"]),
    ("23 last statement a DO", &["is a DO"]),
    ("23 last statement STOP", &["is STOP"]),
    ("23 ranges cross", &["in whose range it begins"]),
    ("23 nine deep", &["eight DOs around it"]),
    ("24 ", &["stands in the range of the DO of card"]),
    ("25 ", &["is the variable of the DO of card"]),
];

fn refused(made: &Made) -> Option<Refusal> {
    compile_to_vec(made.k, &made.deck).err()
}

/// What stands in the columns that are pointed at, without blanks and with `$` as `*`.
fn punched(explanation: &Explanation, deck: &[u8]) -> String {
    let part = |at: &luvinqata::Columns| deck[(at.card - 1) * CARD..][at.first - 1..at.last].to_vec();
    let letters = explanation.at.iter().flat_map(part).filter(|c| *c != b' ');
    letters.map(|c| if c == b'$' { '*' } else { char::from(c) }).collect()
}

/// It has words of its own; its columns are in the cards of the refused statement or card, the other place in the deck;
/// and the thing that it names stands there.
fn holds(refusal: &Refusal, deck: &[u8], context: &str) -> Explanation {
    let explanation = refusal.explain(deck);
    let context = format!("{context}: {explanation}");
    assert_ne!(explanation.words, refusal.words(), "{context}");
    assert!(!explanation.advice.is_empty(), "{context}");
    assert_eq!(explanation.at.is_empty(), refusal.place == 0, "{context}");
    let cards: Vec<usize> = refusal.cards(deck).iter().map(|card| card.number).collect();
    for at in &explanation.at {
        assert!(cards.contains(&at.card), "{context}");
        assert!(1 <= at.first && at.first <= at.last && at.last <= 72, "{context}");
        assert_eq!(at.carets().len(), at.last, "{context}");
    }
    for also in &explanation.also {
        assert!((1..=deck.len() / CARD).contains(&also.card), "{context}");
        assert!(!explanation.at.contains(also), "{context}");
    }
    let thing = punched(&explanation, deck);
    let named = match refusal.number() {
        11 | 12 | 13 | 16 | 25 => explanation.words.contains(&thing),
        21 | 22 | 24 => explanation.words.contains(thing.trim_start_matches('0')),
        _ => true,
    };
    assert!(named, "{context}: {thing}");
    explanation
}

/// With the digits that are advised, no constant of this statement is too long.
fn advice_helps(refusal: &Refusal, explanation: &Explanation, deck: &[u8]) {
    if let Some(digits) = explanation
        .advice
        .strip_prefix("--digits ")
        .and_then(|k| k.parse().ok())
    {
        let again = compile_to_vec(digits, deck).err();
        assert!(again.is_none_or(|again| again.rule != refusal.rule || again.place > refusal.place));
    }
}

/// What is about no card has words, and no columns.
#[test]
fn no_card() {
    let deck = punch(b"      I=1\n      END").expect("short lines");
    let short = luvinqata::compile(5, &deck, &mut [0; 99]).expect_err("no room");
    assert_eq!(
        holds(&short, &deck, "30").to_string(),
        "the object is longer than the room lent for it: 68056 bytes are enough for every deck"
    );
    let object = luvinqata::check(b"").expect_err("no object").explain(&deck);
    assert!(object.at.is_empty() && object.words.starts_with("the object's"));
}

#[test]
fn every_reason_is_told() {
    for reason in 0..generate::deck_reasons() {
        for seed in 0..EACH {
            let faulty = generate::faulty_deck(&mut Rng::new(seed * 1_000 + reason as u64), reason);
            let refusal = refused(&faulty.made).expect("a deck with a fault");
            assert_eq!((refusal.number(), refusal.place), (faulty.number(), faulty.place));
            let explanation = holds(&refusal, &faulty.made.deck, &faulty.reason);
            advice_helps(&refusal, &explanation, &faulty.made.deck);
            let told = explanation.to_string();
            let fits = SAYS.iter().filter(|(reason, _)| faulty.reason.starts_with(reason));
            let (_, says) = fits
                .max_by_key(|(reason, _)| reason.len())
                .expect("words for every reason");
            // A text of no form that breaks off where a card ends is told as a card that continues it.
            let runs_on = refusal.number() == 10 && told.contains("column 6 is not blank");
            let says = says.iter().any(|phrase| told.contains(phrase));
            assert!(says || runs_on, "{}: {told}", faulty.reason);
        }
    }
}

#[test]
fn every_refused_deck_is_explained() {
    let mut refusals = std::collections::BTreeMap::new();
    for seed in 0..OTHERS {
        let mut rng = Rng::new(seed);
        let made = match seed % 6 {
            0 => generate::limit_deck(&mut rng),
            1 => generate::slipping_deck(&mut rng),
            2 => generate::misspelt_deck(&mut rng),
            3 => {
                let Made { k, deck } = generate::ordinary_deck(&mut rng);
                let deck = generate::damaged_deck(&mut rng, &deck);
                Made { k, deck }
            }
            _ => generate::crowded_deck(&mut rng),
        };
        let Some(refusal) = refused(&made) else { continue };
        *refusals.entry(refusal.number()).or_insert(0) += 1;
        holds(&refusal, &made.deck, &format!("seed {seed}"));
        // Of any other bytes there are words too.
        let noise = (0..rng.below(2_000))
            .map(|_| *rng.pick(b"   01IJDOGIFC(),=+*-.$x\xFF"))
            .collect();
        for other in [Vec::new(), noise, generate::damaged_deck(&mut rng, &made.deck)] {
            assert!(!refusal.explain(&other).to_string().is_empty(), "seed {seed}");
        }
    }
    let numbers = [2, 3, 4, 5, 6, 7, 10, 11, 12, 13, 14, 15, 16, 18, 20, 21, 22, 23, 24, 25];
    assert!(
        numbers.iter().all(|number| refusals.contains_key(number)),
        "{refusals:?}"
    );
}

/// A point can stand nowhere: wherever it is put in a right statement, the text is read just so far.
#[test]
fn how_far_a_text_can_be_read() {
    let mut points = 0;
    for seed in 0..200 {
        let texts = generate::texts(Level::Base, &mut Rng::new(seed));
        for text in texts
            .iter()
            .filter(|text| text.len() < 60 && read(Level::Base, 9, text.as_bytes()).is_ok())
        {
            for at in 0..=text.len() {
                let card = format!("      {}.{}\n      END", &text[..at], &text[at..]);
                let deck = punch(card.as_bytes()).expect("short lines");
                let refusal = compile_to_vec(9, &deck).expect_err("a point");
                let explanation = holds(&refusal, &deck, &card);
                let columns = explanation.at[0];
                assert_eq!(
                    (refusal.number(), columns.first, columns.last),
                    (10, at + 7, at + 7),
                    "{card}"
                );
                points += 1;
            }
        }
    }
    assert!(points > 10_000, "{points} points");
}

/// The explanation of a text's deck.
fn explained(k: u32, text: &str) -> String {
    let deck = punch(text.as_bytes()).expect("short lines");
    let refusal = compile_to_vec(k, &deck).expect_err("a wrong deck");
    holds(&refusal, &deck, text).to_string()
}

#[test]
fn decks_as_people_write_them() {
    let cases = [
        (1, "      I=47\n      J=123456\n      END", "card 1, columns 9 to 10: 47 has two digits, 123456 on card 2 six: --digits 6"),
        (5, "      I=2.5\n      END", "card 1, column 10: a decimal point: floating-point decks are not compiled"),
        (5, "      I=J**3\n      END", "card 1, column 11: ** is no operator of these decks: write the product out, as I*I"),
        (
            5,
            "      I=47\n     J=I*I*I\n      END",
            "card 2, column 6: column 6 is not blank, so this card continues the one before: leave it blank where a statement begins",
        ),
        (
            5,
            "      STOP\n     END",
            "card 2, column 6: column 6 is not blank, so this card continues the one before: leave it blank where a statement begins",
        ),
        (
            5,
            "      I=4\n     J7=2\n      END",
            "card 2, column 6: column 6 is not blank, so this card continues the one before: leave it blank where a statement begins",
        ),
        (5, "      I=1\n      k=2\n      END", "card 2, column 7: 'k' is lower case: cards hold capitals only"),
        (
            5,
            "I=47\n      END",
            "card 1, column 1: 'I' stands in columns 1 to 5, which hold a statement number: a statement's text begins in column 7",
        ),
        (
            5,
            "  125 I=1\n   125 J=2\n      END",
            "card 2, column 4: column 6 holds '5', so this card continues the one before, and column 4 is not blank: \
             a statement number ends in column 5; a continuation has none",
        ),
        (
            5,
            "      READ 5, I\n      END",
            "card 1, columns 7 to 10: READ is no statement of these decks: assignment, GO TO, IF, DO, CONTINUE, STOP, END and \
             DIMENSION are",
        ),
        (
            5,
            "      DO 10 I=1\n   10 CONTINUE\n      END",
            "card 1, columns 7 to 13: without a comma this is an assignment to DO10I: a DO has a first value and a limit, as DO 10 \
             I=1,5",
        ),
        (5, "      I=(J+K\n      END", "card 1, column 13: a parenthesis is not closed: ')' is missing"),
        (
            5,
            "      I=JJ J L(\n     1 2\n     2 J)\n      END",
            "card 3, column 8: 'I=JJJL(2' can be read, 'J' after it cannot: a subscript like I, 5, I+5, I-5, 5*I, 5*I+5 or 5*I-5 is \
             wanted here",
        ),
        (
            5,
            "   10 I=1\nC A COMMENT\n    1 J=2\n   10 K=3\n      END",
            "card 4, columns 4 to 5: the statement number 10 stands on card 1 too: give one of the two another number",
        ),
    ];
    for (k, text, told) in cases {
        assert_eq!(explained(k, text), told, "{text}");
    }
}
