//! What is wrong with a sheet, and where: each fault that the rule language tells.

/// A sheet with '@' put in at the place that the error names, and the error's words.
pub type Fault = (String, &'static str);

pub fn faults() -> Vec<Fault> {
    let plain = [&WORDS[..], &DECLARATIONS, &RULES, &NAMES, &SEVERAL].concat();
    let mut faults: Vec<Fault> = plain.into_iter().map(|(sheet, words)| (sheet.to_string(), words)).collect();
    faults.extend(limits());
    faults
}

const WORDS: [(&str, &str); 10] = [
    ("predicates p/0.\np @! p.", "no word begins with '!'"),
    ("@\"p\n\".", "this quotation mark is not closed on its line"),
    ("predicates @aaaaaaaaaaaaaaaaaaaaaaaaaaaaaaaaaaaaaaaaaaaaaaaaaaaaaaaaaaaaaaaaa/0.", "this word has 65 letters: at most 64"),
    ("predicates p/0.\np @- p.", "no word begins with '-'"),
    ("@_x -> p.", "no word begins with '_'"),
    ("# first\n\t@\0", "no word begins with '\\0'"),
    ("% größer\r\npredicates größer/0.\r\ngrößer @€.", "no word begins with '€'"),
    ("limit @07.", "the number 07 begins with a needless 0"),
    ("limit @4294967296.", "the number 4294967296 is too large: at most 4294967295"),
    ("constants 1..@99999999999999999999.", "the number 99999999999999999999 is too large: at most 4294967295"),
];

/// Of what stands for several rules.
const SEVERAL: [(&str, &str); 16] = [
    ("constants @b1..c3. predicates p/0.", "the range b1..c3 is none: both names end in a number, and are the same before it"),
    ("constants @b3..b1. predicates p/0.", "the range b3..b1 goes down"),
    ("constants 1..3. predicates p/1. p(@1..4).", "no constant '4' is declared"),
    ("constants a. predicates p/1. p(a; @b).", "no constant 'b' is declared"),
    ("constants a. predicates p/1. p(X) -> p(X) & p(a) @| p(a).", "expected '&' or '.', but '|' follows"),
    ("constants a. predicates p/1. p(X) -> p(X) | p(a) @& p(a).", "expected '|' or '.', but '&' follows"),
    ("constants a. predicates p/1. p(X) & X != a@.", "expected '&' or '->', but '.' follows"),
    ("constants a. predicates p/1. p(X) & X != @b -> false.", "no constant 'b' is declared"),
    ("constants a. predicates p/1. p(X) & X != @Y -> false.", "the variable 'Y' stands in no condition of this rule"),
    ("constants a. predicates p/1. p(_) & @_ != a -> false.", "the variable '_' stands in no condition of this rule"),
    ("constants a. predicates p/1. p(X) -> p(@_).", "the variable '_' stands in no condition of this rule"),
    ("constants a. predicates p/1. at most 1 @p(a).", "expected 'of', but 'p' follows"),
    ("constants 1..9. predicates p/1. @at least 1 of p(1..9).", "at least 1 of 9 needs rules with 9 alternatives: a rule has at most 4"),
    ("constants 1..9. predicates p/1. @at most 4 of p(1..9).", "at most 4 of 9 needs rules with 5 conditions: a rule has at most 4"),
    ("constants 1..32. predicates p/2. @p(1..32, 1..32).", "this is one rule too many: at most 64"),
    ("predicates p/0. include @\"other\".", "'other' cannot be included here"),
];

const DECLARATIONS: [(&str, &str); 26] = [
    ("@.", "expected a rule or a declaration, but '.' follows"),
    ("limit 1.\n\n   @| p.", "expected a rule or a declaration, but '|' follows"),
    ("limit @x.", "expected a number, but 'x' follows"),
    ("limit@", "expected a number, but the sheet ends"),
    ("limit 5@\n\npredicates p/0.", "expected '.', but 'predicates' follows on line 3"),
    ("limit 5@ # no full stop\n", "expected '.', but the sheet ends"),
    ("limit 5. predicates p/0.\n@limit 5.", "the limit is given already"),
    ("constants @.", "expected a constant, but '.' follows"),
    ("constants a,@\n", "expected a constant, but the sheet ends"),
    ("constants a @b.", "expected ',' or '.', but 'b' follows"),
    ("constants @a..b.", "the range a..b is none: both names end in a number, and are the same before it"),
    ("constants 1..@b.", "expected a number, but 'b' follows"),
    ("constants a, @B.", "'B' has a variable's capital letter; a constant begins with a small one"),
    ("constants @false.", "'false' is a word of the language, not a constant"),
    ("constants a,\n  b, @a.", "the constant 'a' is declared already, on line 1"),
    ("constants 1..3,\n  @3.", "the constant '3' is declared already, on line 1"),
    ("constants a, @2..1.", "the range 2..1 goes down"),
    ("predicates @12/1.", "expected a predicate, but '12' follows"),
    ("predicates p@.", "expected '/' and the number of arguments, but '.' follows"),
    ("predicates p/@X.", "expected the number of arguments, but 'X' follows"),
    ("predicates p/1 @q/1.", "expected ',' or '.', but 'q' follows"),
    ("predicates @P/1.", "'P' has a variable's capital letter; a predicate begins with a small one"),
    ("predicates @limit/1.", "'limit' is a word of the language, not a predicate"),
    ("predicates p/1.\npredicates @p/2.", "the predicate 'p' is declared already, on line 1"),
    ("predicates p/3, q/@4.", "a predicate has at most 3 arguments"),
    ("limit 7.\nconstants a.\n@", "no predicate is declared"),
];

const RULES: [(&str, &str); 19] = [
    ("predicates p/0.\np & @12x24 -> p.", "expected a predicate, but '12x24' follows"),
    ("predicates p/0.\n\n@12 -> p.", "expected a predicate, but '12' follows"),
    ("predicates p/0.\np @p.", "expected '&', '->', '|' or '.', but 'p' follows"),
    ("predicates p/0.\np@\np.", "expected '&', '->', '|' or '.', but 'p' follows on line 3"),
    ("predicates p/0.\np & p@.", "expected '&' or '->', but '.' follows"),
    ("predicates p/0.\np & p @| p.", "expected '&' or '->', but '|' follows"),
    ("predicates p/0.\np -> p | p @& p.", "expected '|' or '.', but '&' follows"),
    ("predicates p/0.\np | p @-> p.", "expected '|' or '.', but '->' follows"),
    ("predicates p/0.\np -> false @| p.", "expected '.', but '|' follows"),
    ("predicates p/0.\nfalse @& p -> p.", "expected '.', but '&' follows"),
    ("predicates p/0.\np -> p | @false.", "'false' stands alone, with no other alternative and as no condition"),
    ("predicates p/0.\np & @false -> p.", "'false' stands alone, with no other alternative and as no condition"),
    ("predicates p/0.\np | @.", "expected a predicate, but '.' follows"),
    ("predicates p/0.\np & @12 -> p.", "expected a predicate, but '12' follows"),
    ("predicates p/0.\n-> @-> p.", "expected a predicate, but '->' follows"),
    ("predicates p/0.\n@P -> p.", "'P' has a variable's capital letter; a predicate begins with a small one"),
    ("predicates p/0.\np & @constants -> p.", "'constants' is a word of the language, not a predicate"),
    ("predicates p/1.\np(@).", "expected a constant or a variable, but ')' follows"),
    ("predicates p/1.\np(X @X) -> false.", "expected ',' or ')', but 'X' follows"),
];

const NAMES: [(&str, &str); 10] = [
    ("predicates p/0.\np -> p | @q.", "no predicate 'q' is declared"),
    ("constants a. predicates p/2.\np(a, @b).", "no constant 'b' is declared"),
    ("constants a. predicates p/2.\np(a, @7).", "no constant '7' is declared"),
    ("constants a. predicates p/2.\n@p -> false.", "'p' has no arguments here, but is declared as p/2"),
    ("constants a. predicates p/2.\np(a, a) & @p(b) -> false.", "'p' has 1 argument here, but is declared as p/2"),
    ("constants a. predicates p/0.\n@p(a, a, a, a).", "'p' has 4 arguments here, but is declared as p/0"),
    ("predicates p/1.\np(X) -> p(X) | p(@Y).", "the variable 'Y' stands in no condition of this rule"),
    ("predicates p/1.\np(@X).", "the variable 'X' stands in no condition of this rule"),
    ("predicates p/3.\np(A, B, C) & p(D, A, @E) -> false.", "'E' is one variable too many: a rule has at most 4"),
    ("predicates p/3.\np(A, B, C) & p(D, A, D) -> p(A, @E, A).", "the variable 'E' stands in no condition of this rule"),
];

/// One past each limit of document 01 that takes many words to reach.
fn limits() -> Vec<Fault> {
    let names = |many: usize| (0..many).map(|i| format!("n{i}")).collect::<Vec<_>>().join(", ");
    let predicates = |many: usize| (0..many).map(|i| format!("n{i}/0")).collect::<Vec<_>>().join(", ");
    let four = "q(X, Y) & q(X, Y) & q(Y, X) & q(X, X)";
    vec![
        (format!("constants {}.\nconstants @last.", names(32)), "'last' is one constant too many: at most 32"),
        ("constants a, @0..4294967295.".to_string(), "'31' is one constant too many: at most 32"),
        (format!("predicates {}, @last/0.", predicates(32)), "'last' is one predicate too many: at most 32"),
        (
            "constants 1..32. predicates p/2,\n @q/0.".to_string(),
            "with this predicate there are 1025 ground atoms, constants^arguments for each predicate; at most 1024",
        ),
        ("predicates r/0.\nr & r & r & r & @r -> r.".to_string(), "this is one condition too many: a rule has at most 4"),
        ("predicates r/0.\nr | r | r | r | @r.".to_string(), "this is one alternative too many: a rule has at most 4"),
        (format!("predicates r/0.\n{}\n   @r -> r.", "r. ".repeat(64)), "this is one rule too many: at most 64"),
        (
            format!("constants 1..32. predicates q/2.\n{}\n @q(1, X) -> false.", format!("{four} -> false.\n").repeat(4)),
            "this rule counts 1 * 32^1 = 32, conditions * constants^variables; with it the sum over the rules is 16416, at most 16384",
        ),
    ]
}
