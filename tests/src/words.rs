//! The words of the program sheet: those of Figure 1 but `freelock`, and those of document 02.

/// Makes the type of words and the list of them from one table.
macro_rules! words {
    ($count:literal: $($word:ident $spelling:literal,)*) => {
        #[derive(Clone, Copy, Debug, PartialEq, Eq, Hash, PartialOrd, Ord)]
        pub enum Word {
            $($word,)*
        }

        /// Every word, in the order of document 01's table of conditions, then of document 02. The last two are
        /// words of `P2` sheets alone, and `proc` is the word of a line that is no step.
        pub const WORDS: [Word; $count] = [$(Word::$word,)*];

        impl Word {
            /// The word with this spelling, if there is one.
            pub fn spelled(spelling: &[u8]) -> Option<Word> {
                match spelling {
                    $($spelling => Some(Word::$word),)*
                    _ => None,
                }
            }

            pub const fn spelling(self) -> &'static str {
                match self {
                    $(Word::$word => const { text($spelling) },)*
                }
            }
        }
    };
}

words! { 24:
    Var b"var",
    Int b"int",
    Let b"let",
    If b"if",
    While b"while",
    Newtid b"newtid",
    Spawn b"spawn",
    Join b"join",
    Ref b"ref",
    Read b"read",
    Write b"write",
    Newlock b"newlock",
    Lock b"lock",
    Unlock b"unlock",
    Newsem b"newsem",
    Post b"post",
    Wait b"wait",
    Newrwlock b"newrwlock",
    Rdlock b"rdlock",
    Rdunlock b"rdunlock",
    Wrlock b"wrlock",
    Wrunlock b"wrunlock",
    Call b"call",
    Proc b"proc",
}

use Word::*;

const fn text(spelling: &'static [u8]) -> &'static str {
    match std::str::from_utf8(spelling) {
        Ok(text) => text,
        Err(_) => panic!("a word is spelled in letters"),
    }
}

impl Word {
    /// How many parts a step with this word has.
    pub fn parts(self) -> usize {
        match self {
            Var | Int | Newtid | Newlock | Newsem | Newrwlock => 0,
            While | Join | Ref | Read | Lock | Unlock | Post | Wait | Rdlock | Rdunlock | Wrlock | Wrunlock => 1,
            Call | Proc => 1,
            Let | If | Spawn | Write => 2,
        }
    }

    /// How many of this word's conditions are on types. They come first.
    pub fn type_conditions(self) -> u32 {
        match self {
            Var | Int | Let | While | Newtid | Ref | Newlock | Newsem | Newrwlock | Proc => 1,
            If | Spawn | Join | Read | Lock | Unlock | Post | Wait | Rdlock | Rdunlock | Wrlock | Wrunlock => 2,
            Call => 2,
            Write => 3,
        }
    }

    /// How many conditions the documents list for this word.
    pub fn conditions(self) -> u32 {
        match self {
            Var | Int | Let | Newtid | Ref | Newlock | Newsem | Proc => 2,
            While | Join | Lock | Unlock | Post | Wait => 3,
            Newrwlock | Rdlock | Rdunlock | Wrlock | Wrunlock => 3,
            If | Spawn | Read | Call => 4,
            Write => 5,
        }
    }
}
