"""Changes of a source, and whether its statements change with them; checks/statements.sh says what it prints."""

import sys

from statements import File, statements_of

LIB = r'''//! A crate.
#![tactic(auto)]

ghost use Rattle.std.specs.Prelude.{◌≡◌, ◌<◌, ◌≤◌, ◌⊎◌, min, length, IfOk};
ghost use Rattle.low.specs.Words.{word, spare as rest};

mod inner;
pub mod shown;
mod tests;

pub use inner::{Pair, Way};
use crate::inner::{Hidden, helper};
use low::{Text, Unnamed};
use std::fmt::Display as Shown;

/// A number.
pub const LIMIT: usize = 4096;
const KEPT: [u8; 2] = [b'{', b'\''];

/// A record.
#[derive(Clone, Copy)]
pub struct Mark {
    pub at: usize,
    room: u8,
    ghost held: { at ≤ 9 } by { held-prop },
}

pub enum Kind {
    One(u32),
    Other,
}

macro_rules! twice {
    ($x:expr) => { $x + $x };
}

/// What holds things.
pub trait Holder {
    ghost held: { Self → List ℕ };
    ghost much: { Self → ℕ } = { λ _. 0 };

    fn put<'a>(&'a mut self, text: &'a Text) -> Result<usize, Mark>
        ensures taken { IfOk result (λ n. n ≤ length "a } in -- a text") };

    fn is_full(&self) -> bool {
        let first = false;
        first
    }
}

impl Holder for Mark {
    ghost use Rattle.low.specs.Words.{here};

    ghost held = { λ m. here };

    fn put<'a>(&'a mut self, text: &'a Text) -> Result<usize, Mark> {
        let brace = '}';
        let quote = '"';
        let raw = r#"a " } text"#;
        /* } and /* } */ */
        // }
        let step = |n: usize| requires { n < 9 } { n + 1 };
        Ok(step(text.len()))
    }
}

impl Mark {
    #[tactic(auto, using(crate::proofs::Mark::at))]
    pub fn seen<T: Shown>(&self, «record»: T) -> usize
        requires { word self.now < 5 {- a } remark -} }
        ensures* owned { ⌜ result ≡ 1 ⌝ } // of it
        ensures value { result ≡ min 1 2 }
    {
        let local = 1;
        helper(local)
    }

    pub(crate) fn near(&self) -> usize
        ensures { result ≡ rest }
    {
        7
    }

    pub fn under(&self, hidden: &Hidden) {}

    fn own(&self) -> Unnamed {
        Unnamed { a: 8 }
    }
}

fn alone<F: for<'a> Fn(&'a u8)>(f: F)
    requires { 0 ⊎ 1 }
{
    ghost { by { nothing } }
    f(&3);
}

#[cfg(test)]
mod tried {
    pub fn once() {}
}
'''

INNER = '''use std::cell::Hidden;
use low::Text;

pub struct Pair(pub Text, Spare);

pub enum Way {
    In,
}

type Spare = u8;

pub fn helper(n: usize) -> usize {
    n + 20
}
'''

# What is changed, the text before and behind, each of which stands once in its file, and whether the statements change.
CHANGES = (
    ('a body', 'let local = 1;', 'let local = 1 + 0;', False),
    ('a body behind braces in texts', 'let step = |n: usize|', 'let walk = |n: usize|', False),
    ('a clause in a body', 'requires { n < 9 }', 'requires { n < 8 }', False),
    ('a ghost block in a body', 'ghost { by { nothing } }', 'ghost { by { all } }', False),
    ('the body of a default', 'let first = false;', 'let first = 1 < 0;', False),
    ('a body in another file', 'n + 20', '20 + n', False),
    ('a comment', '/// A number.', '/// A bound.', False),
    ('a comment behind a clause', '// of it', '// of { it', False),
    ('a remark in a clause', '{- a } remark -}', '{- a -}', False),
    ('a remark more in a clause', '{ result ≡ min 1 2 }', '{ result ≡ {- so {- } -} -} min 1 2 }', False),
    ('a line of remarks in a clause', '{ result ≡ min 1 2 }', '{ result ≡ -- so }\n            min 1 2 }', False),
    ('a comment in a signature', 'fn put<\'a>(&\'a mut self, text: &\'a Text) -> Result<usize, Mark>\n',
     'fn put<\'a>(&\'a mut self, /* the */ text: &\'a Text) -> Result<usize, Mark>\n', False),
    ('the layout of a clause', '{ result ≡ min 1 2 }', '{\n            result ≡\n                min 1 2\n        }', False),
    ('the layout of a type', 'pub at: usize,\n    room: u8,', 'pub at: usize, room: u8,', False),
    ('a hint on a function', 'using(crate::proofs::Mark::at)', 'using(crate::proofs::Mark::none)', False),
    ('a hint on the crate', '#![tactic(auto)]', '#![tactic(none)]', False),
    ('the clause of a function of the crate', 'ensures { result ≡ rest }', 'ensures { result ≡ 7 }', False),
    ('the signature of a private function', 'fn own(&self) -> Unnamed {', 'fn own(&self, _n: u8) -> Unnamed {', False),
    ('the clause of a private function', 'requires { 0 ⊎ 1 }', 'requires { 1 ⊎ 0 }', False),
    ('a private function more', 'fn own(', 'fn more() {}\n\n    fn own(', False),
    ('an import that a body names', 'inner::{Hidden, helper};', 'inner::Hidden;\nuse crate::shown::helper;', False),
    ('an import of a private signature', 'use low::{Text, Unnamed};', 'use low::Text;\nuse high::Unnamed;', False),
    ('an import for a private clause', 'spare as rest', 'other as rest', False),
    ('an operator of a private clause', '◌⊎◌, ', '', False),
    ('the order of imports', 'Words.{word, spare as rest}', 'Words.{spare as rest, word}', False),
    ('a module of the crate', 'mod tests;', 'mod tests;\nmod others;', False),
    ('a test', 'pub fn once() {}', 'pub fn twice() {}', False),
    ('an import that another body names', 'use low::Text;\n\npub struct', 'use low::{Text, Mark};\n\npub struct', False),
    ('a clause', '{ result ≡ min 1 2 }', '{ result ≡ min 1 3 }', True),
    ('the name of a clause', 'ensures value', 'ensures worth', True),
    ('a clause with a mark', '⌜ result ≡ 1 ⌝', '⌜ result ≡ 2 ⌝', True),
    ('what a function asks for', 'word self.now < 5', 'word self.now < 6', True),
    ('a text in a clause', '"a } in -- a text"', '"a } in --  a text"', True),
    ('the clause of a trait', 'IfOk result (λ n. n ≤', 'IfOk result (λ n. n <', True),
    ('a ghost item of a trait', 'Self → List ℕ', 'Self → ℕ', True),
    ('a default of a ghost item', '{ λ _. 0 }', '{ λ _. 1 }', True),
    ('a ghost item', '{ λ m. here }', '{ λ m. there }', True),
    ('a ghost field', 'at ≤ 9', 'at ≤ 8', True),
    ('the proof of a ghost field', 'held-prop', 'held-law', True),
    ('an import of a ghost item', 'Words.{here}', 'Others.{here}', True),
    ('an import for a whole file', 'impl Holder for Mark {\n    ghost use Rattle.low.specs.Words.{here};',
     'ghost use Rattle.low.specs.Words.{here};\n\nimpl Holder for Mark {', True),
    ('an import that a clause names', 'Words.{word,', 'Words.{spelt as word,', True),
    ('an operator that a clause names', 'Prelude.{◌≡◌, ◌<◌', 'Prelude.{◌≡◌}; ghost use Rattle.std.specs.Int.{◌<◌', True),
    ('an import that a signature names', 'use low::{Text, Unnamed};', 'use low::Unnamed;\nuse high::Text;', True),
    ('an import of what another file imports', 'use std::cell::Hidden;', 'use std::rc::Hidden;', True),
    ('an import by another name', 'fmt::Display as', 'fmt::Debug as', True),
    ('an import of a type in another file', 'pub struct Pair(pub Text, Spare);', 'pub struct Pair(pub Text, u8);', True),
    ('a type', 'room: u8', 'room: u16', True),
    ('a variant', 'One(u32)', 'One(u64)', True),
    ('another variant', '    In,', '    In,\n    Out,', True),
    ('a name of a type', 'type Spare = u8', 'type Spare = u16', True),
    ('what is derived', 'derive(Clone, Copy)', 'derive(Clone)', True),
    ('a constant', 'usize = 4096', 'usize = 4095', True),
    ('a private constant', "b'{'", "b'}'", True),
    ('a macro', '$x + $x', '$x * 2', True),
    ('a signature', 'fn is_full(&self)', 'fn is_full(&mut self)', True),
    ('a bound', 'seen<T: Shown>', 'seen<T>', True),
    ('a parameter', '«record»: T', '«record»: &T', True),
    ('a signature in an impl of a trait', 'text: &\'a Text) -> Result<usize, Mark> {', 'text: &\'a Text) -> Result<u8, Mark> {', True),
    ('a function that is shown no longer', 'pub fn seen', 'fn seen', True),
    ('a function that is shown now', 'pub(crate) fn near', 'pub fn near', True),
    ('a function that another file shows', 'pub fn helper(n: usize)', 'pub fn helper(n: u32)', True),
    ('a module that is shown', 'pub mod shown;', 'mod shown;', True),
    ('what is passed on', 'inner::{Pair, Way}', 'inner::Pair', True),
    ('an impl', 'impl Holder for Mark', 'impl Holder for Kind', True),
    ('a text of no known form', 'pub enum Kind', 'pub strange Kind', True),
)

# Texts that count whole, since a part of them has a form that isn't known.
WHOLE = (
    'pub fn f() -> u8 { 1',
    'pub fn f() -> u8 { 1 } }',
    'pub struct S { ghost a { 1 } }',
    'fn f<const N: usize>() -> A<{N}> { 1 }',
    'something { 1 }',
    'pub fn f() { let a = "1; }',
)


def statements(name='', old='', new=''):
    texts = {'lib.rt': LIB, 'inner.rt': INNER}
    for path, text in texts.items():
        if old and path == name:
            texts[path] = text.replace(old, new)
    return statements_of(texts)


def main():
    right = wrong = 0
    before = statements()
    for text in (LIB, INNER):
        if File(text).is_whole:
            wrong += 1
            print('a source that counts whole')
    for what, old, new, is_changed in CHANGES:
        names = [name for name, text in (('lib.rt', LIB), ('inner.rt', INNER)) for _ in range(text.count(old))]
        if len(names) == 1 and (statements(names[0], old, new) != before) == is_changed:
            right += 1
        else:
            wrong += 1
            print('%s: %s' % (what, 'it stands %d times' % len(names) if len(names) != 1 else
                              'the statements stay' if is_changed else 'the statements change'))
    for text in WHOLE:
        if File(text).is_whole and statements_of({'lib.rt': text}) != statements_of({'lib.rt': text.replace('1', '2')}):
            right += 1
        else:
            wrong += 1
            print('it does not count whole: ' + text)
    print('statements: %d passed, %d failed' % (right, wrong))
    return 1 if wrong or not right else 0


sys.exit(main())
