"""Whether what is reached is found in a small repository, in which it was found by hand."""

import os
import tempfile

from trusted.workbench import reached

FILES = {
    "crates.txt": "# low and high\nlow:\nhigh: low\n",
    "crates/low/src/kind.rt": """use std::marker::Model;

/// A kind.
#[derive(Debug)]
pub enum Kind {
    /// The first.
    First(Size),
    Source,
}

/// A size, seen as half its number.
pub struct Size {
    number: u8,
}

impl Model for Size {
    ghost use Rattle.low.specs.Numbers.{half};

    ghost Value = { ℕ };

    ghost view = { λ size.
        half size.number };
}
""",
    "crates/low/src/source.rt": """ghost use Rattle.low.specs.Numbers.{half};
ghost use Rattle.low.specs.Words.{Chain};

/// Where chains come from.
pub trait Source {
    // the chain
    ghost chain: { Self → Chain };

    /// Its length.
    fn length(&self) -> u8
        ensures { half result ≡ 0 };
}
""",
    "crates/low/specs/Lib.antt": "pub mod Numbers\npub mod Words\npub mod Rules\n",
    "crates/low/specs/Numbers.antt": """use Rattle.std.specs.Prelude.{ℕ, ◌+◌, suc}

abbrev pub half : ℕ → ℕ
half (suc (suc n)) = half n + 1
half n = 0
""",
    "crates/low/specs/Words.antt": """-- Words.
use Rattle.std.specs.Prelude.{ℕ, ◌+◌, ◌*◌, length}
use Rattle.low.specs.declared.kind.Kind.{Kind}
use Rattle.low.specs.declared.kind.Kind.TheVariants.{First}

-- numbers in order
pub data Chain : Type 0 where
  -- the end
  done : Chain
  link : ℕ → Chain → Chain

-- no clause speaks of this: below, the name is bound
abbrev pub unused : ℕ
unused = length 0 * 2

-- the length
abbrev pub size : Chain → ℕ
size done = 0
size (link unused c) =
    size c + unused

-- no clause speaks of this: its parameter on a second line is no constructor
pub data Bounded (c : Chain)
    (unused : ℕ) : Type 0 where
  bounded : Bounded c unused

-- nor of this: its field has the name of a definition
pub record Sized : Type 0 where
  pub size : ℕ

abbrev mutual
  pub even : ℕ → Kind
  even n = First n

  -- with it
  pub odd : ℕ → Kind
  odd n = even n
""",
    "crates/low/specs/Rules.antt": """use Rattle.low.specs.Words as words
use Rattle.low.specs.Words.{Chain}

module _ {A : Type 0} (c : Chain) where
  -- the size of the chain
  abbrev pub own : ℕ
  own = words.size c

  abbrev pub other : ℕ
  other = words.unused
""",
    "crates/high/specs/Lib.antt": "",
    "crates/high/src/top.rt": """ghost use Rattle.low.specs.Rules.{own};
ghost use Rattle.low.specs.Words.{odd};

use low::Source;

/// The call.
pub fn call<S: Source>(source: &S)
    // its clauses
    ensures { own (S.chain source) ≡ 0 }
    ensures { (unused : ℕ) → odd unused ≡ odd 0 }
{
    own()
}
""",
}
# the files in order, with the definitions that are reached and how many lines they have
WANTED = [
    ("crates/low/specs/Numbers.antt", [("half", 3)]),
    ("crates/low/src/kind.rt", [("Kind", 4), ("Size", 6)]),
    ("crates/low/specs/Words.antt", [("Chain", 3), ("size", 4), ("even, odd", 5)]),
    ("crates/low/specs/Rules.antt", [("module _ {A : Type 0} (c : Chain) where", 1), ("own", 2)]),
    ("crates/low/src/source.rt", [("Source", 5)]),
    ("crates/high/src/top.rt", [("call", 3)]),
]
KIT = {"Rattle.std.specs.Prelude": {"ℕ", "◌+◌", "suc"}}


def written(folder):
    for path, text in FILES.items():
        os.makedirs(os.path.dirname(os.path.join(folder, path)), exist_ok=True)
        with open(os.path.join(folder, path), "w", encoding="utf-8") as file:
            file.write(text)


def told(item):
    return ", ".join(item.names) or item.lines[0][1].strip(), len(item.lines)


def check_all(report):
    with tempfile.TemporaryDirectory() as folder:
        written(folder)
        reach, order = reached(folder, "high", "top.rt", "call")
        found = [(path, [told(item) for item in order.items[path]]) for path in order.paths]
    report.compare("what a small repository reaches", WANTED, found)
    report.compare("the kit's words in a small repository", KIT, reach.kit)
