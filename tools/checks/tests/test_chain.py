"""Tests of chain.py and definitions.py: what each form of a definition uses, over two crates that are made up, and what is refused."""
from __future__ import annotations

import os
import tempfile
import unittest
from typing import Dict, List, Tuple

from checks.chain import Chain, Starts, Start, chain_of, leaves_of, names_of, statement_text, texts_of
from checks.definitions import Fault, KitName, Repository
from lib.script import Failed

KIND = """//! Kinds.
ghost use Rattle.std.specs.Prelude.{◌≡◌, ℕ};
use std::alloc::Global;

/// The most.
pub const MOST: u8 = 4;

/// A kind.
#[derive(Clone)]
pub enum Kind {
    // No color.
    Red,
    Blue(u8),
}

/// What counts.
pub trait Counter {
    /// How many.
    ghost count_of: { Self → ℕ };

    fn count(&self) -> u8
        ensures { result ≡ count_of self };
}
"""
BASE = """-- The base.
use Rattle.std.specs.Prelude.{ℕ, ◌+◌}

-- one
abbrev pub one : ℕ
one = 1

-- two,
-- by one
abbrev pub two : ℕ
two = one + one

abbrev pub three : ℕ
three = two + one
"""
# Each form of a definition, with what it uses of definitions, types and modules, in order: no name of the kit.
FORMS = """-- Forms.
use Rattle.std.specs.Prelude.{◌≡◌, ◌+◌, ℕ, List, [], ◌∷◌, Bool, true, false, if◌then◌else◌, codes}
use Rattle.std.specs.Prelude.{Option, Some, None, Result, Ok, Err}
use Rattle.low.specs.Base.{one, two as pair}
use Rattle.low.specs.Base as base
use Rattle.low.specs.declared.kind.Kind.{Kind}
use Rattle.low.specs.declared.kind.Kind.TheVariants.{Red, Blue as Dark}
use Rattle.low.specs.declared.kind.Kind.TheVariants as kinds
use Rattle.low.specs.declared.kind.TheConstants.{MOST}
use Rattle.low.specs.contracts.kind.KindClone.TheImpl.{ghosts as copies}
pub use Rattle.low.specs.Base.{three as passed}

-- ---- a heading

-- an operator, with its fixity
infixl 10 ◌>>=◌
abbrev pub ◌>>=◌ : {A B F : Type 0} → Result A F → (A → Result B F) → Result B F
(Ok x) >>= f = f x
(Err fault) >>= f = Err fault

-- a record, whose field hides a definition of its name
pub record Sized (n : ℕ) : Type 0 where
  -- how large
  pub one : ℕ
  pub is : one ≡ n + pair

pub data Shape : Type 0 where
  point : Shape
  box : ℕ → Kind → Shape

abbrev pub by_argument : ℕ → ℕ
by_argument one = one

abbrev pub by_clauses : ℕ → Bool → ℕ
by_clauses one true = one
by_clauses n false = one

abbrev pub by_lambda : List (ℕ → ℕ)
by_lambda = (λ one. one + pair) ∷ (λ (x : ℕ). x) ∷ []

abbrev pub after_lambda : ℕ
after_lambda = (λ one. one) one

abbrev pub by_let : ℕ
by_let = let one : ℕ = pair in one

abbrev pub let_itself : ℕ
let_itself = let one = one in 2

abbrev pub by_type : Type 0
by_type = (one : ℕ) → one ≡ one

abbrev pub by_fields : ℕ → Sized 2
by_fields n = record { one = n; is = base.two }

abbrev pub updated : {n : ℕ} → Sized n → Sized n
updated s = record s {
  one = s.one;
}

abbrev pub by_label : ℕ
by_label = by_argument {one = 2} 3

abbrev pub of_label : {one : ℕ} → ℕ → ℕ
of_label {one = n} m = one

abbrev pub by_do : Result ℕ ℕ → Result ℕ ℕ
by_do r = do
  one ← r
  more ← Ok (one + base.two)
  Ok more

abbrev pub by_variant : Kind → Bool
by_variant Red = true
by_variant (Dark n) = false

abbrev pub by_module : Kind → ℕ
by_module kinds.Red = MOST
by_module other = 0

abbrev pub by_constructor : Shape → ℕ
by_constructor point = 0
by_constructor (box n kind) = n

abbrev pub copied : Kind → Kind
copied kind = copies.clone kind

-- a text is no name
abbrev pub quoted : List ℕ
quoted = codes "one (two" ∷ []

unfoldable pub by_branch : Bool → ℕ
unfolding by_argument
by_branch b =
    if b
    then one
    -- or this
    else base.three

-- a lemma is its statement
pub lemma : (n : ℕ) → by_argument n ≡ n
lemma n =
    -- by this
    grind pair

module _ (one : ℕ) where
  -- the module's argument hides a definition
  abbrev pub inside : ℕ
  inside = one + pair

  module _ {A : Type 0}
      (kind : Kind) where
    abbrev pub deeper : List A
    deeper = by_module kind ∷ []

  abbrev pub back : Kind → ℕ
  back kind = inside

abbrev pub outside : ℕ
outside = one
"""
USES: Dict[str, str] = {
    "◌>>=◌": "", "Sized": "two", "Shape": "Kind", "by_argument": "", "by_clauses": "one", "by_lambda": "two", "after_lambda": "one",
    "by_let": "two", "let_itself": "one", "by_type": "", "by_fields": "Sized two", "updated": "Sized", "by_label": "by_argument",
    "of_label": "one", "by_do": "◌>>=◌ two", "by_variant": "Kind", "by_module": "Kind MOST", "by_constructor": "Shape", "copied": "Kind", "quoted": "",
    "by_branch": "one three", "lemma": "by_argument", "inside": "two", "deeper": "Kind by_module", "back": "Kind inside", "outside": "one",
}
TOP = """-- The top.
use Rattle.std.specs.Prelude.{ℕ, List, ◌∷◌, [], codes}
use Rattle.low.specs.Forms.{by_clauses, inside, passed, point}
use Rattle.low.specs.Base.{one}
use Rattle.low.specs.declared.kind.Kind.{Kind}
use Rattle.high.specs.declared.Counted.{Counted}
use Rattle.high.specs.low.Base as base

abbrev pub whole : ℕ → ℕ
whole point = inside passed

abbrev pub all : Kind → List ℕ
all kind = whole 1 ∷ base.two ∷ one ∷ []

abbrev pub counted : Type 0
counted = Counted
"""
RUN = """//! Runs.
ghost use Rattle.std.specs.Prelude.{◌≡◌, ℕ, IfOk};
ghost use Rattle.high.specs.Top.{whole};
ghost use Rattle.low.specs.Base as base;

use low::{Counter, Kind};
use std::alloc::AllocError;

pub struct Counted;

impl<C: Counter> Runs<C> for Counted {
    ghost use Rattle.high.specs.Top.{all};

    /// All.
    fn list(&self, kind: Kind) -> Kind
        requires some { kind ≡ Kind.Red }
        ensures all { all result ≡ (C.count_of self) }
    {
        kind
    }
}

pub fn run<T>(alloc: T, n: u8) -> Result<u8, AllocError>
    requires { n ≡ base.one }
    ensures ok { IfOk result (λ whole. whole ≡ n) }
    ensures whole { result ≡ Ok (whole n) }
{
    Ok(n)
}
"""
TOOLS = """-- Tools.
use Rattle.std.specs.Prelude.{ℕ, List, ◌∷◌, [], codes}
use Rattle.low.specs.declared.kind.Kind.{Kind}
use Rattle.low.specs.declared.kind.Kind.TheVariants as tools
use Rattle.low.specs.Base as paint
use Rattle.high.specs.Top as top

abbrev pub row : Kind → List ℕ → ℕ → ℕ
row tool name syntax = 1

abbrev pub table : List ℕ
table =
    row tools.Red (codes "red") paint.one
    ∷ row (tools.Blue 1) (codes "blue") paint.two
    ∷ []

abbrev pub answered : Kind → ℕ
answered tools.Red = paint.two
answered (tools.Blue n) =
    top.whole n
"""
FILES = {
    "crates/low/src/lib.rt": "//! Low.\nmod kind;\npub use kind::{Counter, Kind};\n",
    "crates/low/src/kind.rt": KIND,
    "crates/low/specs/Lib.antt": "pub mod Base\npub mod Forms\n",
    "crates/low/specs/Base.antt": BASE,
    "crates/low/specs/Forms.antt": FORMS,
    "crates/high/src/lib.rt": RUN,
    "crates/high/specs/Lib.antt": "pub mod Top\npub use Rattle.low.specs as low\n",
    "crates/high/specs/Top.antt": TOP,
    "crates/facl/src/lib.rt": "//! Tools.\n",
    "crates/facl/specs/Tools.antt": TOOLS,
}
BASE_PATH, FORMS_PATH, RUN_PATH = "crates/low/specs/Base.antt", "crates/low/specs/Forms.antt", "crates/high/src/lib.rt"
KIND_PATH = "crates/low/src/kind.rt"
# Of each file a text, what stands there instead, the line that is then named, and why.
SUM, FIELDS = "two = one + one", "by_fields n = "
FAULTS: List[Tuple[str, str, str, str, str]] = [
    (BASE_PATH, SUM, "two = one + four", SUM, "nothing declares, imports or binds `four`"),
    (BASE_PATH, "ℕ, ◌+◌", "ℕ", SUM, "nothing declares, imports or binds `+`"),
    (BASE_PATH, SUM, "two = (one + one", SUM, "nothing closes `(`"),
    (BASE_PATH, SUM, "two = one) + one", SUM, "`)` closes nothing"),
    (BASE_PATH, SUM, "two = elim one", SUM, "`elim` is not read"),
    (BASE_PATH, SUM, "two one", SUM, "no `=` follows"),
    (BASE_PATH, SUM, "two = λ one", SUM, "no `.` follows"),
    (BASE_PATH, SUM, "two = let x = one", SUM, "no `in` follows this `let`"),
    (BASE_PATH, SUM, "two = x where\n  x = 1", SUM, "nothing declares, imports or binds `x`"),
    (BASE_PATH, SUM, "two = one where\n  x = 1", SUM, "`where` is not read"),
    (BASE_PATH, "abbrev pub two : ℕ", "abbrev pub two", "abbrev pub two", "this is no declaration that is read: abbrev pub two"),
    (BASE_PATH, "abbrev pub three", "abbrev pub two", "abbrev pub three", "two is declared twice"),
    (BASE_PATH, "ℕ, ◌+◌", "ℕ, ◌+◌, +◌", "use Rattle.std", "`+` is a part of ◌+◌ and of +◌"),
    (FORMS_PATH, "two as pair", "four as pair", "as pair", "there is no low.specs.Base.four"),
    (FORMS_PATH, "specs.Base as base", "specs.Base as basis", FIELDS, "nothing declares, imports or binds `base.two`"),
    (FORMS_PATH, "specs.Base as base", "specs.Bass as base", FIELDS, "there is no low.specs.Bass.two"),
    (FORMS_PATH, "base.two }", "base.four }", FIELDS, "there is no low.specs.Base.four"),
    (FORMS_PATH, "Blue as Dark", "Green as Dark", "as Dark", "no source has low.specs.declared.kind.Kind.TheVariants.Green"),
    (FORMS_PATH, "kind.Kind.{Kind}", "kind.Sort.{Kind}", "kind.Kind.{Kind}", "no source has low.specs.declared.kind.Sort.Kind"),
    (FORMS_PATH, "Base.{one, two", "Base.one, two", "two as pair", "this `use` is not read: use Rattle.low.specs.Base.one, two as pair}"),
]


def place(path: str, text: str) -> str:
    """The place of the line that has a text first."""
    return f"{path}:{FILES[path][:FILES[path].index(text)].count(chr(10)) + 1}"


class Case(unittest.TestCase):
    """A test with the two crates in a folder of its own."""

    def setUp(self) -> None:
        folder = tempfile.TemporaryDirectory(prefix="facl-chain-test.")
        self.addCleanup(folder.cleanup)
        self.top = folder.name
        for name, text in FILES.items():
            self.write(name, text)

    def write(self, name: str, text: str) -> None:
        path = os.path.join(self.top, name)
        os.makedirs(os.path.dirname(path), exist_ok=True)
        with open(path, "w", encoding="utf-8") as file:
            file.write(text)

    def start(self, word: str, *clauses: str) -> Start:
        return Starts(Repository(self.top)).start(word, [*clauses])

    def names(self, word: str, *clauses: str) -> str:
        """What a word of START names first, without names of the kit."""
        return " ".join(target.name for target in self.start(word, *clauses).targets if not isinstance(target, KitName))

    def chain(self, *words: str) -> Chain:
        repository = Repository(self.top)
        return chain_of(repository, [Starts(repository).start(word, []) for word in words])

    def refused(self, word: str, *clauses: str) -> str:
        with self.assertRaises(Failed) as caught:
            self.start(word, *clauses)
        return str(caught.exception)


class Uses(Case):
    def test_each_form(self) -> None:
        repository = Repository(self.top)
        file = repository.spec_file("low", ["Forms"])
        assert file is not None
        self.assertEqual([*file.definitions], [*USES])
        for name, expected in USES.items():
            found = [target.name for target in repository.uses(file.definitions[name]) if not isinstance(target, KitName)]
            self.assertEqual(" ".join(found), expected, name)

    def test_names_of_the_kit(self) -> None:
        """Operators count by the names that they are imported by, and `do` uses its own operator alone."""
        repository = Repository(self.top)
        file = repository.spec_file("low", ["Forms"])
        assert file is not None
        for name, expected in (("by_lambda", "List ℕ ◌+◌ ◌∷◌ []"), ("by_branch", "Bool ℕ if◌then◌else◌"),
                               ("by_do", "Result ℕ Ok ◌+◌"), ("by_variant", "Bool true false")):
            found = [target.name for target in repository.uses(file.definitions[name]) if isinstance(target, KitName)]
            self.assertEqual(" ".join(found), expected, name)

    def test_what_is_not_read(self) -> None:
        for path, old, new, line, fault in FAULTS:
            text = FILES[path].replace(old, new)
            self.assertNotEqual(text, FILES[path])
            self.write(path, text)
            self.assertEqual(self.first_fault(path), f"{place(path, line)}: {fault}", new)
            self.write(path, FILES[path])

    def first_fault(self, path: str) -> str:
        """What is refused first of a file and its definitions."""
        crate, _, name = path[len("crates/"):-len(".antt")].split("/")
        with self.assertRaises(Fault) as caught:
            repository = Repository(self.top)
            file = repository.spec_file(crate, [name])
            for definition in file.definitions.values() if file else ():
                repository.uses(definition)
        return str(caught.exception)


class Words(Case):
    def test_functions(self) -> None:
        self.assertEqual(self.names("high::run"), "one whole")
        self.assertEqual(self.names("high::run", "whole"), "whole")
        self.assertEqual(self.names("high::run", "ok"), "")
        self.assertEqual(self.names("high::Counted::list"), "Kind all Counter")
        self.assertEqual(self.names("high::lib::run", "whole"), "whole")
        self.assertEqual(self.names("low::Counter::count"), "Counter")
        self.assertEqual(self.refused("high::walk"), "there is no function high::walk")
        self.assertEqual(self.refused("high::run", "no"), "high::run has no clause no")
        self.assertEqual(self.refused("high::Counted::list", "no"), "high::Counted::list has no clause no; its trait is Runs")
        self.write("crates/high/src/lib.rt", RUN.replace("≡ (C.", "≡ (D."))
        self.assertEqual(self.refused("high::list"), f"{place(RUN_PATH, 'ensures all')}: nothing declares, imports or binds `D.count_of`")
        self.write("crates/high/src/lib.rt", RUN + "mod low { pub fn run() {} }")
        places = f"run ({place(RUN_PATH, 'pub fn run')}), run ({RUN_PATH}:{len(RUN.splitlines()) + 1})"
        self.assertEqual(self.refused("high::run"), f"high::run is one of {places}")

    def test_tools(self) -> None:
        self.assertEqual(self.names("red"), "one two")
        self.assertEqual(self.names("blue"), "two whole")
        self.assertEqual(self.refused("green"), "there is no tool green: there are blue, red")

    def test_definitions(self) -> None:
        self.assertEqual(self.names("low.specs.Base.two"), "two")
        self.assertEqual([item.label for item in self.chain("high.specs.Top.counted").items], ["high::Counted"])
        self.assertEqual(self.refused("low.specs.Base.four"), "there is no definition low.specs.Base.four")


class Order(Case):
    def test_least_first(self) -> None:
        """`whole` uses `Shape`, `inside` and `three`: `Shape` leads to one definition, `three` and `inside` to more."""
        found = [*names_of(self.chain("high.specs.Top.all"))]
        self.assertEqual([name for name, _, _ in found], [
            "high.specs.Top.all", "low::Kind", "low.specs.Base.one", "low.specs.Base.two", "high.specs.Top.whole", "low.specs.Forms.Shape",
            "low.specs.Forms.inside", "low.specs.Base.three"])
        self.assertEqual(found[1][1:], (place(KIND_PATH, "pub enum"), 5))
        self.assertEqual(found[6][1:], (place(FORMS_PATH, "abbrev pub inside"), 2))

    def test_counts(self) -> None:
        """Each definition has two lines, `Shape` three; the head of the module of `inside` is one more."""
        chain = self.chain("high.specs.Top.all")
        self.assertEqual(chain.counts(), (7, 16, 3, 1, 5))
        self.assertEqual(chain.counts("low"), (5, 12, 2, 1, 5))
        self.assertEqual([*leaves_of(chain)], ["names of std (5): List [] ℕ ◌+◌ ◌∷◌"])

    def test_words_that_are_taken(self) -> None:
        """A stop is neither shown nor followed, unless one starts at it."""
        repository = Repository(self.top)
        words = Starts(repository)
        starts = [words.start("high.specs.Top.all", []), Start([], [], {words.definition("high.specs.Top.whole")})]
        self.assertEqual(chain_of(repository, starts).counts()[0], 3)
        self.assertEqual([*leaves_of(chain_of(repository, starts))][0], "taken as words: high.specs.Top.whole")
        self.assertEqual(chain_of(repository, [*starts, words.start("high.specs.Top.whole", [])]).counts()[0], 7)

    def test_text(self) -> None:
        texts = [*texts_of(self.chain("low.specs.Forms.deeper"))]
        self.assertEqual(texts[0], f"-- {place(FORMS_PATH, 'abbrev pub deeper')}\n" "module _ (one : ℕ) where\n  module _ {A : Type 0}\n"
                         "      (kind : Kind) where\n    abbrev pub deeper : List A\n    deeper = by_module kind ∷ []\n")
        self.assertEqual(texts[1], f"// {place(KIND_PATH, 'pub enum')}\n" + KIND[KIND.index("/// A kind"):KIND.index("\n/// What")])
        self.assertEqual([*texts_of(self.chain("low.specs.Base.two"))][0],
                         f"-- {place(BASE_PATH, 'abbrev pub two')}\n-- two,\n-- by one\nabbrev pub two : ℕ\ntwo = one + one\n")
        self.assertEqual([*texts_of(self.chain("low.specs.Forms.lemma"))][0].split("\n")[1:],
                         ["-- a lemma is its statement", "pub lemma : (n : ℕ) → by_argument n ≡ n", ""])
        self.assertEqual([*texts_of(self.chain("low.specs.Forms.◌>>=◌"))][0].split("\n")[1:4], [
            "-- an operator, with its fixity", "infixl 10 ◌>>=◌",
            "abbrev pub ◌>>=◌ : {A B F : Type 0} → Result A F → (A → Result B F) → Result B F"])
        self.assertEqual([*statement_text(self.start("high::run", "ok").statements[0])], [
            f"// {place(RUN_PATH, 'pub fn run')}: run", "fn run<T>(alloc: T, n: u8) -> Result<u8, AllocError>",
            "ensures ok { IfOk result (λ whole. whole ≡ n) }"])


if __name__ == "__main__":
    unittest.main()
