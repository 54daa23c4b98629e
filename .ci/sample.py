"""A small tree with nothing wrong in it, for .ci/tests: each file's text."""
TREE = {
    "crates.txt": "# all\nlaws:\nmodel: laws\nhistory: laws model\nhost: laws model\nsteps: model host\nration staticlib: host steps\nrpj: host steps\n",
    "README.md": """
One theorem, `one_step` of crates/steps/proofs/Answers.antt, whole:

    pub one_step : (s : State) (l : List ℕ) {a b : ℕ} {x y : List ℕ} → Whole x → Whole y → Steps s l a (view x) → Steps s l b (view y)
        → (a ≡ b) × (x ≡ y)

It unfolds to 4 definitions, and `Steps` to 4 more. There are `Steps` (crates/steps/specs/Promises.antt) and `Past` (crates/history/specs/Past.antt).

```sh
echo one
```
```text
one
```
```sh
.ci/run  # the gate
```
```sh
tests/speed/run
```
""",
    "docs/CHECKING.md": "```sh\necho three\n```\n```text\nthree\n```\n",
    ".ci/run": "#!/bin/sh\n",
    "tests/speed/run": "#!/bin/sh\n",
    "docs/GUARANTEE.md": """
The same, `one_step` of crates/steps/proofs/Answers.antt, whole:

    pub one_step : (s : State) (l : List ℕ) {a b : ℕ} {x y : List ℕ} → Whole x → Whole y → Steps s l a (view x) → Steps s l b (view y)
        → (a ≡ b) × (x ≡ y)

| record | field | what it says |
|---|---|---|
| `Steps` | `page` | a page |
| `Steps` | `answer` | the answer |

| file | reached without going through `Steps` |
|---|---|
| crates/steps/specs/Promises.antt | `Steps` |
| crates/host/specs/View.antt | `Whole`, `view` |
| crates/model/specs/State.antt | `State` |

| file | reached through `Steps` alone |
|---|---|
| crates/host/src/lib.rt | `Cursor` |
| crates/model/specs/State.antt | `Size`, `size_of`, `sized` |
""",
    "docs/ARCHITECTURE.md": """
## Crates

    laws <- model <- history, host
    host <- steps <- ration, rpj

| crate | what it has |
|---|---|
| `laws`, `model`, `history` | words |
| `host` | bytes |
| `steps`, `ration`, `rpj` | steps |

## Theorems

| what | theorem |
|---|---|
| one answer | `laws: Answers.one_answer`, `host: Sections.inside` |
""",
    "docs/STATE.md": "| no. | field |\n|---|---|\n| 0 | owner |\n| 1 | callA |\n| | end |\n",
    "docs/RULES.md": "As docs/HOST.md, \"Valid states\".\n\n| rule | part | places |\n|---|---|---|\n| 1 | 0 | guests |\n| 2 | 0 to 1 | numbers |\n| 2 | 2 | free pages |\n\n## 1\n\n\"A guest is a guest.\"\n\n## 2\n\n\"A page is no guest.\"\n\n## Edits that break a rule\n\n1 `a_rule_left_out`.\n",
    "docs/ANSWERS.md": """
| reading | theorem |
|---|---|
| `host: View.view` | `host: Answers.one_content` |

| named promise | theorem |
|---|---|
| `steps: Promises.Steps` | `steps: Answers.one_step` |
| `host: View.Whole` | `host: Answers.one_content` |

## Wrong machines

| machine | refused as |
|---|---|
| refuses all | steps: refuses_all |
| mixes numbers | the compiler: see below |

## Edits of definitions and statements

| crate | edit | what it tries |
|---|---|---|
| model | a_size_less | one page less |

## host

| function | theorem | ruled out | also ruled out | tried by |
|---|---|---|---|---|
| `host::whole` | `laws: Answers.one_answer` | none: it answers nothing | nor a change | |
| `host::owner` | `laws: Answers.one_answer` | the kind | 0 always | steps: refuses_all |
| `host::place` | `laws: Answers.one_answer` | 0 | one more | |
| `host::set_owner` | `host: Answers.one_content` | the kind stored | nothing stored | another_stored; model: a_size_less |
| `host::Cursor::at` | `laws: Answers.one_answer` | 0 | one more | |

## steps

| function | theorem | ruled out | also ruled out | tried by |
|---|---|---|---|---|
| `steps::step` | `steps: Answers.one_step` | refuses all | does nothing | refuses_all |
| `steps::put` | `laws: Answers.one_answer` | one byte | no byte | |

## ration

| function | theorem | ruled out | also ruled out | tried by |
|---|---|---|---|---|
| `ration::ration_step` | `host: Answers.one_content` | refuses all | does nothing | |
""",
    "docs/HOST.md": """
## Valid states

1. A guest is a guest.
2. A page is no guest.

## Records and answers

| what | how many | numbers |
|---|---|---|
| guests | 1 | 0 to 0 |
| virtual addresses | 8 | 0 to 7 |
| physical addresses | 4 | 0 to 3 |

| kind | action | a | b | also | mode |
|---|---|---|---|---|---|
| 0 | silent | | | | any |
| 1 | new_sm | 7 | pa | | any |
| 11 | ret_ctrl | | | | running |

| call | asks for | a | b |
|---|---|---|---|
| 0 | `none` | | |

| number | reason |
|---|---|
| 0 | done |
| 1 | invalid state |

| status | when |
|---|---|
| 9 | never |

## Worked runs

| no. | bytes, in hex | action | answer |
|---|---|---|---|
| 1 | `01 07 02 00 00 00 00 00` | new_sm 2 | 0 |
| 2 | `00 00 00 00 00 00 00 00` | silent | 0, value 5 |

```
RPJ 1
1 0 0
2 0 5
```

| run | from | records | answers |
|---|---|---|---|
| nine | fresh | new_sm 2; silent | 0; 0 5 |
| handed | nine | ret_ctrl | 0 |
| again | handed | ret_ctrl; silent | 3; 0 |
""",
    "docs/CHECK.md": """
| crate | check, s | edits | an edit, s |
|---|---|---|---|
| `laws` | 6 | 0 | |
| `model` | 12 | 2 | 9 |
| `history` | 6 | 0 | |
| `host` | 6 | 1 | 6 |
| `steps` | 6 | 1 | 6 |
| `ration` | 6 | 0 | |
| `rpj` | 6 | 0 | |

All checks together are 0.8 minutes of one core. The 4 edits are 0.5 minutes of one core.
""",
    "examples/nine.rpj": "RPJ\1\0\0\0\0\1\7\2\0\0\0\0\0\0\0\0\0\0\0\0\0",
    # a machine of the three kinds above: silent after new_sm has the value 5
    "tools/start": """exec python3 -c '
import sys
source, target = (sys.argv[2:] + ["", ""])[:2]
journal, running, last = sys.stdin.buffer.read()[8:], True, None
if source:
    running, last = eval(open(source).read())
for n in range(len(journal) // 8):
    kind, a, b, *rest = journal[8 * n : 8 * n + 8]
    good = not any(rest) and (kind in (0, 11) and a == b == 0 or kind == 1 and a == 7 and b < 4)
    number = 2 if not good else 3 if kind == 11 and not running else 0
    running = running and kind != 11
    print(n + 1, number, 5 if kind == 0 and last == 1 else 0)
    last = kind
if target:
    open(target, "w").write(repr((running, last)))
' "$@"
""",
    "crates/rpj/stdout": "RPJ 1\n1 0 0\n2 0 5\n",
    "include/ration.h": """/* void ration_none(void); RATION_KIND_GONE = 3 */
enum { RATION_SIZE = 4, RATION_KIND_SILENT = 0, /* nothing */ RATION_KIND_RET_CTRL = 11, RATION_KIND_NEW_SM = 1 };
enum { RATION_CALL_NONE = 0 };
enum { RATION_DONE = 0, RATION_REFUSED_STATE = 1 };
enum { RATION_RULES = 2, RATION_FIELD_OWNER = 0, RATION_FIELD_CALL_A = 1, RATION_PART_2_PAGES = 2 };
void ration_step(uint8_t state[4]); /* a step */
""",
    "crates/laws/src/lib.rt": "",
    "crates/laws/proofs/Answers.antt": """use mathlib.Core.Path.{◌≡◌, sym, ◌∙◌}

pub one_answer {ℓ} : {A : Type ℓ} (a x y : A) → x ≡ a → y ≡ a → x ≡ y
one_answer a x y e f = e ∙ sym f
""",
    "crates/laws/specs/Choice.antt": "use Rattle.std.specs.Prelude.{Bool, true}\nabbrev pub pick : Bool\npick = true\n",
    "crates/model/src/lib.rt": "",
    "crates/model/specs/Sizes.antt": "use Rattle.std.specs.Prelude.{ℕ, eqb}\nabbrev pub pages : ℕ\npages = 64\n",
    "crates/model/specs/Rules.antt": "-- 1. A guest is\n-- a guest.\nabbrev pub Rule1 : ℕ\nRule1 = 1\n\n-- 2. A page is no guest. Here it is p.\nabbrev pub Rule2 : ℕ\nRule2 = 2\n",
    "crates/model/specs/Names.antt": "use Rattle.std.specs.Prelude.{ℕ}\nabbrev pub kind_none : ℕ\nkind_none = 0\n",
    "crates/model/specs/State.antt": """use Rattle.std.specs.Prelude.{ℕ}

pub record State : Type 0 where
  pub owner : ℕ

pub data Size : Type 0 where
  small : Size

abbrev pub size_of : Size → ℕ
size_of small = 4

abbrev pub sized : State → ℕ
sized s =
    let owner = s.owner in
    elim owner [
      | 0 ↦ size_of small
      | n ↦ (λ n. n) n
    ]
""",
    "crates/model/specs/Records.antt": "use Rattle.std.proofs.Math.Option.{Option}\nuse Rattle.std.specs.Prelude.{◌≡◌}\nuse Rattle.model.specs.Sizes.{pages}\npub data Action : Type 0 where\n  silent : Action\n",
    "crates/model/specs/Shadow.antt": "use Rattle.model.specs.State.{State as Other}\npub record Hidden : Type 0 where\n  pub all : Other\n",
    "crates/model/must-fail/a_size_less.edit": "",
    "crates/model/must-fail/a_rule_left_out.edit": "",
    "crates/history/src/lib.rt": "",
    "crates/history/specs/Past.antt": """-- no state: use Rattle.model.specs.State.{State} is a comment
{- and so is
use Rattle.model.specs.State.{State}
-}
use Rattle.laws.specs.Choice.{pick}
use Rattle.model.specs.Names.{kind_none}
use Rattle.model.specs.Records.{Action}
use Rattle.model.specs.Records as records
abbrev pub Past : Type 0
Past = List Action
""",
    "crates/host/specs/View.antt": """use Rattle.std.specs.Prelude.{◌≡◌, List, length}
use Rattle.std.specs.Prelude.{ℕ}
use Rattle.model.specs.State.{State}

abbrev pub Whole : List ℕ → Type 0
Whole l = length l ≡ 4

unfoldable pub view : List ℕ → State
view l = record { owner = length l }
""",
    "crates/host/proofs/Sections.antt": "module _ (s : State) where\n  pub inside : s ≡ s\n  inside = refl\n\npub record Fields : Type 0 where\n  pub field : ℕ\n",
    "crates/host/proofs/Answers.antt": """use mathlib.Core.Path.{◌≡◌, sym, ◌∙◌}
use Rattle.host.specs.View.{view, Whole}

pub one_content : (s : State) (xs ys : List ℕ) → Whole xs → Whole ys → view xs ≡ s → view ys ≡ s → xs ≡ ys
one_content s xs ys h k e f = view_inj xs ys h k (e ∙ sym f)
""",
    "crates/host/must-fail/another_stored.edit": "",
    "crates/host/src/lib.rt": """// bytes: pub fn not_here() -> u8
mod start; // start.rt
pub use start::set_owner;
ghost use Rattle.std.specs.Prelude.{◌≡◌};
ghost use Rattle.host.specs.View.{view, Whole};

pub type Host = [u8; 4];

pub struct Ma(pub u8);

pub struct Cursor {
    pub at: u8,
    pub left: u8,
}

/* pub fn nor_here() -> u8 { 0 } */
pub fn whole(h: &Host)
    ensures { Whole h.now }
{
}

pub fn owner(
    h: &Host, // lent
    p: Ma,
) -> u8
    ensures {
        result ≡
            at (view h.now) p.0
    }
{
    h[p.0 as usize]
}

pub fn place(l: u8) -> Ma
    ensures { result.0 ≡ l }
{
    Ma(l)
}

impl Cursor {
    pub fn at(self) -> u8
        ensures { result ≡ self.at }
    {
        self.at
    }
}
""",
    "crates/host/src/start.rt": """use super::Host;
use super::Ma;
ghost use Rattle.std.specs.Prelude.{◌≡◌};
ghost use Rattle.host.specs.View.{view};

pub(crate) fn inner(h: &Host)
    requires small { 1 ≡ 1 }
{
    let text = "} pub fn quoted() {";
}

pub fn set_owner(h: &mut Host, p: Ma, v: u8)
    ensures { view h.new ≡ put (view h.old) p.0 v }
{
    super::whole(h);
}
""",
    "crates/steps/specs/Promises.antt": """use Rattle.std.specs.Prelude.{◌≡◌, List, ℕ}
use Rattle.model.specs.State.{State}
use Rattle.model.specs.State as model
use Rattle.host.specs.declared.Cursor.{Cursor}

pub record Steps (s : State) (l : List ℕ) (a : ℕ) (t : State) : Type 0 where
  pub page : Cursor
  pub answer : a ≡ model.sized s page.left
""",
    "crates/steps/proofs/Answers.antt": """use mathlib.Core.Path.{◌≡◌}
use mathlib.Core.List.{List}
use Prim.Native.Nat.{ℕ}
use Rattle.model.specs.State.{State}
use Rattle.host.specs.View.{view, Whole}
use Rattle.steps.specs.Promises.{Steps}

pub one_step : (s : State) (l : List ℕ) {a b : ℕ} {x y : List ℕ} → Whole x → Whole y → Steps s l a (view x) → Steps s l b (view y)
    → (a ≡ b) × (x ≡ y)
one_step s l h k p q = cc

-- pub gone : ℕ
""",
    "crates/steps/must-fail/refuses_all.edit": "",
    "crates/steps/src/lib.rt": """use host::Cursor;
use host::Host;
use host::owner;
ghost use Rattle.std.specs.Prelude.{◌≡◌};
ghost use Rattle.host.specs.View.{view};
ghost use Rattle.steps.specs.Promises.{Steps};

pub fn step(h: &mut Host, bytes: &[u8]) -> u8
    ensures { Steps (view h.old) bytes.now result (view h.new) }
{
    let p = host::place(0);
    host::set_owner(h, p, 0);
    let c = Cursor { at: 0, left: 1 };
    owner(h, p) + c.at()
}

pub fn put(out: &mut [u8], more: &mut [u8], a: u8) -> u8
    ensures { (result ≡ 2) × (out.new ≡ a ∷ []) × (more.new ≡ []) }
{
    2
}
""",
    "crates/ration/src/lib.rt": """use host::Host;
ghost use Rattle.std.specs.Prelude.{◌≡◌};
ghost use Rattle.host.specs.View.{view};

#[unsafe(no_mangle)]
pub extern "C" fn ration_step(h: &mut Host)
    ensures { view h.new ≡ view h.old }
{
    steps::step(h, b"");
}
""",
    "crates/rpj/src/main.rt": "fn main() {\n    steps::put(b\"\", b\"\", 0);\n}\n",
    "target/rt-ci.log": """== model
rt: model proved
rt: must-fail model/a_rule_left_out.edit: refused, as it must be: ./proofs/Samples.antt:7:10: error: `group1`: `omega`: the goal does not follow from what it read
rt: must-fail model/a_size_less.edit: refused, as it must be: ./proofs/Samples.antt:8:10: error: `samples_pass`: the two types differ
rt: must-fail host/another_stored.edit: refused, as it must be: note: src/start.rt:12:1: it is not proved that what the function ensures holds when it returns (`returns`)
rt: must-fail steps/refuses_all.edit: refused, as it must be: ./proofs/step/Answers.antt:9:9: error: `returns`: as printed, the two types first differ where one has `0`
rt: ok; handles allowed: none; must-fail edits: 4 refused; every proof and must-fail edit was done in this run
11 passed, 0 failed
""",
}
