"""What the checks read: sources without their comments, functions of Rattle with their contracts, declarations of antt, tables of the documents."""
import re
import sys
from functools import lru_cache
from pathlib import Path

# The repository, or a tree that .ci/tests made.
ROOT = next((Path(word) for word in sys.argv[1:] if not str(word).startswith("-")), Path(__file__).resolve().parent.parent)
complaints = []
sys.stdout.reconfigure(encoding="utf-8")


def complain(text):
    complaints.append(text)


def finish(what, count):
    """Says what is wrong and how much was looked at; a check that looked at nothing has lost its way."""
    for text in complaints:
        print(text)
    print(f"{count} {what}" if count else f"no {what}: this check has lost its way")
    sys.exit(1 if complaints or not count else 0)


def read(path):
    return (ROOT / path).read_text(encoding="utf-8") if (ROOT / path).is_file() else ""


def dependencies():
    """Each crate of crates.txt, with what stands on its line; what is said of it before the colon, as `staticlib`, is none of that."""
    return {name: rest.partition("#")[0].split() for name, rest in re.findall(r"^(\w+)(?:[ \t][^:#\n]*)?:(.*)", read("crates.txt"), re.M)}


def crates():
    return list(dependencies())


# ---- comments

QUOTED = r'b?"(?:\\.|[^"\\])*"'
RATTLE = re.compile(rf"//[^\n]*|/\*|{QUOTED}|b?'(?:\\[^']*|[^'\\\n])'", re.S)
ANTT = re.compile(rf"(?<![^\s(){{}};,.@])--(?=[\s-]|\Z)[^\n]*|\{{-|{QUOTED}", re.S)


def uncommented(text, lexer, opening, closing):
    """Spaces stand for comments, block comments in block comments too, and for what is quoted but the C of extern "C". Every place stays."""
    nested = re.compile(f"{re.escape(opening)}|{re.escape(closing)}")
    out, at, depth = [], 0, 0
    while True:
        token = (nested if depth else lexer).search(text, at)
        end = token.start() if token else len(text)
        out.append(re.sub(r"[^\n]", " ", text[at:end]) if depth else text[at:end])
        if not token:
            return "".join(out)
        word, at = token.group(), token.end()
        depth += (word == opening) - (word == closing)
        out.append(word if word == '"C"' else re.sub(r"[^\n]", " ", word))


def rattle(path):
    return uncommented(read(path), RATTLE, "/*", "*/")


def antt(path):
    return uncommented(read(path), ANTT, "{-", "-}")


# ---- functions of Rattle

def closed(text, at):
    """The place after the bracket that closes the one at this place."""
    depth = 0
    for place in re.finditer(r"->|[()\[\]{}<>]" if text[at] == "<" else r"[()\[\]{}]", text[at:]):
        depth += {"->": 0}.get(place.group(), 1 if place.group() in "([{<" else -1)
        if depth == 0:
            return at + place.end()
    return len(text)


def parted(text, sign):
    """Split at a sign that stands in no brackets."""
    parts, depth, last = [], 0, 0
    for place in re.finditer(rf"[(\[{{<]|(?<!-)[)\]}}>]|{re.escape(sign)}", text):
        if place.group() == sign:
            if depth == 0:
                parts.append(text[last : place.start()])
                last = place.end()
        else:
            depth += 1 if place.group() in "([{<" else -1
    return [part.strip() for part in parts + [text[last:]] if part.strip()]


# up to a brace, or to a semicolon that is not of an array's type
BEFORE_BRACE = re.compile(r"(?:\[(?:[^\[\]]|\[[^\[\]]*\])*\]|[^\[{;])*")


class Function:
    """A function: its crate, file and module, its name (behind its type's, for a method), parameters, result, contract and body."""

    def __init__(self, crate, file, text, head):
        self.crate, self.file = crate, file
        self.module = re.sub(r"^(lib|main)$", "", Path(file).relative_to(f"crates/{crate}/src").with_suffix("").as_posix())
        self.public = head["pub"] == "pub"  # and not pub(crate)
        self.external = "extern" in (head["how"] or "")
        self.name = self.bare = head["name"]
        at = head.end()
        if text[at] == "<":
            at = closed(text, at)
        at = text.index("(", at)
        end = closed(text, at)
        self.parameters = [self.parameter(word) for word in parted(text[at + 1 : end - 1], ",")]
        self.contract = {"requires": [], "ensures": []}
        self.result = ""
        while True:
            between = BEFORE_BRACE.match(text, end).group()
            brace = end + len(between)
            clause = re.search(r"\b(requires|ensures)(?:\s+[\w']+)?\s*$", between)
            kind = re.match(r"\s*->\s*(.*)", between[: clause.start()] if clause else between, re.S)
            self.result = kind[1].strip() if kind else self.result
            end = closed(text, brace) if text[brace : brace + 1] == "{" else brace + 1
            if not clause:
                break
            self.contract[clause[1]].append(text[brace + 1 : end - 1].strip())
        if re.search(r"\b(requires|ensures|decreases|where|ghost|proof)\b", self.result + between):
            complain(f"{file}: {self.name}: a head that the checks do not read")
        self.body, self.start, self.end = text[brace:end], head.start(), end

    @staticmethod
    def parameter(word):
        if re.fullmatch(r"(&\s*('\w+\s+)?)?(mut\s+)?self", word):
            return "self", word
        name, _, kind = word.partition(":")
        return re.sub(r"^\s*mut\s+", "", name).strip(), kind.strip()

    def converts(self, text, how, of, to):
        """The function of a conversion: in a library it is public, and its promise is what the impl says that it gives, as an equation."""
        if self.crate not in libraries():
            return
        gives = re.search(r"\bghost\s+(?:try_)?from_gives\s*=\s*\{\s*λ\s+([\w']+)\s+([\w']+)\.(.*?)\}\s*;", text, re.S)
        if not gives or gives[1] == gives[2]:
            complain(f"{self.file}: {how}<{of}> for {to}: nothing says what it gives")
            return
        said = re.sub(rf"(?<![\w'.]){re.escape(gives[2])}(?![\w'])", "result", gives[3]).strip()
        self.public, self.name = True, f"{to}::{self.bare}({of})"
        self.contract["ensures"].append(said)

    @property
    def path(self):
        return f"{self.crate}::{self.name}"


HEAD = re.compile(r'\b(?P<pub>pub(?:\s*\([^)]*\))?)?\s*(?P<how>(?:\b(?:const|unsafe|async|extern\s*(?:"C")?)\s+)*)\bfn\s+(?P<name>\w+)\s*')


IMPL = r"impl\b\s*(?:<[^>]*>)?\s*(\w+)"
CONVERSION = re.compile(r"impl\s+(From|TryFrom)<([\w<>]+)>\s+for\s+(\w+)")  # a public function, `B::from(A)`
MODEL = re.compile(r"impl\b\s*(?:<[^>]*>)?\s*Model\s+for\s+\w+(?:<[^>]*>)?")  # what a type is read as: it has no function that runs


def sources(crate):
    """The files of a crate's code."""
    return sorted(source.relative_to(ROOT).as_posix() for source in (ROOT / "crates" / crate / "src").rglob("*.rt"))


def functions(crate):
    """Every function of a crate's sources, and a complaint where there is something that the checks do not read."""
    found = []
    for file in sources(crate):
        text = rattle(file)
        for word in re.findall(r"\btrait\s+\w+|\bimpl\b[^{;]*\bfor\b[^{;]*|\bmacro_rules\b|\binclude\s*!|#\s*\[\s*path\b", text):
            if not CONVERSION.fullmatch(word.strip()) and not MODEL.fullmatch(word.strip()):
                complain(f"{file}: {word.strip()}: the checks do not read such a thing")
        types = [(m.start(), closed(text, m.end() - 1), m[0]) for m in re.finditer(r"\bimpl\b\s*(?:<[^>]*>)?\s*\w+[^{;]*\{", text)]
        for head in HEAD.finditer(text):
            function = Function(crate, file, text, head)
            for start, end, name in types:
                if start < function.start < end:
                    conversion = CONVERSION.fullmatch(name[:-1].strip())
                    if conversion:
                        function.converts(text[start:end], *conversion.groups())
                    else:
                        function.name = f"{re.match(IMPL, name)[1]}::{function.bare}"
            found.append(function)
    return found


def libraries():
    return [crate for crate in crates() if (ROOT / "crates" / crate / "src/lib.rt").is_file()]


# ---- terms of antt

NAME = r"[^\s(){}.;,@\"«»]+"


def tree(text):
    """A term as nested lists: names, what stands in brackets, and projections, each with what it is of, as ['h', '.new']."""
    stack, text = [[]], text.replace("«", "").replace("»", "")
    for found in re.finditer(rf"\.?{NAME}|[(){{}}]|[.;,@]", text):
        word = found.group()
        if word in "({":
            stack.append([] if word == "(" else ["{}"])
        elif word in ")}" and len(stack) > 1:
            inner = stack.pop()
            stack[-1].append(inner[0] if len(inner) == 1 and inner != ["{}"] else inner)
        elif word[0] == "." and len(word) > 1 and stack[-1] and re.fullmatch(r"[^\s({.;,@]", text[found.start() - 1]):
            stack[-1][-1] = [stack[-1][-1], word]
        else:
            stack[-1].append(word)
    return stack[0]


def split(term, sign, opened=True):
    """Split at a sign at the top; a part that is all in brackets is opened."""
    parts = [[]]
    for word in term:
        if word == sign:
            parts.append([])
        else:
            parts[-1].append(word)
    return [part[0] if opened and len(part) == 1 and isinstance(part[0], list) else part for part in parts]


def words(term):
    return [term] if isinstance(term, str) else [word for part in term for word in words(part)]


USE = re.compile(rf"\buse\s+(?:package\s*\.)?\s*((?:{NAME})(?:\.(?:{NAME}))*)(?:\.\{{([^}}]*)\}}|(\.\*)|\s+as\s+({NAME}))?")


# the kit's libraries, which know nothing of this repository: antt's own, and behind Rattle std and what crates.txt names beside our crates
KIT = ("mathlib", "lib", "native", "denote", "borrow", "Prim")


@lru_cache(None)
def kit_crates():
    ours = dependencies()
    return {"std", *(name for used in ours.values() for name in used)} - ours.keys()


def of_kit(path):
    head, _, rest = path.partition(".")
    return head in KIT or head == "Rattle" and rest.partition(".")[0] in kit_crates()


def placed(path):
    """The file that a path of the repository leads to, and what it names in the file; a path that leads to none stays."""
    inside = re.fullmatch(r"Rattle\.(\w+)\.(specs|proofs)\.(.+)", path)
    parts = inside[3].split(".") if inside else []
    for last in range(len(parts), 0, -1):
        file = f"crates/{inside[1]}/{inside[2]}/{'/'.join(parts[:last])}.antt"
        if (ROOT / file).is_file():
            return file, ".".join(parts[last:])
    return path, ""


def home(path):
    """`crate: Module` of a path of the repository such as Rattle.crate.specs.Module, else the path."""
    inside = re.fullmatch(r"Rattle\.(\w+)\.(?:specs|proofs)\.(.+)", path)
    return f"{inside[1]}: {inside[2]}" if inside and not of_kit(path) else path


def imported(text):
    """Each name that the `use` lines of a text bring, with where it is from: 'steps: Promises.Steps'."""
    names = {}
    for use in USE.finditer(text):
        for item in re.split(r"\s*,\s*", (use[2] or "").strip()):
            old, _, new = item.partition(" as ")
            if old.strip():
                names[(new or old).strip()] = f"{home(use[1])}.{old.strip()}"
    return names


# ---- declarations of antt

def declarations(path):
    """The public declarations of a file that have a signature, with the words of it: not a record's fields."""
    found, blocks = {}, []
    lines = antt(path).split("\n")
    for n, line in enumerate(lines):
        indent = len(line) - len(line.lstrip())
        if not line.strip():
            continue
        while blocks and blocks[-1][0] >= indent:
            blocks.pop()
        block = re.match(r"\s*(?:(?:pattern|unfoldable|abbrev|pub)\s+)*(record|data|module|mutual|where)\b", line)
        head = re.match(rf"\s*(?:(?:pattern|unfoldable|abbrev)\s+)*pub\s+(?:(?:unfoldable|abbrev|record|data)\s+)*({NAME})(?=\s|$)", line)
        if head and head[1] not in ("use", "mod", "axiom", "ruleset") and all(kind in ("module", "mutual") for _, kind in blocks):
            rest = [line]
            for after in lines[n + 1 :]:
                if after.strip() and len(after) - len(after.lstrip()) <= indent:
                    break
                rest.append(after)
            statement = re.split(r"\bwhere\b|\bunfolding\b", "\n".join(rest))[0] if block and block[1] != "module" else "\n".join(rest)
            signature = tree(statement[head.end() :])
            if ":" in signature:
                found[head[1]] = signature[signature.index(":") + 1 :]
        if block:
            blocks.append((indent, block[1]))
    return found


def declared(name):
    """The files of a listed crate that declare `crate: Module.name`, each with the statement."""
    crate, _, path = name.partition(": ")
    module, _, last = path.rpartition(".")
    if crate not in crates():
        return []
    files = [f"crates/{crate}/{part}/{module.replace('.', '/')}.antt" for part in ("proofs", "specs")]
    return [(file, known[last]) for file in files for known in [declarations(file)] if last in known]


# ---- tables of the documents

THEOREM = re.compile(r"`(\w+: [\w.]+\.[^`\s]+)`")


def tables(doc):
    """Each row of each table: the heading above it, the heads of its columns, and the cells."""
    heading, heads = "", None
    for line in read(doc).split("\n"):
        if line.startswith("#"):
            heading = line.lstrip("#").strip()
        if not line.startswith("|"):
            heads = None
            continue
        cells = [cell.strip() for cell in line.strip().strip("|").split("|")]
        if heads is None:
            heads = cells
        elif not all(re.fullmatch(r":?-+:?", cell) for cell in cells):
            yield heading, heads, cells
