"""What the text of each declaration uses: every name, found as antt finds it, by binders, by the file and by its `use` lines. A name or a form that
is not known here is a complaint. One form, which no source has, is known to be read wrongly: a name bound by × that is used behind an arrow at the
same depth."""
import re
from functools import lru_cache

from reading import KIT, NAME, USE, antt, closed, complain, of_kit, parted, placed, rattle

SYNTAX = set("→ × : = ↦ | _ @ . λ Type elim let in as unfold".split())
PRELUDE = {"⊥", "Unit"}  # what is used of that which Prim opens in every file
MARKS = {"pub", "unfoldable", "abbrev", "pattern", "axiom"}
PLACE = "◌"  # where an operator's name has its arguments
NUMERAL = re.compile(r"0[xob]\w+|\d[\d_]*")

# ---- words and lines

PART = rf"(?:«[^»]*»|{NAME})"
WORD = re.compile(rf"\.?{PART}(?:\.{PART})*|[(){{}};,@.]")
BRACKETS = {"(": ")", "{": "}", "[": "]"}


class Group(list):
    """What stands in brackets, and the bracket that opens it."""

    def __init__(self, sign):
        super().__init__()
        self.sign = sign


def nested(text, where):
    stack = [Group("")]
    for word in WORD.findall(text):
        word = re.sub("[«»]", "", word)
        if word in BRACKETS:
            stack.append(Group(word))
        elif word in BRACKETS.values():
            inner = stack.pop()
            if not stack or BRACKETS[inner.sign] != word:
                complain(f"{where}: a {word} that closes nothing")
                return Group("")
            stack[-1].append(inner)
        else:
            stack[-1].append(word)
    if len(stack) > 1:
        complain(f"{where}: a {stack[-1].sign} that nothing closes")
    return stack[0]


def blocks(text):
    """The lines at the lowest column, each with those that go on from it: those further right, and those behind an open bracket."""
    found, lines, depth = [], [line for line in text.split("\n") if line.strip()], 0
    column = min((len(line) - len(line.lstrip()) for line in lines), default=0)
    for line in lines:
        if depth == 0 and line[column].strip():
            found.append(line)
        else:
            found[-1] += "\n" + line
        depth += len(re.findall(r"[({]", line)) - len(re.findall(r"[)}]", line))
    return found


def split(words, sign):
    """Parts of a list of words between signs, without those that are empty."""
    parts = [[]]
    for word in words:
        parts.append([]) if word == sign else parts[-1].append(word)
    return [part for part in parts if part]


def before(words, sign):
    return words[: words.index(sign)] if sign in words else words


def after(words, sign):
    return words[words.index(sign) + 1 :] if sign in words else []


def flat(words):
    """The words in a pattern: of {x = y} the y."""
    for word in words:
        if isinstance(word, Group):
            yield from flat(word[2:] if word.sign == "{" and word[1:2] == ["="] else word)
        elif word not in (",", ";"):
            yield word


def spelled(names):
    """Names as they are written: an operator also by its parts."""
    return {part for name in names for part in (name, *(name.split(PLACE) if PLACE in name else ())) if part}


# ---- the text of a declaration

class Uses:
    """What one declaration uses: names of the repository, as (file, declaration), and labels of fields."""

    def __init__(self, file, name):
        self.file, self.where = file, f"{file.path}: {name}"
        self.names, self.labels = set(), set()

    def binder(self, group, bound):
        """What is bound after a group such as (x y : A); None if it is no binder."""
        names = before(group, ":")
        if len(names) == len(group) or any(isinstance(word, Group) or word in ("let", "λ") for word in names):
            return None
        self.term(after(group, ":"), bound)
        return bound | spelled(names)

    def head(self, words):
        """Parameters and levels, and the type after them; gives what the parameters bind."""
        bound = self.bind(before(words, ":"), frozenset())
        self.term(after(words, ":"), bound)
        return bound

    def bind(self, words, bound):
        """What is bound after parameters: names, tuples of names, and groups with a type."""
        for word in words:
            typed = self.binder(word, bound) if isinstance(word, Group) else None
            bound = bound | spelled(flat([word])) if typed is None else typed
            if word == "record":
                complain(f"{self.where}: a record taken apart: a form that this check does not read")
        return bound

    def term(self, words, outer):
        bound, at = outer, 0
        while at < len(words):
            word, at = words[at], at + 1
            if word in (",", ";"):
                bound = outer
            elif word == "λ":
                bound, at = self.function(words, at, bound)
            elif word == "let":
                bound, at = self.let(words, at, bound)
            elif word == "record" and at < len(words) and isinstance(words[at], Group):
                self.literal(words[at], bound)
                at += 1
            elif isinstance(word, Group):
                bound = self.group(word, bound)
            else:
                self.name(word, bound)

    def function(self, words, at, bound):
        binders = before(words[at:], ".")
        if at + len(binders) == len(words):
            complain(f"{self.where}: a λ whose binders do not end")
        return self.bind(binders, bound), at + len(binders) + 1

    def let(self, words, at, bound):
        depth, end = 1, at
        while end < len(words) and depth:
            depth += (words[end] in ("let", "unfold")) - (words[end] == "in")
            end += 1
        pattern = before(words[at:end], "=")
        if depth or len(pattern) == end - at:
            complain(f"{self.where}: a let that this check does not read")
        self.term(after(pattern, ":"), bound)
        self.term(after(words[at : end - 1], "="), bound)
        return self.bind(before(pattern, ":"), bound), end

    def literal(self, group, bound):
        for part in split(group, ";"):
            if part[1:2] != ["="]:
                complain(f"{self.where}: record {{ {part[0]} ..: a form that this check does not read")
            self.labels.add(part[0])
            self.term(part[2:], bound)

    def group(self, group, bound):
        """The names in a group; gives what is bound after it."""
        if group.sign == "[":
            for case in split(group, "|"):
                self.case(case, "↦", bound)
        elif group.sign == "{" and group[1:2] == ["="]:
            self.term(group[2:], bound)
        else:
            typed = self.binder(group, bound)
            if typed is not None:
                return typed
            self.term(group, bound)
        return bound

    def case(self, words, sign, bound):
        """A pattern and, behind the sign, a term."""
        if sign not in words:
            complain(f"{self.where}: {' '.join(flat(words))}: a form that this check does not read")
        self.term(after(words, sign), bound | self.pattern(before(words, sign)))

    def pattern(self, words):
        """What a pattern binds: all but constructors. A name of the kit may be one or not: neither is listed."""
        bound = set()
        for word in flat(words):
            keys = [] if word in SYNTAX or NUMERAL.fullmatch(word) else self.file.find(word)
            if "." not in word and (keys is None or not all(constructor for _, _, constructor in keys)):
                bound.add(word)
            else:
                self.name(word, bound)
        return bound

    def clause(self, words, name):
        left = before(words, "=")
        patterns = [word for word in left if isinstance(word, Group) or word not in spelled([name])]
        if left[:1] == ["unfolding"]:
            self.term(words[1:], frozenset())
        elif len(patterns) == len(left):
            complain(f"{self.where}: {' '.join(flat(words))}: a line that this check does not read")
        else:
            self.case([*patterns, *words[len(left) :]], "=", frozenset())

    def name(self, word, bound):
        head, *rest = word.split(".")
        if word in SYNTAX or NUMERAL.fullmatch(word):
            return
        if not head or head in bound:
            self.labels.update(rest)
            return
        keys = self.file.find(word)
        if keys is None and rest:
            keys = self.file.own(head)
            self.labels.update(rest)
        if keys is None:
            complain(f"{self.where}: {word}: a name that this check cannot find")
        self.names.update(key[:2] for key in keys or ())


# ---- a file of antt

class Declaration:
    """The words of a head, of clauses, and of fields or constructors."""

    def __init__(self, kind, head):
        self.kind, self.head, self.clauses, self.members = kind, head, [], []


class File:
    """What the `use` lines of a file bring, and what it declares, in order. A name leads to keys, each (file, declaration, constructor or ""): to
    none if it is the kit's, to several if it is a part of several operators; None if it is not found."""

    def __init__(self, path):
        self.path, self.items, self.modules, self.passed = path, {}, {}, {}
        self.declared, self.constructors, self.operators = {}, {}, {}
        last = None
        for block in blocks(antt(path)):
            words = nested(block, path)
            marks = [word for word in words[:4] if isinstance(word, str) and word in MARKS]
            last = self.block(words[len(marks) :], block, "pub" in marks, last) if words else None
        for name in (*self.declared, *self.constructors, *self.items):
            for part in spelled([name]) - {name}:
                self.operators.setdefault(part, []).append(name)

    def block(self, words, text, public, last):
        """One block of the file; gives the declaration to which the clauses after it belong."""
        if words[0] == "use":
            self.use(" ".join(re.sub("[«»]", "", text).split()), public)
        elif words[0] in ("record", "data"):
            return self.typed(words, text)
        elif words[0] in ("module", "mutual", "open", "ruleset"):
            return None  # what is declared in there cannot be found, and is a complaint where it is used
        elif words[1:2] == [":"] or words[2:3] == [":"] and isinstance(words[1], Group):
            last = self.declared[words[0]] = Declaration("definition", words[1:])
        elif words[0] not in ("mod", "infix", "infixl", "infixr"):
            if last is None:
                complain(f"{self.path}: {words[0]}: a line that this check does not read")
            else:
                last.clauses.append(words)
        return last

    def typed(self, words, text):
        kind, name = words[:2]
        found = self.declared[name] = Declaration(kind, before(words, "where")[2:])
        for part in blocks("".join(re.split(r"(?<!\S)where(?!\S)", text, maxsplit=1)[1:])):
            member = nested(re.sub(r"^\s*pub\s", "", part), self.path)
            names = before(member, ":")
            if len(names) == len(member) or not all(isinstance(word, str) for word in names):
                complain(f"{self.path}: {name}: {' '.join(flat(member))}: a line that this check does not read")
            found.members.append((names, after(member, ":")))
            if kind == "data":
                self.constructors.update(dict.fromkeys(names, name))
        return found

    def use(self, line, public):
        use = USE.fullmatch(line, line.index("use"))
        if not use or use[3] or use[1].endswith(".*"):
            complain(f"{self.path}: {line}: a line that this check does not read")
        elif use[2] is None:
            self.modules[use[4] or use[1].rpartition(".")[2]] = use[1]
        else:
            for item in filter(None, re.split(r"\s*,\s*", use[2].strip())):
                old, _, new = item.partition(" as ")
                name = (new or old.rpartition(".")[2]).strip()
                self.items[name] = f"{use[1]}.{old.strip()}"
                if public:
                    self.passed[name] = self.items[name]

    def own(self, name):
        """The keys of a name without dots."""
        if name in self.declared or name in self.constructors:
            return self.given(name)
        if name in self.items:
            return self.follow(self.items[name])
        parts = self.operators.get(name) or self.operators.get(name.strip(PLACE))
        if parts:
            return [key for whole in parts for key in self.own(whole) or ()]
        return [] if name in PRELUDE else None

    def find(self, word):
        head = word.partition(".")[0]
        if head == word:
            return self.own(word)
        return self.follow(word) if head in (*self.modules, *KIT, "package", "Rattle") else None

    def follow(self, path):
        """The keys of a path: a whole one, or one behind a module that the file uses."""
        head, _, rest = path.partition(".")
        path = rest if head == "package" else f"{self.modules[head]}.{rest}" if head in self.modules else path
        if of_kit(path):
            return []
        code = re.fullmatch(r"Rattle\.(\w+)\.specs\.declared\.(.+)", path)
        if code:
            return of_code(code[1], code[2].split("."))
        file, name = placed(path)
        return antt_file(file).given(name) if name else None

    def given(self, name):
        """The keys of a name for other files."""
        if name in self.declared:
            return [(self.path, name, "")]
        if name in self.constructors:
            return [(self.path, self.constructors[name], name)]
        return self.follow(self.passed[name]) if name in self.passed else None

    def uses(self, name, whole=True):
        """What a declaration uses, or what its head alone does."""
        found, said = Uses(self, name), self.declared[name]
        bound = found.head(said.head)
        for names, words in said.members if whole else ():
            found.term(words, bound)
            bound = bound | spelled(names) if said.kind == "record" else bound
        for words in said.clauses if whole else ():
            found.clause(words, name)
        return found

    def members(self, name):
        """The fields of a record, the constructors of a type."""
        return [label for names, _ in self.declared[name].members for label in names]


@lru_cache(None)
def antt_file(path):
    return File(path)


# ---- types of code, which antt has as generated ones

SCALARS = set("u8 u16 u32 u64 usize i8 i16 i32 i64 isize bool".split())


class Code:
    """The structs and enums of a file of Rattle: of each its fields or variants, with the words of their types."""

    def __init__(self, path):
        self.path, self.declared, text = path, {}, rattle(path)
        for head in re.finditer(r"\b(struct|enum)\s+(\w+)\s*(?:<[^>]*>)?\s*([({])", text):
            parts = parted(text[head.end() : closed(text, head.end() - 1) - 1], ",")
            self.declared[head[2]] = dict(self.part(n, part, head[1] + head[3]) for n, part in enumerate(parts))

    @staticmethod
    def part(place, text, form):
        text = re.sub(r"^pub\s+", "", text)
        name, kind = {"struct(": (str(place), text), "struct{": text.partition(":")[::2], "enum{": re.match(r"(\w*)(.*)", text, re.S).groups()}[form]
        return name.strip(), re.findall(r"[A-Za-z_][\w:]*", re.sub(r"'\w+|\b\w+\s*:(?!:)", "", kind))

    def uses(self, name):
        names = set()
        for part, types in self.declared[name].items():
            for word in types:
                if word in self.declared:
                    names.add((self.path, word))
                elif word not in SCALARS:
                    complain(f"{self.path}: {name}: {part}: {word}: a type that this check cannot find")
        return names


@lru_cache(None)
def code_file(path):
    return Code(path)


def of_code(crate, parts):
    """The key of what antt calls declared.modules.Type.Type, or .TheVariants.Variant."""
    *modules, name, member = [part for part in ("", *parts) if part != "TheVariants"]
    file = f"crates/{crate}/src/{'/'.join(modules[1:]) or 'lib'}.rt"
    known = code_file(file).declared.get(name)
    if known is None or member not in (name, *known):
        return None
    return [(file, name, "" if member == name else member)]
