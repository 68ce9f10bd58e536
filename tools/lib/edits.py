"""The pairs of the must-fail edits: how they are read, which function each changes, and what a check's report says of it."""
import functools
import hashlib
import os
import re

from basics import TOP

# Comments, texts and characters of a source: no brace in them counts.
UNREAD = re.compile(
    r"""//[^\n]*|/\*.*?\*/|\br(?P<hashes>#*)".*?"(?P=hashes)|"(?:\\.|[^"\\])*"|'(?:\\[^\n']+|\\'|[^'\\\n])'""", re.S)

# The head of a block that names functions: an impl, a trait or a module.
BLOCK = re.compile(r"^[ \t]*(?:pub(?:\([^)]*\))?\s+)?(?:unsafe\s+)?(impl|trait|mod)\b([^{};]*)\{", re.M)

BRACE = re.compile(r"[{}]")

# A clause before a function's body.
CLAUSE = re.compile(r"\b(?:requires|ensures|ghost|decreases)\b")

# A line of a report that has a place in a file.
TOLD = re.compile(r"(?P<note>note: )?(?:\./)?(?P<path>[^\s:]+):(?P<row>\d+):\d+: (?P<said>.*)")

# The prover misses a name that the edit took away, or a proof cites one that misses it.
NAMES = re.compile(
    r"has no field|is not in scope|has no `|was not admitted|is no name|has no constructor|names no|\(nearest: |: record `[^`]*`$")

# What is said of a function in which nothing else is wrong.
NAMED = "names what the edit took away"

# The edited text itself is not read.
UNREADABLE = re.compile(r"is not in scope|has no field|is no name|operand is missing|expected the end|cannot continue")

# The kept work of a library is of another build.
STALE = re.compile(r"module .Rattle-(\w+)-.*Run the lower steps again")


class Pair:
    """One change of a must-fail file, and the function that it changes, if it changes the body of one."""

    def __init__(self, crate, file, number, path, old, new):
        self.crate, self.file, self.number, self.path, self.old, self.new = crate, file, number, path, old, new
        self.is_single = False
        self.key = hashlib.sha256(repr((crate, path, old, new)).encode()).hexdigest()[:32]
        self.fault, self.source, self.at, self.function, self.users = self.find_fault(), "", 0, None, []
        if self.fault is None:
            with open(f"{TOP}/crates/{crate}/{path}", encoding="utf-8") as text:
                self.source = text.read()
            self.at = self.source.find(old)
            if self.source.count(old) == 1:
                self.function = function_of(crate, path, self.source, self.at, old, new)
                self.users = [] if self.function else users_of(crate, path, self.source, self.at)
            else:
                self.fault = f"its old text is in {path} {self.source.count(old)} times, so it cannot be tried by itself"

    def find_fault(self):
        """Why the pair cannot be applied, as `rt` has it."""
        if not self.path or not self.old:
            return "its new text stands before a file or an old text"
        if os.path.normpath(self.path) != self.path or not self.path.startswith(("src/", "specs/", "proofs/")):
            return f"{self.path} is no file under src/, specs/ or proofs/"
        return None if os.path.isfile(f"{TOP}/crates/{self.crate}/{self.path}") else f"there is no file {self.path}"

    def __str__(self):
        return f"{self.crate} {self.file} {self.number}, {self.path} `{self.new.strip()[:60]}`"


def pairs_of(crate, file):
    """The pairs of a file under must-fail/, as `rt` reads them: a text is one line, and other lines count for nothing."""
    found, path, old = [], "", None
    with open(f"{TOP}/crates/{crate}/must-fail/{file}", encoding="utf-8", errors="replace") as lines:
        for line in lines.read().split("\n"):
            if line.startswith("file: "):
                path = line[len("file: "):].strip()
            elif line.startswith("old: "):
                old = line[len("old: "):]
            elif line.startswith("new:"):
                found.append(Pair(crate, file, len(found) + 1, path, old, line[len("new:"):].removeprefix(" ")))
                old = None
    for it in found:
        it.is_single = len(found) == 1
    return found


class Function:
    """A function in a source: where it stands, and the path by which `rattle check --only` finds it."""

    def __init__(self, crate, path, source, span, name, heads):
        self.rows = source.count("\n", 0, span[0]) + 1, source.count("\n", 0, span[1]) + 1
        module = re.sub(r"^src/|(?:/mod|\blib|\bmain)?\.rt$", "", path).strip("/").replace("/", "::")
        module = "::".join(filter(None, [crate, module, *(head.split()[0] for kind, head in heads if kind == "mod")]))
        self.name, self.module, self.place, self.identity = name, module, None, (crate, path, span[0])
        self.is_test = re.search(r"#\[test\]\s*$", source[:span[0]].rpartition("}")[2]) is not None or "tests" in module.split("::")
        last = [(kind, head) for kind, head in heads if kind != "mod"][-1:]
        self.guess = f"{module}::{name}"
        for kind, head in last:
            self.place = name_of_block(kind, head)
            self.guess = f"{self.place[0]}::{name}"

    def chosen_from(self, names):
        """Of these names of functions the one that is this function's, or None."""
        if self.place:
            fit = [it for it in names if self.place[1] in it.split("::")[-2] and self.place[2] in it.split("::")[-2]]
        else:
            fit = [it for it in names if it == self.guess]
        return fit[0] if len(fit) == 1 else None


def capital(text):
    """The words of a type in one, as a check prints them: `Vec<u8>` is VecU8, `Lent<'a>` is Lent."""
    words = re.findall(r"\w+", re.sub(r"'\w+|\b\w+::", "", text))
    return "".join(word[:1].upper() + word[1:] for word in words)


def name_of_block(kind, head):
    """The name under which a check prints the functions of an impl or a trait, its type and its trait."""
    if kind == "trait":
        word = re.match(r"\s*(\w+)", head)[1]
        return word, word, ""
    depth, parameters = 0, ""
    if head.lstrip().startswith("<"):
        head = head.lstrip()
        for at, letter in enumerate(head):
            depth += (letter == "<") - (letter == ">" and head[at - 1] != "-")
            if not depth:
                parameters, head = head[1:at], head[at + 1:]
                break
    head = re.split(r"\bwhere\b", head)[0]
    generic = re.findall(r"(?:^|,)\s*(\w+)(?=\s*[:,]|\s*$)", re.sub(r"<[^<>]*>", "", parameters))
    of, is_trait, target = head.rpartition(" for ")
    if not is_trait:
        word = re.search(r"\w+", re.sub(r"<.*", "", target).rpartition("::")[2])[0]
        return word, word, ""
    plain = re.sub(r"<.*", "", target).strip().rpartition("::")[2]
    plain = "Any" if plain in generic else capital(plain)
    arguments = re.search(r"<.*", target)
    given = arguments[0] if arguments and not re.search(r"\b(" + "|".join([*generic, "_"]) + r")\b", arguments[0]) else ""
    return plain + capital(given) + capital(of), plain, capital(re.sub(r"<.*", "", of))


def blanked(source):
    return UNREAD.sub(lambda it: re.sub(r"[^\n]", " ", it[0]), source)


def end_of(text, at):
    """The place after the brace that closes the one at this place."""
    depth = 0
    for mark in BRACE.finditer(text, at):
        depth += 1 if mark[0] == "{" else -1
        if not depth:
            return mark.end()
    return len(text)


def body_of(text, at):
    """The body of the function whose name ends at this place, or None."""
    depth, last = 0, at
    while at < len(text):
        letter = text[at]
        depth += (letter in "([") - (letter in ")]")
        if letter == ";" and not depth:
            return None
        if letter == "{" and not depth:
            end = end_of(text, at)
            if not CLAUSE.search(text[last:at]):
                return at, end
            at = last = end
            continue
        at += 1
    return None


@functools.lru_cache(maxsize=None)
def functions_in(crate, path, source):
    """The functions of a source that have a body, but for those in macros."""
    text, found = blanked(source), []
    macros = [(it.start(), end_of(text, it.end() - 1)) for it in re.finditer(r"\bmacro_rules!\s*\w+\s*\{", text)]
    blocks = [(it.start(), end_of(text, it.end() - 1), it[1], it[2]) for it in BLOCK.finditer(text)]
    for it in re.finditer(r"\bfn\s+(\w+)", text):
        body = body_of(text, it.end())
        if body and not any(begin <= it.start() < end for begin, end in macros):
            heads = [(kind, head) for begin, end, kind, head in blocks if begin < it.start() < end]
            found.append((it.start(), *body, Function(crate, path, source, (it.start(), body[1]), it[1], heads)))
    return found


def function_of(crate, path, source, at, old, new):
    """The function whose body the pair changes, if it changes nothing else that another function can rest on."""
    if not path.startswith("src/"):
        return None
    end, more = at + len(old), len(new) - len(old)
    around = [it for it in functions_in(crate, path, source) if it[0] < end and at < it[2]]
    if not around:
        return None
    start, begin, last, function = around[-1]
    edited = source[:at] + new + source[end:]
    after = [it for it in functions_in(crate, path, edited) if it[3].guess == function.guess]
    if len(after) != 1:
        return None
    if begin < at and end < last and not re.search(r"\bfn\b", new):
        return function if after[0][:3] == (start, begin, last + more) else None
    # A body for this function, and the rest for another one; or a parameter that may change, and a longer body.
    is_split = re.search(r"\}\s*(?:pub(?:\([^)]*\))? )?fn \w+", new)
    return after[0][3] if is_split or "{" in old and new.replace("(mut ", "(", 1).startswith(old) else None


def users_of(crate, path, source, at):
    """The functions that name the constant that stands at this place, which are not to be more than six."""
    named = re.search(r"\b(?:const|static) (\w+):", source[source.rfind("\n", 0, at) + 1:source.find("\n", at)])
    found = []
    for folder, _, files in os.walk(f"{TOP}/crates/{crate}/src") if named else ():
        for file in sorted(it for it in files if it.endswith(".rt")):
            inside = os.path.relpath(f"{folder}/{file}", f"{TOP}/crates/{crate}")
            with open(f"{folder}/{file}", encoding="utf-8") as text:
                text = text.read()
            if named[1] in text:
                plain = blanked(text)
                found += [it[3] for it in functions_in(crate, inside, text) if re.search(rf"\b{named[1]}\b", plain[it[1]:it[2]])]
    return [it for it in found if not it.is_test][:6]


class Report:
    """What a check printed."""

    def __init__(self, text, status):
        self.lines, self.status = text.rstrip("\n").split("\n"), status
        last = [it for it in self.lines if re.match(r"(logic|only)=", it)]
        self.last = last[-1] if last else ""
        self.functions = dict(re.findall(r"^fn (\S+): (.*)$", text, re.M))
        told = [it for it in map(TOLD.match, self.lines) if it]
        self.told = [it for it in told if it["said"].startswith("error") or it["note"] and "not proved" in it["said"]]

    def unknown(self):
        """The path for which the check found no function or several, and the names of those."""
        for line in self.lines:
            missing = re.match(r"rattle: error: `[^`]*` has no function `([^`]*)`", line)
            several = re.match(r"rattle: error: several functions are named `([^`]*)`", line)
            if missing or several:
                return (missing or several)[1], re.findall(r"`([^`]*)`", line)[1:] if several else []
        return None

    def unread(self, changed):
        """The line that says that an edited text cannot be read, if there is one."""
        for it in self.told:
            if it["note"] or it["path"] not in changed and not it["path"].startswith(("src/", "specs/")):
                continue
            said = re.match(r"error: (?:(`[^`]*`): )?(.*)", it["said"])
            if said and (not said[1] or UNREADABLE.search(re.sub(r"`[^`]*`", "", said[2]))):
                return it[0]
        return None

    def is_of_names(self, line):
        return line["path"].startswith("proofs/") and bool(NAMES.search(line["said"]))

    def no_verdict(self):
        """Why the check has no verdict, and whether that is the edited text's own fault; None if it has one."""
        if any(map(STALE.search, self.lines)):
            return "the kept work of a library could not be used", False
        if self.last and self.status in (0, 1):
            return None
        first = [it for it in self.lines if re.search(r"\berror\b", it)] or self.lines[-1:]
        is_own = self.status in (1, 2) and not self.lines[-1].startswith("rattle: no verdict")
        return f"{'it does not compile' if is_own else 'no verdict'}: {first[0][:200]}", is_own

    def names_of(self, function, path):
        """The names of a function and of its closures."""
        names = []
        for it in self.functions:
            plain = re.sub(r"\bfn::", "", it)
            if re.search(rf"(?:^|::){re.escape(path)}(?:::|$)", plain) and f"::{function.name}" in plain:
                names.append(it)
        return names

    def of_function(self, function, path, source):
        """Whether the function is refused: True with the open goal, False with why not, or None with why that is not known."""
        names = self.names_of(function, path)
        folders = tuple("proofs/" + re.sub(r"\bfn::", "", it).partition("::")[2].replace("::", "/") + "/" for it in names)
        first, last = function.rows
        own = [it for it in self.told if it["path"] == source and first <= int(it["row"]) <= last or it["path"].startswith(folders or "\0")]
        goals = [it for it in own if not self.is_of_names(it)]
        said = [self.functions[it] for it in names]
        if goals:
            return True, goals[0][0].removeprefix("note: ")[:200]
        for it in said:
            if it.startswith("no proof") and "did not prove" in it:
                return True, it[:200]
        if own:
            return False, f"{NAMED}: {own[0][0][:200]}"
        if said and all(it == "proved" for it in said):
            return False, "its function is still proved"
        return None, f"nothing is said of {path}" if not said else next(it for it in said if it != "proved")[:200]

    def of_crate(self, changed):
        """The same for a check of the whole crate."""
        if self.status == 0:
            return False, "the crate is still proved"
        goals = [it for it in self.told if not self.is_of_names(it)]
        if goals:
            return True, goals[0][0].removeprefix("note: ")[:200]
        if self.told:
            return False, f"{NAMED}: {self.told[0][0][:200]}"
        for name, said in self.functions.items():
            if said.startswith("no proof") and "did not prove" in said:
                return True, f"{name}: {said[:200]}"
        return None, "the crate is not proved, and no goal is named"
