"""Reads the sources by tokens, comments left out: the declarations of specs/ and proofs/ with the names in each, and the functions of src/
with their clauses."""
import glob
import re

ANTT = re.compile(r'\s+|--[^\n]*|"(?:\\.|[^"\\])*"|«[^»]*»|[(){}.;,@]|[^\s(){}.;,@"«»]+')
RATTLE = re.compile(r"""\s+|//[^\n]*|b?"(?:\\.|[^"\\])*"|b'(?:\\.|[^'\\])'|'\w+|->|\w+|.""", re.S)
MARKS = ("pub", "unfoldable", "abbrev", "axiom")
CLAUSES = ("ghost", "requires", "ensures")
# the files of a function's own proof
OWN = ("Invariants", "Answers", "Proof")
# the libraries of the test programs, no part of the product
TEST_SUPPORT = {"fields", "notation", "answers", "list_calls", "column_calls", "sheet_calls"}
TEST_SUPPORT |= {"random_formulas", "random_sheets", "stepping", "random_calls"}


class Token(str):
    """A token's text; its column, whether it begins its line, and whether it touches the token before it."""


class Clause(list):
    """The antt tokens of a clause, and the word that it begins with: `ensures` of `ensures low { .. }`."""


def read(path):
    with open(path, encoding="utf-8") as file:
        return file.read()


def crates():
    """The crates of crates.txt, each with the libraries that it uses."""
    lines = [line.partition("#")[0].partition(":") for line in read("crates.txt").splitlines()]
    return {name.split()[0]: names.split() for name, _, names in lines if name.strip()}


def below_floor(kind, numbers):
    """The faults of numbers that lie below the least ones of tests/floors, or have none there; and of those there that are not told of."""
    least = {}
    for line in read("tests/floors").splitlines():
        if line.startswith(kind + " "):
            _, name, number = line.split()
            least[name] = int(number)
    faults = [f"tests/floors has no line '{kind} {name} {numbers[name]}'" for name in sorted(numbers) if name not in least]
    below = {name: numbers.get(name, 0) for name in sorted(least) if numbers.get(name, 0) < max(least[name], 1)}
    return faults + [f"{kind} {name}: {number}, below {least[name]} of tests/floors" for name, number in below.items()]


def block_end(text, at, opens, closes):
    """Where the block comment that begins at a place ends; comments nest."""
    depth = 0
    for mark in re.finditer(re.escape(opens) + "|" + re.escape(closes), text[at:]):
        depth += 1 if mark[0] == opens else -1
        if depth == 0:
            return at + mark.end()
    return len(text)


def antt(text, at=0):
    """The tokens from a place to the bracket that closes before them or to the end, and where they end."""
    tokens, touches, line, depth = [], False, text.rfind("\n", 0, at), 0
    begins = True
    while at < len(text):
        end = block_end(text, at, "{-", "-}") if text.startswith("{-", at) else ANTT.match(text, at).end()
        piece = text[at:end]
        if piece.isspace():
            if "\n" in piece:
                line, begins = at + piece.rindex("\n"), True
            touches = False
        elif piece.startswith(("{-", "--")):
            touches = False
        else:
            depth += (piece == "{") - (piece == "}")
            if depth < 0:
                break
            token = Token(piece)
            token.column, token.first, token.touches = at - line, begins, touches
            tokens.append(token)
            touches, begins = True, False
        at = end
    return tokens, at


def outer(tokens, *wanted):
    """The place of the first of the wanted tokens that stands in no bracket; the number of tokens when there is none."""
    depth = 0
    for i, token in enumerate(tokens):
        depth += (token in ("(", "{")) - (token in (")", "}"))
        if depth == 0 and token in wanted:
            return i
    return len(tokens)


def is_name(token):
    return token not in ("(", ")", "{", "}", ".", ";", ",", "@", ":", "=", "→", "λ") and token[0] != '"'


def leads_on(tokens, i):
    """Whether a dot stands at a place, tight between what is before it and a name."""
    return tokens[i : i + 1] == ["."] and all(t.touches for t in tokens[i : i + 2]) and any(map(is_name, tokens[i + 1 : i + 2]))


def paths(tokens):
    """The names, those joined by dots as one tuple; `(g x).field` gives g and x and no field, and so does `x .field`."""
    found, i = [], 0
    while i < len(tokens):
        if tokens[i] == "." and not tokens[i].touches:
            i += 1
        elif is_name(tokens[i]) or tokens[i] in (")", "}"):
            path = [tokens[i]]
            while leads_on(tokens, i + 1):
                path.append(tokens[i + 2])
                i += 2
            if is_name(path[0]):
                found.append(tuple(path))
        i += 1
    return found


def bound(tokens):
    """The names that are bound by `(a b : T)`, `{a b : T}` and `λ a b.`"""
    names, opened = set(), None
    for i, token in enumerate(tokens):
        if token in ("(", "{", "λ"):
            opened = i
        elif not is_name(token):
            if opened is not None and token == ("." if tokens[opened] == "λ" else ":"):
                names.update(tokens[opened + 1 : i])
            opened = None
    return names


def chunks(tokens):
    """The declarations of a block: each begins a line at the column of the first, which a closing bracket may do too."""
    found = []
    for token in tokens:
        if not found or (token.first and token.column <= tokens[0].column and token not in (")", "}")):
            found.append([])
        found[-1].append(token)
    return found


class Declaration:
    """A name that a module declares: its parameters and type, whether by `data` or `record`, its members, the paths that it names."""

    def __init__(self, module, name, public, parameters, type_tokens):
        self.module, self.name, self.public, self.parameters, self.type = module, name, public, parameters, type_tokens
        self.path, self.data, self.members, self.body, self.named = f"{module.path}.{name}", False, [], [], set()
        self.mention(parameters + type_tokens)

    def mention(self, tokens, without=()):
        hidden = bound(tokens).union(without)
        self.named.update(path for path in paths(tokens) if path[0] not in hidden)


class Module:
    """A file of specs/ or proofs/, or the `ghost use` lines of a file of src/: what is declared, and what the `use` lines bring."""

    def __init__(self, path, text=""):
        self.path, self.items, self.qualifiers, self.declared, self.owners = path, {}, {}, {}, {}
        self.read(antt(text)[0], [])

    def read(self, tokens, parameters):
        last = None
        for chunk in chunks(tokens):
            marks = next((i for i, t in enumerate(chunk) if t not in MARKS), len(chunk))
            public, chunk = "pub" in chunk[:marks], chunk[marks:]
            colon, equals, where = outer(chunk, ":"), outer(chunk, "="), outer(chunk, "where")
            if chunk[0] == "use":
                self.use(chunk[1:])
            elif chunk[0] == "module":
                self.read(chunk[where + 1 :], parameters + chunk[1:where])
            elif chunk[0] == "mutual":
                self.read(chunk[1:], parameters)
            elif chunk[0] == "ruleset":
                last = self.declare(chunk[1], public, parameters, [])
                last.mention(chunk[2:])
            elif chunk[0] in ("data", "record"):
                last = self.declare(chunk[1], public, parameters + chunk[2 : min(colon, where)], chunk[colon + 1 : where])
                last.data = True
                for member in chunks(chunk[where + 1 :]):
                    names = [t for t in member[: outer(member, ":")] if t not in MARKS]
                    last.members += names
                    last.mention(chunk[2:where] + member, names)
                    self.owners.update((name, last) for name in names)
            elif colon < equals and chunk[0] not in ("unfolding", "mod", "open"):
                for name in chunk[: outer(chunk, "{", ":")]:
                    last = self.declare(name, public, parameters, chunk[colon + 1 :])
            elif last and equals < len(chunk):
                owner = next((self.declared[t] for t in chunk[:equals] if t in self.declared), last)
                owner.body.append(chunk[equals + 1 :])
                owner.mention(chunk[equals + 1 :], [path[0] for path in paths(chunk[:equals]) if len(path) == 1])

    def declare(self, name, public, parameters, type_tokens):
        self.declared[name] = self.owners[name] = Declaration(self, name, public, parameters, type_tokens)
        return self.declared[name]

    def use(self, tokens):
        if "{" not in tokens:
            self.qualifiers[tokens[-1]] = ".".join(paths(tokens)[0])
            return
        brace = tokens.index("{")
        module, item = list(paths(tokens[:brace])[0]), []
        for token in tokens[brace + 1 :]:
            if token not in (",", "}"):
                item.append(token)
            elif item:
                end = item.index("as") if "as" in item else len(item)
                self.items[item[-1]] = ".".join(module + [t for t in item[:end] if t != "."])
                item = []


def is_own(rest):
    """Whether a path below proofs/ is of a function's own proof."""
    return len(rest) > 1 and rest[-1] in OWN


class Sources:
    """The modules of all crates, by their full paths. A function's own proof (of the files OWN, in a folder of proofs/) holds no term of a
    statement."""

    def __init__(self):
        self.modules = {}
        for path in sorted(glob.glob("crates/*/specs/**/*.antt", recursive=True) + glob.glob("crates/*/proofs/**/*.antt", recursive=True)):
            _, crate, part, *rest = path[: -len(".antt")].split("/")
            if part == "specs" or not is_own(rest):
                name = ".".join(["Rattle", crate, part, *rest])
                self.modules[name] = Module(name, read(path))

    def declarations(self, part):
        return [d for m in self.modules.values() if m.path.split(".")[2] == part for d in m.declared.values()]

    def find(self, module, path):
        """The declaration that a path names in a module, or None."""
        first, rest = path[0], path[1:]
        if first in module.owners:
            return module.owners[first]
        if rest:
            return self.at(module.qualifiers.get(first, first).split(".") + list(rest))
        if first in module.items:
            return self.at(module.items[first].split("."))
        operator = next((name for name in [*module.owners, *module.items] if "◌" in name and first in name.split("◌")), None)
        return self.find(module, (operator,)) if operator else None

    def at(self, path):
        for end in range(len(path) - 1, 0, -1):
            module = self.modules.get(".".join(path[:end]))
            if module:
                return module.owners.get(path[end]) or (self.at(module.items[path[end]].split(".")) if path[end] in module.items else None)
        return None

    def reached(self, roots):
        """The declarations that some roots reach by the names in them."""
        found, todo = set(), list(roots)
        while todo:
            declaration = todo.pop()
            if declaration and declaration not in found:
                found.add(declaration)
                todo += [self.find(declaration.module, path) for path in declaration.named]
        return found


class Function:
    """A function of src/: whether other crates may call it, its parameters with their types, whether it has a result, its clauses."""

    def __init__(self, name, is_open):
        self.name, self.open, self.parameters, self.gives = name, is_open, [], False
        self.clauses = {word: [] for word in CLAUSES}


def clause_word(last):
    """The word that a clause begins with, of the tokens before its bracket: `ensures`, `ensures low`, `ghost Value =`; else none."""
    for i in range(1, 6):
        if last[-i] in CLAUSES:
            return last[-i]
        if not re.fullmatch(r"\w+|[*:=]", last[-i]):
            return None
    return None


def rattle_tokens(text):
    """The tokens of a file of src/; a clause is one item, the list of its antt tokens, and so is what follows `ghost use`."""
    at, last = 0, ["("] * 6
    while at < len(text):
        if text.startswith("/*", at):
            end = block_end(text, at, "/*", "*/")
        else:
            end = RATTLE.match(text, at).end()
        piece = text[at:end]
        if not (piece.isspace() or piece.startswith(("//", "/*"))):
            word = clause_word(last) if piece == "{" else None
            if word:
                tokens, end = antt(text, end)
                clause, end = Clause(tokens), end + 1
                clause.word = word
                yield clause
            elif piece == "use" and last[-1] == "ghost":
                semicolon = text.index(";", end)
                yield piece
                yield antt(text[end:semicolon])[0]
                end = semicolon
            else:
                yield piece
            last.append(piece)
        at = end


def rattle(text):
    """The functions of a file of src/, and the module of its `ghost use` lines."""
    tokens, functions, module = list(rattle_tokens(text)), [], Module("")
    for i, token in enumerate(tokens):
        if token == "use" and tokens[i - 1] == "ghost":
            module.use(tokens[i + 1])
        elif token == "fn":
            before = i - 1
            while tokens[before] in ("const", "unsafe", "extern") or tokens[before][:1] == '"':
                before -= 1
            functions.append(Function(tokens[i + 1], before >= 0 and tokens[before] == "pub"))
            head(functions[-1], tokens[tokens.index("(", i) :])
    return functions, module


def told(text, crate):
    """The lemmas and definitions that `#[tactic(auto, using(..), unfolding(..))]` names in a file of src/, at their full paths."""
    for attribute in re.findall(r"#!?\[tactic\(.*?\]", "".join(t for t in rattle_tokens(text) if not isinstance(t, list)), re.S):
        for path in re.findall(r"\w+(?:::\w+)+", attribute):
            first, *rest = path.split("::")
            yield ("Rattle", crate if first == "crate" else first, *rest)


def head(function, tokens):
    """Reads the parameters, the result and the clauses, up to the body."""
    depth, part, inside = 0, [], True
    for i, token in enumerate(tokens):
        if isinstance(token, list):
            function.clauses[token.word].append(token)
            continue
        if not inside and depth == 0 and token in ("{", ";"):
            return
        function.gives |= not inside and token == "->"
        depth -= token in (")", "]", ">")
        ends = inside and (depth == 0 and token == ")" or depth == 1 and token == ",")
        if ends and part:
            colon = part.index(":") if ":" in part else len(part)
            function.parameters.append((part[colon - 1], part[colon + 1 :] or part))
        part = [] if ends or depth == 0 else part + [token]
        inside &= not (depth == 0 and token == ")")
        depth += token in ("(", "[", "<")
