"""What the rules of docs/map.md, the sources and the definitions say, read from their text, for the checks beside it.

In the tables of the rules a cell names files, and after a colon what the file must have: `crate/File` is a file of the
crate's definitions, `crate/file.rt` one of its sources, `runs/file.txt` worked runs, by their titles in quotes, and
`embed/file.c`, `.cpp` or `.rs` a test of the calls from C.
"""
import collections
import functools
import pathlib
import re

TOP = pathlib.Path(__file__).resolve().parent.parent
SOURCES, SPECS = sorted(TOP.glob("crates/*/src/*.rt")), sorted(TOP.glob("crates/*/specs/*.antt"))
EDITS = sorted(TOP.glob("crates/*/must-fail/*.edit"))
ALIASES = dict(alias for path in SOURCES for alias in re.findall(r"(?m)^(?:pub(?:\(crate\))? )?type (\w+) = (\w+)", path.read_text()))
WORD = re.compile(r"(?<![.\w])\w+\b(?!:|\.(?:new|old|now)\b)")  # no parameter, which a contract names with the moment of its value
FILE = re.compile(r'`(\w+)/(\w+(?:\.rt|\.txt|\.c|\.cpp|\.rs)?)`(?:: ((?:(?:`\w+`|"[^"]+")(?:, | and the others)?)+))?')
BLOCK = re.compile(r"(?m)^(?:impl(?:<[^\n]*?>)? (?:(\w+)(?:<[^\n]*?>)? for )?|(?:pub(?:\(crate\))? )?(trait) )(\w+)")
DEFINED = re.compile(r"(?m)^(?:abbrev |unfoldable )?pub (?:record |data )?(?!mod |use )(\w+)")
IMPORT = re.compile(r"(?m)^ *(?:ghost |pub )?use Rattle\.(?!std\b)(\w+)\.specs\.([\w.]+?)(?:\.\{(.*)\}| as (\w+));?$")
ITEM = re.compile(r"(?m)^((?: {4})?)((?:pub(?:\(\w+\))? )?)(?:(?:const|unsafe|extern \"C\") )*(fn|const|static|struct|enum|trait|type|ghost) (?!use )(\w+)")
TEST = re.compile(r"#\[test\]\n *fn (\w+)|(?m:^static void (\w+)\(void\))")
FOLDERS = {".txt": "{}", ".c": "{}/tests", ".cpp": "{}/tests", ".rs": "{}/rust/tests", ".rt": "crates/{}/src", "": "crates/{}/specs"}
TYPES = "struct", "enum", "trait", "type"

Rule = collections.namedtuple("Rule", "name meant done tried")
# what a source declares, as `impl Trait for Type` in `scope` does it: `label` is `Type::name` or `Trait.word`, `shown` is `pub`, `pub(crate)` or nothing
Item = collections.namedtuple("Item", "path label kind name trait type shown scope text start")


def path_of(crate, file):
    suffix = pathlib.Path(file).suffix
    return TOP / FOLDERS[suffix].format(crate) / (file if suffix else f"{file}.antt")


def labelled(path, name):
    """A file and what it has, as a cell says it."""
    crate = path.relative_to(TOP).parts[path.suffix in (".rt", ".antt")]
    return f"{crate}/{path.name.removesuffix('.antt')}: {name}"


def crate_of(path):
    return path.parts[-3]


def plain(label):
    return re.split(r"::|\.", label)[-1]


@functools.cache
def text_of(path):
    return path.read_text() if path.is_file() else ""


def names_in(cell):
    """The path of each file that a cell names, and the names and titles that the file must have."""
    for crate, file, names in FILE.findall(cell):
        yield path_of(crate, file), re.findall(r"`(\w+)`", names), re.findall(r'"([^"]+)"', names)


def rows_of(page):
    """The cells of each row of a page's tables of rules or of recipes."""
    return [[cell.strip() for cell in row.split("|")] for row in re.findall(r"(?m)^\|(?!---| Rule| Change)(.*)\|$", page)]


def pages():
    """The rooms, the recipes and the rules of docs/map.md, each as text."""
    rooms, changes = text_of(TOP / "docs/map.md").split("\n## To change something\n")
    recipes, rules = changes.split("\n## Beside the crates\n")[0].split("\n## Where a rule lives\n")
    return rooms, recipes, rules


def rules_of(page):
    """The rules of a page, and each row that isn't one."""
    rules, faults = [], []
    for first, *cells in rows_of(page):
        name = re.match(r"`([a-z]+(?:-[a-z]+)*)`(?:: .|$)", first)
        if name and len(cells) == 3:
            rules.append(Rule(name[1], *cells))
        else:
            faults.append(f"the row {first!r} has no name, or not four cells")
    return rules, faults


def tried_by(rules, path, name):
    """The rules that name a run or a test, or its whole file, as tried."""
    for rule in rules:
        for file, names, titles in names_in(rule.tried):
            if file == path and (name in names + titles or not names + titles):
                yield rule.name


def named_in(rules, column="done"):
    """The rules that name a function or a definition in a column, by its file and name."""
    found = collections.defaultdict(set)
    for rule in rules:
        for path, names, _ in names_in(getattr(rule, column)):
            for name in names:
                found[path, name].add(rule.name)
    return found


def worded(rules, meant, path=None):
    """The rules that name these definitions; of a law in this file, those of its crate, if there are any."""
    said = ((rule.name, file, names) for rule in rules for file, names, _ in names_in(rule.meant + rule.tried) if file in SPECS)
    found = [(rule, file) for rule, file, names in said if any((file, name) in meant for name in names)]
    return [name for name, file in found if path and crate_of(file) == crate_of(path)] or [name for name, _ in found]


def contract(text, name):
    """The head and the clauses of each function of this name, up to its body, or to the semicolon of a trait's."""
    clauses = []
    for part in re.split(rf"\bfn (?={name}\b)", text)[1:]:
        depth = 0
        for line in part.split("\n"):
            if depth == 0 and line.strip() in ("{", "{}"):
                break
            clauses.append(line)
            if depth == 0 and line.endswith("{") and not re.search(r"\b(?:ensures|requires)\b", line):
                break
            depth += line.count("{") - line.count("}")
            if depth <= 0 and (depth < 0 or line.endswith((";", "{}"))):
                break
    return "\n".join(clauses)


# ---- what sources and definitions declare ----


@functools.cache
def items(path):
    """What a source declares, without comments: functions, constants, types, and the words that a trait or an impl has for contracts."""
    code = re.sub(r"//.*", lambda found: " " * len(found[0]), text_of(path))
    heads, found = list(ITEM.finditer(code)), []
    for head, end in zip(heads, [head.start() for head in heads[1:]] + [len(code)]):
        block = [block for block in BLOCK.finditer(code[: head.start()]) if head[1] and "\n}" not in code[block.start() : head.start()]]
        trait, of_trait, owner = block[-1].groups("") if block else ("", "", "")
        scope = code[block[-1].start() : head.start()] if block else ""
        text = re.split(rf"\n{head[1]}}}|\nimpl\b|\n *#\[", code[head.start() : end])[0]
        shown = "pub" if trait or of_trait else head[2].strip()
        label = f"{owner}{'.' if head[3] == 'ghost' else '::'}{head[4]}" if owner else head[4]
        found.append(Item(path, label, head[3], head[4], owner if of_trait else trait, owner, shown, scope, text, head.start()))
    return found


@functools.cache
def named():
    """The items of each name."""
    found = collections.defaultdict(list)
    for item in (item for path in SOURCES for item in items(path)):
        found[item.name].append(item)
    return found


@functools.cache
def below(crate):
    """A crate with all that it stands on."""
    uses = " ".join(re.findall(rf"(?m)^{crate}(?: staticlib)?: *(.*)", text_of(TOP / "crates.txt"))).split()
    return {crate}.union(*map(below, uses))


@functools.cache
def imported(path):
    """The crate from which a source has each word of its `use` lines."""
    uses = re.findall(r"(?m)^ *(?:pub )?use (\w+)::([^;]*);", text_of(path))
    return {word: crate if crate in below(crate_of(path)) else crate_of(path) for crate, words in uses for word in re.findall(r"\w+", words)}


def signature(item):
    return re.split(r"\n *(?:requires|ensures|\{)| \{\n|;", item.text)[0]


def type_words(text, item):
    """The names in a type that an item says; for its own parameters, their bounds; `?` for a type that a trait names."""
    words = {"?"} if re.search(r"(?:\bSelf|\b[A-Z]|>)::", text) else set()
    for word in re.findall(r"(?<!::)\b[A-Z]\w*", text):
        bounds = re.findall(rf"\b{word}: ([^,>)]*)", item.scope.split("\n")[0] + signature(item)) if len(word) == 1 else []
        words |= {*re.findall(r"[A-Z]\w+", " ".join(bounds))} or {item.type if word == "Self" else "?" if len(word) == 1 else word}
    return words | {ALIASES[word] for word in words & ALIASES.keys()}


@functools.cache
def definitions(path):
    """The definitions of a specs file, each with its text."""
    return {found[1]: block for block in re.sub(r"--.*", "", text_of(path)).split("\n\n") if (found := DEFINED.search(block))}


@functools.cache
def constructors(path):
    """The constructors and fields in a specs file, each with its definition."""
    found = definitions(path).items()
    return {part: name for name, block in found if re.search(r"\bpub (?:data|record)\b", block) for part in re.findall(r"(?m)^ +(?:pub )?(\w+) :", block)}


def home(path, name):
    """Where a definition stands that a specs file has, or passes on by `pub use`."""
    passed = re.findall(rf"(?m)^pub use Rattle\.(\w+)\.specs\.(\w+)\.\{{.*\b{name}\b.*\}}", text_of(path))
    return (path_of(*passed[0]), name) if passed else (path, name)


# ---- what a contract says ----


def meanings(text, said, own=None):
    """The definitions and declarations that a text names under these `use` lines, or has in its own file, each by file and name."""
    words = {*re.findall(WORD, text)}
    found = {(own, word) for word in words & {*definitions(own), *constructors(own)}} if own else set()
    for crate, file, names, short in IMPORT.findall(said):
        part, *rest = file.removeprefix("declared.").split(".")
        path = path_of(crate, f"{part}.rt" if file.startswith("declared.") else part)
        listed = [real for real, near in re.findall(r"(\w+)(?: as (\w+))?(?:, |$)", names) if (near or real) in words]
        taken = re.findall(rf"\b{short}\.(\w+)", text) if short else listed
        found |= {home(path, rest[0] if "TheVariants" in rest else name) for name in taken}
    return found


def clauses_in(item, promised=False):
    """The clauses of a function, all or those that promise; of anything else what it says."""
    if item.kind != "fn":
        return item.text.partition(item.name)[2]
    clause = rf"(?ms)^ *{'ensures' if promised else '(?:ensures|requires)'}\b.*?(?=^ *(?:ensures|requires)|\Z)"
    return "".join(re.findall(clause, contract(item.text, item.name).partition("\n")[2]))


@functools.cache
def meant_by(item, promised=False):
    """The definitions and the words of traits in the contract of an item, or in what it promises alone; or in what it says for contracts."""
    clauses = clauses_in(item, promised)
    given = re.findall(r"\b([a-z_]\w*): ", signature(item)) if item.kind == "fn" else []  # a parameter isn't a definition of its name
    said = re.sub(rf"\b(?:requires|ensures)\*?(?: \w+)?(?= \{{)|\b(?:{'|'.join(given) or '-'})\b", "", clauses)
    return meanings(said, "".join(re.findall(r"(?m)^ghost use .*\n", text_of(item.path))) + item.scope), {*words_of_traits(said, item)}


def words_of_traits(said, item):
    """The words of traits that a contract says, as `M.reporting` or `Self.Format.kind`, or within the trait or its impl `reporting`."""
    found = re.findall(r"(?:\b(?:[A-Z]\w*\.)*([A-Z]\w*)\.|(?<![.\w]))(\w+)\b", said)
    for owner, word in {*found}:
        letter = owner if len(owner) == 1 else ""
        for one in named()[word]:
            bounds = type_words(letter, item) if letter else {item.trait, owner}
            named_there = letter and bounds == {"?"} and re.search(rf"\b{one.trait}\b", said + item.scope)
            if one.kind == "ghost" and one.trait and one.trait == one.type and (one.trait in bounds or named_there):
                yield one


def types_said(item, text):
    """The types, traits and constants that an item names in this text of it."""
    for word in {*re.findall(r"(?<![.\w])[A-Z]\w+", text)}:
        crate = imported(item.path).get(word)
        for one in named()[word]:
            if one.kind in (*TYPES, "const") and (one.path == item.path or crate == crate_of(one.path) or (crate and len(named()[word]) == 1)):
                yield one


@functools.cache
def changed_by(edit):
    """The source that an edit changes, and the labels of what it changes there."""
    path = edit.parent.parent / re.search(r"(?m)^file: (.*)", text_of(edit))[1]
    places = [text_of(path).find(old) for old in re.findall(r"(?m)^old: (.*)", text_of(edit))]
    return path, {label for place in places for label in [one.label for one in items(path) if one.start <= place][-1:]}


def rules_of_edit(edit):
    """The rules that an edit names, and rows of docs/protocol.md."""
    return re.findall(r"[\w-]+", "".join(re.findall(r"(?m)^rules: (.*)", text_of(edit))))
