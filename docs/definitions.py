#!/usr/bin/env python3
"""Lists the definitions that clauses of `tool` rest on, in reading order, and counts their lines.

    docs/definitions.py [CLAUSE..]        as docs/definitions.py headline ends.stands leaves

A clause names words of specs/; each of these is a definition, which names further ones. The `use` lines
of its file say where they stand. What comes out is all that is named in that way, file by file: what has
to be read and believed so that the clause means what its sentence in README says. Of a clause whose word
is a record each field can be asked for by itself, as CLAUSE.FIELD. Behind the first clause it is also told
what a clause adds to those before it. The types and constants of the code (`declared`) that are named, with
the types of their fields, count as their lines in src/; words of the kit's library (`Rattle.std..`) are
counted and listed, and end the walk. A word that is found nowhere ends the script with status 1, and so does one
that lies in specs/inner/, the floor below, where the words are that only inner contracts speak in. Lines
count without blank ones, comments, attributes and `use` lines."""
import collections, functools, glob, os, re, sys

CRATES = os.path.join(os.path.dirname(os.path.dirname(os.path.abspath(__file__))), "crates")
HEAD = re.compile(r"^\s*(?:abbrev pub|unfoldable pub|pub data|pub record|abbrev|unfoldable|data|record) ([^\s:({]+)")
MUTUAL = re.compile(r"^(\s*)(?:abbrev )?mutual\s*$")
MEMBER = re.compile(r"^\s*pub ([^\s:({]+) :")
FIELD = re.compile(r"^\s+(?:pub )?([^\s:({]+) :")
GIVEN = re.compile(r"^(\s+)([a-z][^\s=;{}]*) = ")
USE = re.compile(r"^\s*(?:ghost )?use Rattle\.(\w+)\.specs\.([\w.]+?)(?:\.\{(.*)\})?(?: as (\w+))?;?\s*$")
WORD = re.compile(r"[^\s(){}\[\],;:→×⊎≡≢≤<+*∷λ=]+")
STRING = re.compile(r'"[^"]*"')
BOUND = re.compile(r"[({]\s*([^(){}:=;]+?)\s*:|λ\s*([^.]*?)\s*\.(?=\s)|let\s+([^\s=:]+)|\(([^():;]*)\)\s*=")
PLAIN = set("""abbrev pub data record where module let in if then else elim tt Type Unit ⊥ _ - ^ . | ↦ ↔ ++ && not
    unfoldable codes ℤ◌ -ℤ""".split())


def fail(message):
    sys.exit(f"docs/definitions.py: {message}")


class File:
    """A file of specs/: its definitions by name, what each constructor belongs to, and what it imports."""

    def __init__(self, crate, module):
        self.items, self.owner, self.names, self.modules = {}, {}, {}, {}
        path, item, modules, block = f"{CRATES}/{path_of(crate, module)}", None, [], None
        for line in open(path, encoding="utf-8").read().split("\n") if os.path.isfile(path) else []:
            if not line.strip() or line.lstrip().startswith("--") or imports(line, self):
                continue
            indent = len(line) - len(line.lstrip())
            if block is not None and indent <= block:
                block = None
            head = None if MUTUAL.match(line) else HEAD.match(line) or (MEMBER.match(line) if block is not None and indent == block + 2 else None)
            if head or MUTUAL.match(line) or line.lstrip().startswith("module _"):
                modules, item = [of for of in modules if of[0] < indent], None
            if head:
                item = head[1]
                self.items[item] = [*(shared for _, lines in modules for shared in lines), line]
            elif MUTUAL.match(line):
                block = indent
            elif line.lstrip().startswith("module _"):
                modules.append((indent, [line]))
            elif item:
                self.items[item].append(line)
                if FIELD.match(line) and not is_record(self.items[item]):
                    self.owner.setdefault(FIELD.match(line)[1], item)
            elif modules:
                modules[-1][1].append(line)


def path_of(crate, module):
    """The file of a module of specs/, below crates/: `inner.Layout` lies in the folder inner."""
    return f"{crate}/specs/{module.replace('.', '/') if crate != 'std' else module}.antt"


def is_record(lines):
    return any(line.lstrip().startswith(("pub record", "record")) for line in lines)


def imports(line, to):
    use = USE.match(line)
    if use:
        crate, module, given, alias = use.groups()
        if alias and not given:
            to.modules[alias] = (crate, module)
        for it in (given or "").split(","):
            name, _, short = it.strip().partition(" as ")
            to.names[short or name] = (crate, module, name)
    return bool(use)


@functools.lru_cache(None)
def file_of(crate, module):
    return File(crate, module)


def words_of(lines):
    """The words of the lines, each once, without those of literal texts."""
    return dict.fromkeys(WORD.findall(STRING.sub("", "\n".join(lines))))


def without_given(lines, name):
    """The lines without the names of fields to which a record gives a value: such a name hides no word of the value's."""
    return [line if (given := GIVEN.match(line)) is None or given[2] == name else given[1] + line[given.end():] for line in lines]


def bound_in(lines, it):
    """The variables that a definition binds, and the names that it gives: its own and those of its fields."""
    text = STRING.sub("", "\n".join(lines))
    bound = {word for groups in BOUND.findall(text) for group in groups for word in WORD.findall(group)}
    if is_record(lines):
        bound.update(field[1] for field in map(MEMBER.match, lines) if field)
    for line in lines:
        left, equals, _ = f"{line} ".partition(" = ")
        if equals and not left.lstrip().startswith(("abbrev", "unfoldable", "pub")):
            bound.update(word for word in WORD.findall(left) if word[0].islower() or not any(word in of for of in (it.items, it.owner, it.names)))
    named = re.findall(r"(?:record [^{}]*\{|;)\s*([^\s=;{}]+) =|\n\s+([^\s=;{}]+) = ", text)
    return bound, {word for pair in named for word in pair}


def walk(crate, module, name, found, named_by):
    """Adds the definition to what was found, file by file in the order of reading, and then all that it names."""
    if crate == "std":
        add(found, (crate, module), name)
        return
    if module.startswith("declared"):
        walk_type(crate, module, name, found)
        return
    it = file_of(crate, module)
    name = it.owner.get(name, name) if name not in it.items else name
    if name not in it.items:
        fail(f"{named_by} names {name}, which {path_of(crate, module)} doesn't define")
    if module.startswith("inner."):
        fail(f"{named_by} names {name}, a word to be believed, and {path_of(crate, module)} holds words of inner contracts alone")
    if name in found[crate, module]:
        return
    found[crate, module].append(name)
    follow(it, without_given(it.items[name], name), found, f"{name} of {path_of(crate, module)}", (crate, module))


def add(found, key, name):
    """Adds a name to what was found; whether it is new."""
    is_new = name not in found[key]
    if is_new:
        found[key].append(name)
    return is_new


def walk_type(crate, module, name, found):
    """Adds the type or the constant of the code to what was found, and the types of its fields."""
    parts = module.split(".")
    of = next((part for part in parts[1:] if part[:1].isupper() and not part.startswith("The")), name)
    for home, path, lines in declarations().get(of, []):
        if home == crate and add(found, (crate, path), of):
            fields = " ".join(re.sub(r"^\s*\w+", "", line) for line in lines[1:])      # without the names of fields and variants
            for word in dict.fromkeys(re.findall(r"[A-Z]\w+", fields)):
                for owner, _, _ in declarations().get(word, [])[:1]:
                    walk_type(owner, "declared", word, found)


@functools.lru_cache(None)
def declarations():
    """The types and constants of the code by name: the crate, the file, and the lines of each."""
    known = collections.defaultdict(list)
    for path in sorted(glob.glob(f"{CRATES}/*/src/**/*.rt", recursive=True)):
        crate, _, file = os.path.relpath(path, CRATES).split("/", 2)
        lines = [line for line in open(path, encoding="utf-8").read().split("\n") if line.strip() and not line.lstrip().startswith(("//", "#["))]
        for at, line in enumerate(lines):
            head = re.match(r"pub (?:struct|enum|const) (\w+)", line)
            if head:
                ends = at if line.rstrip().endswith((";", "}")) else next(to for to in range(at, len(lines)) if lines[to] == "}")
                known[head[1]].append((crate, f"src/{file}", lines[at:ends + 1]))
    return known


def follow(it, lines, found, named_by, own=None):
    """Follows each word of the lines, by what their file defines and imports."""
    bound, named = bound_in(lines, it)
    for word in words_of(lines):
        head, _, rest = word.partition(".")
        if head in bound:
            continue
        if own and (word in it.items or word in it.owner):
            walk(*own, word, found, named_by)
        elif word in it.names:
            walk(*it.names[word], found, named_by)
        elif head in it.modules and rest:
            walk(*it.modules[head], rest.split(".")[0], found, named_by)
        elif own and word not in named and not is_known(word, head, it):
            fail(f"{named_by} names {word}, which is found nowhere")


def is_known(word, head, it):
    """Whether the word is a number, a sign, a word of the language, or a field of what is known."""
    if word in PLAIN or head in it.names or head in it.items or head in it.owner:
        return True
    return not re.search(r"[^\W\d_]", word) or word.startswith((".", '"')) or word.endswith('"')


def clauses():
    """The clauses of `tool` by name, with the fields of records: the text of each, and the file that it stands in."""
    for path in sorted(glob.glob(f"{CRATES}/*/src/*.rt")):
        text, to = open(path, encoding="utf-8").read(), File("", "")
        if "pub fn tool<" in text:
            for line in text.split("\n"):
                imports(line, to)
            contract = text[text.index("pub fn tool<") :].split("\n{")[0] + "\n"
            return {name: ([clause], to, None) for name, clause in re.findall(r"ensures (\w+) \{(.*?)\}\n", contract, re.S)}
    fail("no crate has a function `tool`")


def fields_of(clause, known):
    """The fields of the record that is the clause's first word, by name."""
    lines, to, _ = known[clause]
    word = WORD.findall(lines[0])[0]
    if word not in to.names:
        return {}
    crate, module, name = to.names[word]
    it = file_of(crate, module)
    if not is_record(it.items.get(name, [])):
        return {}
    fields = {}
    for line in it.items[name][1:]:
        field = FIELD.match(line)
        if field:
            fields[f"{clause}.{field[1]}"] = ([line.split(" : ", 1)[1]], it, (crate, module, name))
        elif fields:
            fields[list(fields)[-1]][0].append(line)
    return fields


def found_of(lines, it, record):
    """What is reached from a clause, or from a field of a record."""
    found = collections.defaultdict(list)
    if record:
        crate, module, name = record
        own = {word for word in words_of(lines) if word in it.items and word != name}
        for word in words_of(lines):
            if word in own:
                walk(crate, module, word, found, name)
    follow(it, lines, found, "the clause")
    return found


def lines_in(found):
    """The lines of what was found, each known by its file, its definition and its place there."""
    return {(crate, module, id(line)) for (crate, module), names in found.items() for name in names
            for line in lines_of(crate, module, name)}


def lines_of(crate, module, name):
    """The lines of a definition, a type or a constant; a word of the library has none."""
    if crate == "std":
        return []
    if module.startswith("src/"):
        return next(lines for home, path, lines in declarations()[name] if (home, path) == (crate, module))
    return file_of(crate, module).items[name]


def tell(clause, found, before):
    """Prints what was found file by file, and how much it is: definitions, types of the code, words of the library."""
    print(f"clause {clause}")
    kinds = {"definitions": {}, "types": {}, "library": {}}
    for (crate, module), names in found.items():
        kind = "library" if crate == "std" else "types" if module.startswith("src/") else "definitions"
        kinds[kind][crate, module] = names
        path = path_of(crate, module) if kind != "types" else f"{crate}/{module}"
        print(f"  {path}, {len(lines_in({(crate, module): names}))} lines: {' '.join(names)}")
    defined, typed, library = ({key: sorted(names) for key, names in of.items()} for of in kinds.values())
    print(f"  {len(lines_in(defined))} lines of {count_names(defined)} definitions in {len(defined)} files, {len(lines_in(typed))} lines of {count_names(typed)} "
          f"types of the code, and {count_names(library)} words of the library: {len(lines_in(found))} lines in all")
    if before:
        print(f"  {len(lines_in(found) - before)} of them are not in those before it")


def count_names(found):
    """How many names were found, each once."""
    return len({name for names in found.values() for name in names})


def main(wanted):
    known = clauses()
    fields = {name: field for clause in known for name, field in fields_of(clause, known).items()}
    before = set()
    for clause in wanted or known:
        if clause not in known and clause not in fields:
            fail(f"`tool` has no clause {clause}")
        found = found_of(*(known.get(clause) or fields[clause]))
        tell(clause, found, before)
        before |= lines_in(found)


if __name__ == "__main__":
    main(sys.argv[1:])
