"""Checks for scripts/lint that documents show and list exactly what the sources have: examples, definitions, names, lists and answers."""
import json
import re

from answer_heads import parted
from answer_schema import SCHEMA, names_of, printed, schema
from crates import TOP, listed
from mutants import FUNCTION

# What a document names in backticks occurs in a source, or is one of these, of naga, of the standard library and of tools.
TICKED = re.compile(r"`([^`\n]+)`")
WORD = re.compile(r"[A-Za-z_]\w{2,}")
# A name in capitals is a variable, and one that ends in a dash begins several names.
VARIABLE = re.compile(r"[A-Z]+|\w+_")
# These documents name what naga and WGSL have and this library hasn't, and the language of rows.
OTHER_NAMES = ("docs/DIFFERENCES.md", "docs/UNIFORMITY.md", "tests/data/")
EXAMPLE = re.compile(r"(?m)^<!-- example: (\S+):([^\s:]+) -->\n```(?:rust|antt)\n(.*?)^```$", re.DOTALL)
LINK = re.compile(r"\]\((?!https?:|#)([^)#\s]+)(?:#[^)]*)?\)")
# A row of the reading order of docs/PROOFS.md: a file of definitions, and how many lines it has.
READ = re.compile(r"(?m)^\| \d+ \| \[[^\]]*\]\(\.\./(\S+\.antt)\) \| (\d+) \|")
# A test with failing allocations, as docs/maintaining/allocation-failures.md names it: `MODULE::NAME`, or `NAME` after such a one.
TEST = re.compile(r"#\[test\]\n(?:#\[.*\n)*fn (\w+)")
UNFOLDABLE = re.compile(r"(?m)^ *unfoldable pub (\w+)")
# A member or a name that a definition prints as JSON, in a text or as a token; the crates that print such; and what no answer has: types
# that no typing rule gives by value, and errors of other callers.
PRINTED = re.compile(r'\\"(\w+)\\"|(?:key|variant|fields|_member|_tokens) \(codes "(\w+)"\)')
PRINTING = re.compile(r"report_(answers|diagnostics|json)|shader_(report_(bounds|json|resources)|uniformity_text)")
UNSEEN = set("""AccelerationStructure Array Atomic BindingArray Constant Depth External FunctionNotDefined Image InvalidArrayElementType
    InvalidStructMemberType OutOfMemory Pending RayQuery Sampled Sampler arrayed class comparison dim format multi vertex_return""".split())
# The member that the launcher adds, and no definition prints.
BY_LAUNCHER = {"file"}
COSTS, FAILURES, JSON = "docs/maintaining/costs.md", "docs/maintaining/allocation-failures.md", "docs/JSON.md"
# A code of a diagnostic or its name in a definition, and a row with both in their document.
CODES, CODE = "docs/DIAGNOSTICS.md", re.compile(r'(?m)^\w+_(code|text|name)(?:_text)? (\S+) = codes "([A-Z]\d{3}|[a-z0-9-]+)"')
CODE_ROW = re.compile(r"(?m)^\| ([A-Z]\d{3}) \| ([a-z0-9-]+) \|")
# The sentence of a code in the program, and a row with both.
SENTENCES, SENTENCE = "crates/report_diagnostics/src/sentences.rt", re.compile(r'Code::(\w+) =>[\s{]*"([^"]+)"')
SENTENCE_ROW = re.compile(r"(?m)^\| ([A-Z]\d{3}) \| ([^|]+\.) \|$")


def read(path):
    """Returns the text of a file of the repository, empty if it isn't there, so that what it must have is lacking."""
    return (TOP / path).read_text() if (TOP / path).is_file() else ""


def ticked(text):
    return set(re.findall(r"\w+", " ".join(TICKED.findall(text))))


def links(text):
    """Yields each position of a document with a link to a file that isn't there, and what is wrong."""
    for number, line in enumerate(text.lines if text.is_document else ()):
        for to in LINK.findall(line):
            if not (TOP / text.name.parent / to).exists():
                yield text.at(number), f"a link to {to}, which isn't there"


def dead_names(text, words, definitions):
    """Yields each position of a document with a name in backticks that no source has, or a name `FILE.NAME` that this file of definitions
    doesn't have, and what is wrong."""
    for number, line in enumerate(text.lines if text.is_document and not text.path.startswith(OTHER_NAMES) else ()):
        for span in TICKED.findall(line if not line.startswith("    ") else ""):
            dead = [it for it in WORD.findall(span) if it not in words and not VARIABLE.fullmatch(it)]
            file, _, name = span.partition(".")
            if re.fullmatch(r"\w+", name) and file in definitions and name not in definitions[file] and name not in ("antt", "rt"):
                dead = [span]
            if dead:
                yield text.at(number), f"`{span}` names {', '.join(dead)}, which no source has"


def function(lines, name):
    """Returns a function of a source with the comment and the attributes above it, None if there is none of this name."""
    at = next((it for it, line in enumerate(lines) if (found := FUNCTION.match(line)) and found[2] == name), None)
    if at is None:
        return None
    first = next(it for it in range(at, -1, -1) if it == 0 or not lines[it - 1].strip())
    return lines[first : lines.index("}", at) + 1]


def definition(lines, name):
    """Returns a definition of a file of specs/ with the comment above it, up to the next blank line, None if there is none."""
    at = next((it for it, line in enumerate(lines) if re.match(rf"(?:\w+ )*{re.escape(name)}(?: [({{].*)? :", line)), None)
    if at is None:
        return None
    first = next(it for it in range(at, -1, -1) if it == 0 or not lines[it - 1].strip())
    end = next((it for it in range(at, len(lines)) if not lines[it].strip()), len(lines))
    return lines[first:end]


def example(file, name):
    """Returns what a document shows of a source, None if the source doesn't have it."""
    lines = read(file).split("\n")
    found = (definition if file.endswith(".antt") else function)(lines, name)
    return None if found is None else "\n".join(found) + "\n"


def examples(text):
    """Yields the path of a document that shows something otherwise than its source, or nothing below its mark, and what is wrong."""
    held = EXAMPLE.findall(text.text if text.is_document else "")
    for file, name, shown in held:
        if shown != example(file, name):
            yield text.path, f"`{name}` of {file} isn't what is shown (scripts/lint --write)"
    if text.is_document and text.text.count("\n<!-- example: ") != len(held):
        yield text.path, "an example without its block of code"


def write_examples(paths):
    """Writes the functions and definitions that documents show below their marks, and the schema of answers."""
    (TOP / SCHEMA).write_text(printed(schema()) + "\n")

    def shown(found):
        fence = "antt" if found[1].endswith(".antt") else "rust"
        return f"<!-- example: {found[1]}:{found[2]} -->\n```{fence}\n{example(found[1], found[2]) or found[3]}```"

    for path in map(TOP.joinpath, paths):
        if path.suffix == ".md":
            old = path.read_text()
            new = EXAMPLE.sub(shown, old)
            if new != old:
                path.write_text(new)


def of_costs():
    """Yields whether the table of costs has exactly the crates of crates.txt."""
    costs = set(re.findall(r"(?m)^\| `(\w+)` \|", read(COSTS)))
    yield COSTS, "" if costs == {*listed()} else "other crates than those of crates.txt (scripts/measure_proofs --counts)"


def of_failures():
    """Yields whether the page on allocation failures names the tests with failing allocations, and only tests."""
    page = read(FAILURES)
    failing, tests = set(), set()
    for path in TOP.glob("crates/*_tests/src/**/*.rt"):
        found = set(TEST.findall(path.read_text()))
        tests |= found
        failing |= found if "refusals" in str(path) else set()
    unnamed = {it for it in failing if not re.search(rf"\b{it}\b", page)}
    yield FAILURES, f"lacks {', '.join(sorted(unnamed))}" if unnamed else ""
    rows = "".join(it.split("|")[2] for it in page.split("\n") if it.startswith("|"))
    gone = set(re.findall(r"`(?:\w+::)+([a-z]\w+)`", rows)) - tests
    yield FAILURES, f"names {', '.join(sorted(gone))}, which is no test" if gone else ""


def of_reading_order():
    """Yields for each file of the reading order of docs/PROOFS.md whether it has as many lines as it says."""
    rows = READ.findall(read("docs/PROOFS.md"))
    yield "docs/PROOFS.md", "" if rows else "no reading order"
    for path, count in rows:
        found = read(path).count("\n")
        yield "docs/PROOFS.md", "" if found == int(count) else f"{path} has {found} lines, not {count}"


def unnamed(definitions, page):
    """Returns what definitions print as JSON and a page doesn't name, and what the first cells of its tables name that they don't have."""
    printed = {text or token for text, token in PRINTED.findall(definitions)} - UNSEEN
    cells = ticked("\n".join(re.findall(r"(?m)^\| (.*?) \|", page)))
    return sorted(printed - ticked(page)), sorted(cells - BY_LAUNCHER - set(re.findall(r"\w+", definitions)))


def of_json():
    """Yields what is wrong with the page on the JSON of `report`: names that it lacks or has in excess, and answers that aren't naga's."""
    page, answers = read(JSON), read("tests/data/modules/answers.jsonl").splitlines()
    definitions = "".join(it.read_text() for it in TOP.glob("crates/*/specs/*.antt") if PRINTING.fullmatch(it.parts[-3]))
    for names, what in zip(unnamed(definitions, page), ("lacks", "has a row on")):
        yield JSON, f"{what} {', '.join(names)}" if names else ""
    shown = [json.loads(it) for it in re.findall(r"(?ms)^```json\n(.*?)^```$", page)]
    yield JSON, "" if all(parted(it)[1] in map(json.loads, answers) for it in shown) else "shows an answer that isn't among the samples"


def of_codes():
    """Yields what is wrong with the page on diagnostics: rows with other codes, names and sentences than the sources have."""
    definitions = read("crates/report_diagnostics/specs/Codes.antt")
    held = {}
    for _, variant, word in CODE.findall(definitions):
        held.setdefault(variant, []).append(word)
    defined = {tuple(it) for it in held.values()}
    rows = {*CODE_ROW.findall(read(CODES))}
    yield CODES, "" if rows == defined else f"other codes or names than Codes.antt has: {sorted(rows ^ defined)}"
    code_of = {variant.rpartition(".")[2]: words[0] for variant, words in held.items()}
    said = {(code_of.get(variant, variant), sentence) for variant, sentence in SENTENCE.findall(read(SENTENCES))}
    rows = {*SENTENCE_ROW.findall(read(CODES))}
    yield CODES, "" if rows == said else f"other sentences than sentences.rt has: {sorted(rows ^ said)}"


def of_schema():
    """Yields what is wrong with the schema of answers: it is another than its definition, or the page on JSON lacks one of its members."""
    yield SCHEMA, "" if read(SCHEMA) == printed(schema()) + "\n" else "other than tests/lib/answer_schema.py has (scripts/lint --write)"
    lacking = names_of(schema()) - ticked(read(JSON))
    yield SCHEMA, f"has {', '.join(sorted(lacking))}, which {JSON} lacks" if lacking else ""


def hidden(definitions, document):
    """Returns the names of definitions that compute only if a proof unfolds them, and that a document doesn't have."""
    return sorted({*UNFOLDABLE.findall(definitions)} - ticked(document))


def of_unfoldable():
    """Yields for each crate of the façade whether its README.md names the definitions that a proof has to unfold."""
    for folder in (TOP / "crates" / it for it in listed()["shader_typing"][1]):
        definitions = "".join(it.read_text() for it in folder.glob("specs/*.antt"))
        lacking = hidden(definitions, (folder / "README.md").read_text())
        yield f"crates/{folder.name}", f"README.md lacks {', '.join(lacking)}, which a proof has to unfold" if lacking else ""


def of_version():
    """Yields whether the program `report`, README.md and CHANGELOG.md have the version of the file VERSION."""
    version = read("VERSION").strip()
    newest = re.search(r"(?m)^## ([\d.]+)", read("CHANGELOG.md"))
    yield "VERSION", "" if newest and newest[1] == version else "another version than the newest of CHANGELOG.md"
    has_program = f'"report {version}"' in read("crates/report/src/main.rt")
    yield "crates/report/src/main.rt", "" if has_program else "another version than the file VERSION has"
    is_shown = re.search(rf"\b[Vv]ersion {re.escape(version)}\b", read("README.md"))
    yield "README.md", "" if is_shown else "another version than the file VERSION has"


def of_documents():
    """Yields for each list and each claim of the documents that was compared what is wrong with it, empty if nothing is."""
    for part in (of_costs, of_failures, of_reading_order, of_json, of_codes, of_schema, of_unfoldable, of_version):
        yield from part()
