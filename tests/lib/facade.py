"""Compares the names that the façade hands on with those that the crates below it make public."""
import re

from crates import TOP, listed

FACADE = "shader_typing"
# `pub use PATH::NAME;` and `pub use PATH::{NAME, ..};`, and what is handed on whole, as `pub use CRATE as NAME;`.
USES = re.compile(r"(?m)^pub use ([\w:]+?)(?:::\{([^}]*)\})?(?: as \w+)?;")
WHOLE = re.compile(r"(?m)^pub use (\w+)(?:::(\w+))? as \w+;")
# The section of the façade's README.md that names what stays inside.
INNER = re.compile(r"(?ms)^## Inner names\n(.*?)(?=^## |\Z)")


def names_used(text):
    """Returns the names behind the `pub use` lines of a file."""
    found = set()
    for path, group in USES.findall(text):
        found |= {it.strip() for it in group.split(",") if it.strip()} if group else {path.rpartition("::")[2]}
    return found


def public_names(crate):
    """Returns the names that a crate makes public at its root, and those of its public modules that only hand on."""
    folder = TOP / "crates" / crate / "src"
    root = (folder / "lib.rt").read_text()
    found = names_used(root)
    for module in re.findall(r"(?m)^pub mod (\w+);", root):
        file = folder / f"{module}.rt"
        found |= names_used(file.read_text()) if file.exists() else set()
    return found


def missing(handed, whole, public, inner):
    """Returns the public names, by crate, that are neither handed on, nor of a crate that is handed on whole, nor inner ones."""
    left = {crate: names - handed - inner for crate, names in public.items() if crate not in whole | inner}
    return sorted(f"{crate}::{name}" for crate, names in left.items() for name in names)


def of_facade():
    """Yields whether the façade hands on each public name of the crates below it, except those that its README.md calls inner ones."""
    sources = [it.read_text() for it in sorted((TOP / "crates" / FACADE / "src").rglob("*.rt"))]
    handed = set().union(*map(names_used, sources))
    whole = {crate for text in sources for crate, name in WHOLE.findall(text) if not name}
    section = INNER.search((TOP / "crates" / FACADE / "README.md").read_text())
    inner = set(re.findall(r"`(\w+)`", section[1])) if section else set()
    public = {it: public_names(it) for it in listed()[FACADE][1]}
    lacking = missing(handed, whole - {"shader_ir"}, public, inner)
    yield f"crates/{FACADE}", f"hands on no {', '.join(lacking)}" if lacking else ""
    loose = inner & (handed | whole)
    yield f"crates/{FACADE}/README.md", f"calls {', '.join(sorted(loose))} inner names, which are handed on" if loose else ""
