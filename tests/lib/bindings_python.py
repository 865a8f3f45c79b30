"""Tests the Python package of bindings/: what it reads of answers, which inputs it takes, and what it refuses."""
import array
import dataclasses
import json
import mmap

from options import FLAGS, TEXT


def plain(value, renamed):
    """Returns what a view was read from: an object for a view, without the members that are absent."""
    if isinstance(value, list):
        return [plain(it, renamed) for it in value]
    if not dataclasses.is_dataclass(value):
        return value
    fields = [(it, getattr(value, it.name)) for it in dataclasses.fields(value)]
    return {renamed.get(it.name, it.name): plain(held, renamed) for it, held in fields if it.default is not None or held is not None}


def options_of(package, flags):
    """Returns the options for the flags of a sample."""
    off, naga = flags & FLAGS["NO_CONTROL_FLOW_UNIFORMITY"], flags & FLAGS["NAGA_UNIFORMITY"]
    rules = package.Uniformity.OFF if off else package.Uniformity.NAGA if naga else package.Uniformity.WGSL
    named = {it: bool(flags & FLAGS[it.upper()]) for it in ("non_uniform_textures", "non_uniform_storage_textures")}
    return package.Options(uniformity=rules, resources=True, bounds_checks=package.BoundsCheckPolicies(), **named)


def of_answer(package, module, options, wanted):
    """Returns what is wrong with what the package reads of an answer, whose bytes are given, or None."""
    status, text = wanted
    try:
        found = package.report(module, options)
    except package.NotModule as error:
        answer = json.loads(text)
        where = {"path": error.path} if error.path is not None else {"byte": error.byte}
        told = {**where, "wanted": error.expected}
        good = (status, error.text, told) == (6, text, answer["error"]) and plain(error.diagnostic, {}) == answer["diagnostics"][0]
        return None if good else f"{told}, wanted {answer['error']}"
    again = plain(found, package.views.RENAMED)
    del again["text"]
    good = found.text == text and again == json.loads(text) and found.is_accepted == (status == 0)
    return None if good else f"{again!r:.400}, wanted {text!r:.400}"


def of_package(package, inputs, by_report):
    """Yields what is wrong with the package, or None."""
    for name, flags, text in inputs:
        options = options_of(package, flags)
        yield f"pethuvazh.report {name}", of_answer(package, text, options, by_report(options.flags, text))
    text = b'{"types": "\xc3\xa9"}'
    wanted = by_report(0, text)
    (read_only := mmap.mmap(-1, len(text))).write(text)
    views = [memoryview(text), memoryview(text + text)[: len(text)], memoryview(bytes(reversed(text)))[::-1]]
    buffers = [text, bytearray(text), *views, text.decode(), array.array("B", text), read_only]
    for buffer in buffers:
        yield f"a {type(buffer).__name__}", of_answer(package, buffer, package.Options(), wanted)
    yield from of_refusals(package)
    yield from of_outcomes(package)


def raised(kind, call, *words):
    """Returns what is wrong if a call raises no such error, or None."""
    try:
        found = call(*words)
    except kind:
        return None
    return f"{found!r:.200}, and no {kind.__name__}"


def of_refusals(package):
    """Yields what is wrong with what the package refuses, or None."""
    ask = package.library.ask_report
    for flags in (-1, 1 << 32, 1 << 40):
        yield f"flags {flags}", raised(ValueError, ask, b"", flags)
    for flags in ("1", 1.0, None):
        yield f"flags {flags!r}", raised(TypeError, ask, b"", flags)
    for flags in (1 << 19, 3 << 8):
        yield f"flags {flags}", None if ask(b"", flags) == (2, b"") else "no status 2"
    for module in (None, 5, ["{}"], {}):
        yield f"a module {module!r}", raised(TypeError, package.report, module)
    yield "lines that are too long", raised(package.TooLong, package.answer_lines, b"\n" * 1_048_577)
    yield "policies of another type", raised(ValueError, lambda: package.BoundsCheckPolicies(index="Often").flags)
    yield "options of another type", raised(ValueError, lambda: package.Options(uniformity="glsl").flags)
    yield "text of an input that is no module", raised(package.NotModule, package.report_text, b"")
    try:
        package.report_text(b"")
    except package.NotModule as error:
        yield "that text", None if error.text.startswith(b"not a module") and error.line == 1 else f"{error.text}"


def of_outcomes(package):
    """Yields what is wrong with replies to lines, and with the flags of options, or None."""
    answers = package.answer_lines("call Max u32 AbstractInt\nfoo\n")
    yield "replies", None if (answers.text, answers.is_complete) == (b"u32\nbad line 2\n", False) else f"{answers}"
    words = "resources drawing all_structs explain all non_uniform_textures non_uniform_storage_textures"
    named = {it: True for it in words.split()}
    for name in named:
        found = package.Options(**{name: True}).flags
        yield f"the flag of {name}", None if found == FLAGS[name.upper()] else f"{found}"
    wanted = sum(FLAGS[name.upper()] for name in named)
    yield "all flags", None if package.Options(**named).flags == wanted and not wanted & TEXT else f"{package.Options(**named).flags}"
