"""The calls of the package."""
import dataclasses

from .errors import AnswerError, LibraryError, NotModule, TooLong
from .flags import Flags, LinesStatus, ReportStatus
from .library import ask_lines, ask_report
from .options import Options
from .views import NoModule, Report, read_answer


@dataclasses.dataclass(frozen=True)
class Text:
    """A report as the program `report` prints it, and whether the module is accepted."""

    text: bytes
    is_accepted: bool


@dataclasses.dataclass(frozen=True)
class Answers:
    """The replies to lines, up to the first line that isn't a question, and whether each is one."""

    text: bytes
    is_complete: bool


def not_module(text):
    """Returns the error for an answer to an input that is no module."""
    answer = read_answer(NoModule, text)
    if not answer.diagnostics:
        raise AnswerError("the answer of the library has no diagnostic")
    return NotModule(text, answer.diagnostics[0], answer.error.path, answer.error.byte, answer.error.wanted)


def text_of(status, text):
    """Returns the text of a status that is a report."""
    if status not in (ReportStatus.ACCEPTED, ReportStatus.REFUSED) or not text:
        raise LibraryError(status)
    return Text(text, status == ReportStatus.ACCEPTED)


def report_json(module, options=Options()):
    """Returns the report on a module as a line of JSON. Raises NotModule, OutOfMemory or another Error."""
    status, text = ask_report(module, options.flags)
    if status == ReportStatus.NOT_MODULE:
        raise not_module(text)
    return text_of(status, text)


def report(module, options=Options()):
    """Returns the report on a module, read into dataclasses. Raises NotModule, OutOfMemory or another Error."""
    answer = report_json(module, options)
    found = dataclasses.replace(read_answer(Report, answer.text), text=answer.text)
    if found.is_accepted != answer.is_accepted or (found.verdict == "accepted") != answer.is_accepted:
        raise AnswerError("the answer of the library has another verdict than its status")
    return found


def report_text(module, options=Options()):
    """Returns the report on a module as text for people. Raises NotModule, whose text is for people, too, or another Error."""
    status, text = ask_report(module, options.flags | Flags.FOR_PEOPLE)
    if status != ReportStatus.NOT_MODULE:
        return text_of(status, text)
    try:
        report_json(module, options)
    except NotModule as error:
        error.text = text
        raise
    raise LibraryError(status)


def answer_lines(lines):
    """Returns the replies to lines with questions about types, as the program `typer` prints them. Raises TooLong or another Error."""
    status, text = ask_lines(lines)
    if status == LinesStatus.TOO_LONG:
        raise TooLong
    if status not in (LinesStatus.ANSWERED, LinesStatus.BAD_LINE):
        raise LibraryError(status)
    return Answers(text, status == LinesStatus.ANSWERED)
