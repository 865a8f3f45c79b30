"""Reports on naga's shader modules, by a proved library in the process.

>>> import pethuvazh
>>> report = pethuvazh.report(module, pethuvazh.Options(resources=True))
>>> if not report.is_accepted:
...     for it in report.diagnostics:
...         print(it.code, it.message)

The input is a module of naga 30 as serde_json prints it: bytes or any other buffer, or a str. `report` reads the answer into
dataclasses; `report_json` and `report_text` return the bytes that the program `report` prints. A call keeps no state, so threads may
call at the same time.

The library is the file libpethuvazh.so in the folder that PETHUVAZH_LIB names. Without that variable it is the one beside this package,
or that which bindings/build makes.
"""
from .calls import Answers, Text, answer_lines, report, report_json, report_text
from .errors import AnswerError, Error, LibraryError, NotModule, OutOfMemory, TooLong, VersionError
from .flags import Flags
from .options import BoundsCheckPolicies, BoundsCheckPolicy, Options, Uniformity
from .views import Diagnostic, Layout, LayoutError, Location, Outcome, Report

__version__ = "0.3.0"
__all__ = """AnswerError Answers BoundsCheckPolicies BoundsCheckPolicy Diagnostic Error Flags Layout LayoutError LibraryError Location
    NotModule Options Outcome OutOfMemory Report Text TooLong Uniformity VersionError answer_lines report report_json report_text""".split()
