"""What other tools say about an unexpected result, for readers of a build server's pages: tools/explain about a refused
script, tools/why about a report."""
from __future__ import annotations

from ..command import Stop
from .judging import Judged
from .runs import Printed


def explained(script: str, run: Printed, judged: Judged) -> str:
    """The text of the other tool; empty if there is nothing to say. If that tool fails, the result stays as it is."""
    try:
        if judged.result == "refused":
            return _refusal(script, run)
        return "" if judged.report is None else _reasons(script, judged)
    except Stop as stop:
        return stop.text
    except Exception as error:
        return f"it can't be explained: {type(error).__name__} {error}"


def _refusal(script: str, run: Printed) -> str:
    # Imported here, like the modules below, because most suites have nothing to explain.
    from ..explain.explaining import explain

    with open(script, "rb") as opened:
        data = opened.read()
    return explain(script, data, run.printed.decode("utf-8", "replace").removesuffix("\n")).text()


def _reasons(script: str, judged: Judged) -> str:
    from ..why.beside import case_of, ways_of
    from ..why.reasons import reasons_of

    assert judged.report is not None
    return reasons_of(ways_of(case_of(script), judged.report, f"the report of {script}"))
