"""The metric of a problem, which plan_judge passes over: the score is for minimizing total-cost, and for a problem without a metric."""
from __future__ import annotations

import re
from typing import Optional

COMMENT = re.compile(rb";[^\n]*")
SECTION = re.compile(rb"\([ \t\n\r\v\f]*:metric(?=[ \t\n\r\v\f()])", re.IGNORECASE)
TOKEN = re.compile(rb"[()]|[^ \t\n\r\v\f()]+")
SCORED = ["minimize (total-cost)", "minimize total-cost"]
LONGEST = 80  # letters of a metric that are shown


def metric_of(text: bytes) -> Optional[str]:
    """The metric of a problem that plan_judge accepts, in lower case with single spaces, or None if the problem has none."""
    text, depth, passed = COMMENT.sub(b"", text), 0, 0
    for found in SECTION.finditer(text):
        depth += text.count(b"(", passed, found.start()) - text.count(b")", passed, found.start())
        passed = found.start()
        if depth == 1:  # a section of the definition, and no list that another section holds
            return spelled(text, found.end())
    return None


def spelled(text: bytes, start: int) -> str:
    """The words from an offset on, up to the end of the list that is open there."""
    words, depth = "", 0
    for found in TOKEN.finditer(text, start):
        word = found.group().decode("ascii", "backslashreplace").lower()
        depth += {"(": 1, ")": -1}.get(word, 0)
        if depth < 0:
            break
        words += word if word == ")" or words[-1:] in ("", "(") else " " + word
        if len(words) > LONGEST:
            return words[:LONGEST] + ".."
    return words


def why_unscored(text: bytes) -> str:
    """Why plans for a problem are not scored, or nothing if they are."""
    metric = metric_of(text)
    if metric is None or metric in SCORED:
        return ""
    return "the metric is %s" % metric if metric else "the metric is empty"
