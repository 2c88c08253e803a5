"""Checks whether plans solve a planning task in PDDL, by the library libplan_judge.so, or by the program plan_judge if there is no library.

    judge(domain, problem, plans)    the verdict on each plan, as a Report
    Task(domain, problem)            both, read once: its judge(plans) is the verdict on each plan
    explain(domain, problem, plans)  why a text is refused or a plan fails, in English
    write_report(report)             a Report as a text, in the format that the program prints with --format json
    read_report(text)                a Report of such a text

A domain, a problem or a plan is either a path or a text, depending only on its type:

    os.PathLike, such as pathlib.Path    the path of a file
    str, bytes                           the text itself, never a path
    Named(name, text)                    a text with a name for its file, by which explanations call it

The plans are one of these:

    a path or a text    the plans of one planner
    a sequence of them  each has the plans of another planner, as on the command line of the program
    a mapping           from the name of each planner to a path, a text or a sequence of them

A file or text may hold several plans, separated by lines of three dashes.
"""
from .calls import Dialect, Explanation, Stopper, explain, find_program, judge
from .errors import CallFailed, Error, ProgramMissing, Refused, Stopped
from .inputs import Named, Plans, Text
from .library import find_library
from .records import read_report, write_report
from .tasks import Task
from .verdicts import Action, Atom, Condition, Equality, Fails, Formula, MissesGoal, Planner, Reason, Report, Unreadable, Valid, Verdict

__version__ = "0.3.0"

__all__ = [
    "Action", "Atom", "CallFailed", "Condition", "Dialect", "Equality", "Error", "Explanation", "Fails", "Formula", "MissesGoal", "Named", "Planner", "Plans",
    "ProgramMissing", "Reason", "Refused", "Report", "Stopped", "Stopper", "Task", "Text", "Unreadable", "Valid", "Verdict", "__version__", "explain",
    "find_library", "find_program", "judge", "read_report", "write_report",
]
