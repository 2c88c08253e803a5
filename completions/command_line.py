"""The words that plan_judge takes, as its help lists them."""
import dataclasses
import re
import subprocess

FILES = {"DOMAIN", "PROBLEM", "STEPS", "PLANS"}  # the values that are files, as the help calls them
OTHER = {"N"}  # the values for which a shell has nothing to offer
ENTRY = {
    "Commands": re.compile(r" {2}(?P<name>[a-z][\w-]*)(?: {2,}(?P<text>.*))?"),
    "Arguments": re.compile(r" {2}[<\[](?P<value>\w+)[>\]](?:\.{3})?(?: {2,}(?P<text>.*))?"),
    "Options": re.compile(r" {2,6}(?=-)(?P<short>-\w)?(?:, )?(?P<long>--[\w-]+)?(?: <(?P<value>\w+)>)?(?: {2,}(?P<text>.*))?"),
}


class Wrong(Exception):
    """What is wrong, in words."""


@dataclasses.dataclass
class Option:
    """An option, with the name of its value ("" if it has none) and the possible values, if the help lists them."""
    names: list
    value: str
    choices: list
    text: str

    def takes_file(self):
        return self.value in FILES


@dataclasses.dataclass
class Command:
    """A command with its options. The program itself is one too, with the name ""."""
    name: str
    text: str = ""
    options: list = dataclasses.field(default_factory=list)
    takes_files: bool = False


def run_help(program, *words):
    """What the help of the program, or of a command, says."""
    try:
        done = subprocess.run([program, *words, "--help"], stdin=subprocess.DEVNULL, capture_output=True, text=True)
    except OSError as error:
        raise Wrong("cannot run %s: %s" % (program, error.strerror)) from error
    if done.returncode != 0:
        raise Wrong("%s ends with status %d" % (" ".join([program, *words, "--help"]), done.returncode))
    return done.stdout


def entries(help_text, section):
    """The entries of a section of a help, each with its text in one line."""
    found, inside = [], False
    for line in help_text.splitlines():
        if line and not line.startswith(" "):
            inside = line == section + ":"
        elif inside and (entry := ENTRY[section].fullmatch(line)):
            parts = entry.groupdict()
            found.append(dict(parts, text=parts["text"] or ""))
        elif inside and found:
            found[-1]["text"] = (found[-1]["text"] + " " + line.strip()).strip()
    return found


def short(text):
    """The beginning of a text, up to the end of its first clause."""
    return re.split(r"[:;.](?: |$)| *\[| *Possible values:", text)[0]


def option_of(entry):
    """The option of an entry, whose possible values are in brackets or in a list at the end of its text."""
    text, value = entry["text"], entry["value"] or ""
    choices, listed = re.search(r"\[possible values: ([^\]]*)\]", text), text.partition("Possible values: ")[2]
    names = [it for it in (entry["short"], entry["long"]) if it]
    one = Option(names, value, choices.group(1).split(", ") if choices else re.findall(r"(?:^| )- ([\w-]+)", listed), short(text))
    if value not in FILES | OTHER | {""} and not one.choices:
        raise Wrong("%s has a value %s, which completions/command_line.py has neither in FILES nor in OTHER" % (names[-1], value))
    return one


def command_line(program):
    """The program's own options, and its commands, as a list that begins with the program itself."""
    text = run_help(program)
    commands = [Command("", options=[option_of(it) for it in entries(text, "Options")])]
    for entry in entries(text, "Commands"):
        command = Command(entry["name"], short(entry["text"]))
        if command.name != "help":
            own = run_help(program, command.name)
            command.options = [option_of(it) for it in entries(own, "Options")]
            command.takes_files = any(it["value"] in FILES for it in entries(own, "Arguments"))
        commands.append(command)
    if len(commands) == 1 or not all(it.options for it in commands if it.name != "help"):
        raise Wrong("the help of %s lists no commands, or a command without options" % program)
    return commands
