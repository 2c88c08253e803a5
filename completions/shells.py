"""The texts of the completions, made from the commands of completions/command_line.py."""

BASH = """\
# Completes the words of plan_judge in bash.
# bin/check_completions --write makes this file from the program's help.

_plan_judge()
{
    local current=${COMP_WORDS[COMP_CWORD]} previous=${COMP_WORDS[COMP_CWORD - 1]} words=
    # Bash takes --option=value for three words.
    if [[ $current == = ]]; then
        current=
    elif [[ $previous == = ]]; then
        previous=${COMP_WORDS[COMP_CWORD - 2]}
    fi
    if ((COMP_CWORD == 1)); then
        words='@COMMANDS@'
        [[ $current != -* ]] || words='@OPTIONS@'
    else
        case ${COMP_WORDS[1]}:$previous:$current in
@CASES@
        esac
    fi
    mapfile -t COMPREPLY < <(compgen -W "$words" -- "$current")
}

complete -F _plan_judge plan_judge
"""

ZSH = """\
#compdef plan_judge
# Completes the words of plan_judge in zsh.
# bin/check_completions --write makes this file from the program's help.

_plan_judge() {
    local curcontext=$curcontext state state_descr line
    typeset -A opt_args
    local -a commands=(
@COMMANDS@
    )
    _arguments -C \\
@OPTIONS@
        '1: :->command' \\
        '*:: :->words' && return
    if [[ $state == command ]]; then
        _describe command commands
        return
    fi
    case $words[1] in
@CASES@
    esac
}

_plan_judge "$@"
"""

FISH = """\
# Completes the words of plan_judge in fish.
# bin/check_completions --write makes this file from the program's help.

# Whether the command is one of the arguments; without arguments, whether there is none yet.
function __plan_judge_at
    set -l words (commandline -opc)
    if set -q argv[1]
        set -q words[2]; and contains -- $words[2] $argv
    else
        not set -q words[2]
    end
end

complete -c plan_judge -f
@LINES@
"""


def names_of(options):
    """All names of some options."""
    return [name for one in options for name in one.names]


def quoted(text):
    """A text in single quotes, for bash and zsh."""
    return "'" + text.replace("'", "'\\''") + "'"


def in_bash(option):
    """What bash does where the value of an option is expected."""
    if option.choices:
        return "words=%s ;;" % quoted(" ".join(option.choices))
    return "compopt -o default ;;" if option.takes_file() else ";;"


def bash(commands):
    """The completion for bash."""
    program, *named = commands
    lines = []
    for command in named:
        actions = {}  # what to do, and after which options
        for option in (it for it in command.options if it.value):
            actions.setdefault(in_bash(option), []).extend("%s:%s:*" % (command.name, name) for name in option.names)
        words = " ".join(names_of(command.options) or [it.name for it in named])
        lines += ["%s) %s" % (" | ".join(patterns), action) for action, patterns in actions.items()]
        lines.append("%s:*:%s) words=%s ;;" % (command.name, "-*" if command.takes_files else "*", quoted(words)))
        lines += ["%s:*) compopt -o default ;;" % command.name] if command.takes_files else []
    text = BASH.replace("@COMMANDS@", " ".join(it.name for it in named)).replace("@OPTIONS@", " ".join(names_of(program.options)))
    return text.replace("@CASES@", "\n".join(" " * 12 + it for it in lines))


def in_zsh(option):
    """An option as _arguments of zsh takes it."""
    text = "".join("\\" + it if it in "[]:\\" else it for it in option.text)
    if not option.value and len(option.names) == 1:
        return quoted("%s[%s]" % (option.names[0], text))
    if not option.value:
        alone = "'(- *)'" if "--help" in option.names or "--version" in option.names else ""
        return "%s{%s}%s" % (alone, ",".join(option.names), quoted("[%s]" % text))
    offered = "(%s)" % " ".join(option.choices) if option.choices else "_files" if option.takes_file() else " "
    return " ".join(quoted("%s=[%s]:%s:%s" % (it, text, option.value, offered)) for it in option.names)


def arguments_in_zsh(command):
    """What zsh does after a command."""
    if not command.options:
        return ["_describe command commands"]
    words = [in_zsh(it) for it in command.options] + (["'*:file:_files'"] if command.takes_files else [])
    return ["_arguments \\"] + ["    %s \\" % it for it in words[:-1]] + ["    " + words[-1]]


def zsh(commands):
    """The completion for zsh."""
    program, *named = commands
    lines = []
    for command in named:
        lines += [" " * 8 + command.name + ")"] + [" " * 12 + it for it in arguments_in_zsh(command)] + [" " * 12 + ";;"]
    described = "\n".join(" " * 8 + quoted("%s:%s" % (it.name, it.text.replace(":", "\\:"))) for it in named)
    options = "\n".join(" " * 8 + in_zsh(it) + " \\" for it in program.options)
    return ZSH.replace("@COMMANDS@", described).replace("@OPTIONS@", options).replace("@CASES@", "\n".join(lines))


def in_fish(command, option):
    """An option as complete of fish takes it."""
    names = " ".join("-l " + it[2:] if it.startswith("--") else "-s " + it[1:] for it in option.names)
    value = ""
    if option.value:
        value = " -x -a %s" % fish_quoted(" ".join(option.choices)) if option.choices else " -r -F" if option.takes_file() else " -x"
    return "complete -c plan_judge -n %s %s%s -d %s" % (condition(command), names, value, fish_quoted(option.text))


def condition(command):
    """When a line of fish applies: after the command, or, for the program itself, before any."""
    return fish_quoted(("__plan_judge_at " + command.name).strip())


def fish_quoted(text):
    """A text in single quotes, for fish."""
    return "'" + text.replace("\\", "\\\\").replace("'", "\\'") + "'"


def fish(commands):
    """The completion for fish."""
    program, *named = commands
    start, lines = "complete -c plan_judge -n %s", []
    for command in named:
        lines.append((start + " -a %s -d %s") % (condition(program), command.name, fish_quoted(command.text)))
    for command in commands:
        lines += [in_fish(command, it) for it in command.options]
        if command.takes_files:
            lines.append((start + " -F") % condition(command))
        if command.name == "help":
            lines.append((start + " -a %s") % (condition(command), fish_quoted(" ".join(it.name for it in named))))
    return FISH.replace("@LINES@", "\n".join(lines))


TEXTS = {"plan_judge.bash": bash, "_plan_judge": zsh, "plan_judge.fish": fish}  # the files, and what makes their texts
