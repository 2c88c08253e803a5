# Completes the words of plan_judge in bash.
# bin/check_completions --write makes this file from the program's help.

_plan_judge()
{
    local current=${COMP_WORDS[COMP_CWORD]} previous=${COMP_WORDS[COMP_CWORD - 1]} words=
    # Bash takes --option=value for three words.
    if [[ $current == = ]]; then
        current=
    elif [[ $previous == = ]]; then
        previous=${COMP_WORDS[COMP_CWORD - 2]}
    fi
    if ((COMP_CWORD == 1)); then
        words='judge explain validate replay help'
        [[ $current != -* ]] || words='-h --help -V --version'
    else
        case ${COMP_WORDS[1]}:$previous:$current in
            judge:--domain:* | judge:--problem:*) compopt -o default ;;
            judge:--dialect:*) words='strips ipc adl' ;;
            judge:--format:*) words='lines tsv json' ;;
            judge:--workers:*) ;;
            judge:*:-*) words='--domain --problem --dialect --format --workers -h --help' ;;
            judge:*) compopt -o default ;;
            explain:--domain:* | explain:--problem:*) compopt -o default ;;
            explain:--dialect:*) words='strips ipc adl' ;;
            explain:--format:*) words='text json' ;;
            explain:*:-*) words='--domain --problem --dialect --format --trace --lint -h --help' ;;
            explain:*) compopt -o default ;;
            validate:-t:*) ;;
            validate:*:-*) words='-v -t -S -h --help' ;;
            validate:*) compopt -o default ;;
            replay:--domain:* | replay:--problem:* | replay:--steps:*) compopt -o default ;;
            replay:--dialect:*) words='strips ipc adl' ;;
            replay:*:*) words='--domain --problem --steps --dialect -h --help' ;;
            help:*:*) words='judge explain validate replay help' ;;
        esac
    fi
    mapfile -t COMPREPLY < <(compgen -W "$words" -- "$current")
}

complete -F _plan_judge plan_judge
