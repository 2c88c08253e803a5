# Completes the words of plan_judge in fish.
# bin/check_completions --write makes this file from the program's help.

# Whether the command is one of the arguments; without arguments, whether there is none yet.
function __plan_judge_at
    set -l words (commandline -opc)
    if set -q argv[1]
        set -q words[2]; and contains -- $words[2] $argv
    else
        not set -q words[2]
    end
end

complete -c plan_judge -f
complete -c plan_judge -n '__plan_judge_at' -a judge -d 'Judges the plans of planners for a domain and a problem in PDDL, and writes a report'
complete -c plan_judge -n '__plan_judge_at' -a explain -d 'Explains, for people, why a domain or a problem is refused, or why plans fail'
complete -c plan_judge -n '__plan_judge_at' -a validate -d 'Says in the phrases of VAL\'s command validate which plans are valid, for scripts that call it'
complete -c plan_judge -n '__plan_judge_at' -a replay -d 'Replays steps at a desk where plans are taken in, given out to be judged, and emitted in order'
complete -c plan_judge -n '__plan_judge_at' -a help -d 'Print this message or the help of the given subcommand(s)'
complete -c plan_judge -n '__plan_judge_at' -s h -l help -d 'Print help'
complete -c plan_judge -n '__plan_judge_at' -s V -l version -d 'Print version'
complete -c plan_judge -n '__plan_judge_at judge' -l domain -r -F -d 'The domain, in PDDL'
complete -c plan_judge -n '__plan_judge_at judge' -l problem -r -F -d 'The problem, in PDDL'
complete -c plan_judge -n '__plan_judge_at judge' -l dialect -x -a 'strips ipc adl' -d 'The language of the domain and the problem'
complete -c plan_judge -n '__plan_judge_at judge' -l format -x -a 'lines tsv json' -d 'How the report is written'
complete -c plan_judge -n '__plan_judge_at judge' -l workers -x -d 'How many threads may judge, 1 to 32'
complete -c plan_judge -n '__plan_judge_at judge' -s h -l help -d 'Print help'
complete -c plan_judge -n '__plan_judge_at judge' -F
complete -c plan_judge -n '__plan_judge_at explain' -l domain -r -F -d 'The domain, in PDDL'
complete -c plan_judge -n '__plan_judge_at explain' -l problem -r -F -d 'The problem, in PDDL'
complete -c plan_judge -n '__plan_judge_at explain' -l dialect -x -a 'strips ipc adl' -d 'The language of the domain and the problem'
complete -c plan_judge -n '__plan_judge_at explain' -l format -x -a 'text json' -d 'How the explanation is written'
complete -c plan_judge -n '__plan_judge_at explain' -l trace -d 'Also tell what each step deletes and adds'
complete -c plan_judge -n '__plan_judge_at explain' -l lint -d 'Also warn of what is probably not meant in the domain and the problem'
complete -c plan_judge -n '__plan_judge_at explain' -s h -l help -d 'Print help'
complete -c plan_judge -n '__plan_judge_at explain' -F
complete -c plan_judge -n '__plan_judge_at validate' -s v -d 'Explain why a plan is not valid, as the command explain does'
complete -c plan_judge -n '__plan_judge_at validate' -s t -x -d 'Changes nothing'
complete -c plan_judge -n '__plan_judge_at validate' -s S -d 'Print a line for each plan'
complete -c plan_judge -n '__plan_judge_at validate' -s h -l help -d 'Print help'
complete -c plan_judge -n '__plan_judge_at validate' -F
complete -c plan_judge -n '__plan_judge_at replay' -l domain -r -F -d 'The domain, in PDDL'
complete -c plan_judge -n '__plan_judge_at replay' -l problem -r -F -d 'The problem, in PDDL'
complete -c plan_judge -n '__plan_judge_at replay' -l steps -r -F -d 'The steps to be replayed'
complete -c plan_judge -n '__plan_judge_at replay' -l dialect -x -a 'strips ipc adl' -d 'The language of the domain and the problem'
complete -c plan_judge -n '__plan_judge_at replay' -s h -l help -d 'Print help'
complete -c plan_judge -n '__plan_judge_at help' -a 'judge explain validate replay help'
