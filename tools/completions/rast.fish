# Completion for rast and its companions in fish.
set -l budgets '10 100 1000 10000 100000 1000000'
set -l files '(__fish_complete_suffix .rast)'

complete -c rast -f
complete -c rast -n __fish_use_subcommand -a run -d 'check and run the program of a file'
complete -c rast -n __fish_use_subcommand -a check -d 'say whether a program is accepted'
complete -c rast -n __fish_use_subcommand -a show -d 'print the canonical text of a file'
complete -c rast -n __fish_use_subcommand -a decide -d 'say whether a formula holds'
complete -c rast -n '__fish_seen_subcommand_from run' -l budget -x -a $budgets -d 'the most events'
complete -c rast -n '__fish_seen_subcommand_from run' -l trace -d 'print a line for each event'
complete -c rast -n '__fish_seen_subcommand_from run check show' -k -a $files

complete -c rast-chart -k -f -a $files
complete -c rast-chart -l format -x -a 'svg html mermaid' -d 'the form of the chart'
complete -c rast-chart -s o -r -F -d 'where the chart goes'
complete -c rast-chart -l events -x -d 'only these events'
complete -c rast-chart -l moments -x -d 'only these moments'
complete -c rast-chart -l process -x -d 'only this process'
complete -c rast-chart -l fold -d 'one lifeline for a name'
complete -c rast-chart -l budget -x -a $budgets -d 'the most events'
complete -c rast-chart -l rast -r -F -d 'the program rast'
complete -c rast-chart -l help -d 'help'

complete -c rast-states -k -f -a $files
complete -c rast-states -l format -x -a 'svg dot' -d 'the form of the diagram'
complete -c rast-states -s o -r -F -d 'where the diagram goes'
complete -c rast-states -l help -d 'help'

complete -c rast-many -k -f -a $files
complete -c rast-many -l jobs -x -d 'how many files at once'
complete -c rast-many -l quiet -d 'no progress line'
complete -c rast-many -l rast -r -F -d 'the program rast'
complete -c rast-many -l help -d 'help'
