# Completion of dwv and dwv-addr in fish.
complete -c dwv -n __fish_use_subcommand -f -a check -d 'print the verdict'
complete -c dwv -n __fish_use_subcommand -f -a show -d 'list the entries'
complete -c dwv -n __fish_use_subcommand -f -a types -d 'print C declarations'
complete -c dwv -n __fish_use_subcommand -f -a size -d 'print the size of a type'
complete -c dwv -n '__fish_seen_subcommand_from check' -l json -d 'print one JSON object'
complete -c dwv-addr -n __fish_use_subcommand -f -a check -d 'print the verdict'
complete -c dwv-addr -n __fish_use_subcommand -f -a find -d 'print the functions and lines of addresses'
complete -c dwv-addr -n '__fish_seen_subcommand_from check find' -l json -d 'print JSON objects'
