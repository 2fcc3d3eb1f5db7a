complete -c fit -f
complete -c fit -n __fish_use_subcommand -a check -d 'say whether it is a chain of FIT files'
complete -c fit -n __fish_use_subcommand -a show -d 'write its messages'
complete -c fit -n __fish_use_subcommand -a to-csv -d 'write all of it as CSV text'
complete -c fit -n __fish_use_subcommand -a from-csv -d 'make files of that text'
complete -c fit -n __fish_use_subcommand -a table -d 'write a row for each record message'
complete -c fit -n '__fish_seen_subcommand_from check show to-csv table; and test (count (commandline -opc)) -eq 2' -k -a '(__fish_complete_suffix .fit)'
complete -c fit -n '__fish_seen_subcommand_from from-csv; and test (count (commandline -opc)) -eq 2' -k -a '(__fish_complete_suffix .csv)'
