# Completion of dired and wdired for fish.
complete -c dired -f
complete -c dired -n __fish_use_subcommand -a list -d 'print a listing'
complete -c dired -n __fish_use_subcommand -a commit -d 'carry out what was edited in a listing'
complete -c dired -n __fish_use_subcommand -a recover -d 'bring what a stopped commit left to the edited or the old tree'
complete -c dired -n __fish_use_subcommand -a drill -d 'commit a great edit in memory, and count what was done'
complete -c dired -n '__fish_seen_subcommand_from list' -a '(__fish_complete_directories)'
complete -c dired -n '__fish_seen_subcommand_from commit' -F
complete -c dired -n '__fish_seen_subcommand_from commit' -l all -d 'replace whatever stands at new names'
complete -c dired -n '__fish_seen_subcommand_from recover' -l back -d 'go back to the old tree'
complete -c wdired -f -a '(__fish_complete_directories)'
for command in 'dired -n "__fish_seen_subcommand_from list"' wdired
    eval complete -c $command -o A -d '"list hidden names, too"'
    eval complete -c $command -o l -d '"list as ls -l"'
    eval complete -c $command -o t -d '"the newest first"'
    eval complete -c $command -o S -d '"the largest first"'
    eval complete -c $command -o r -d '"the other way round"'
end
