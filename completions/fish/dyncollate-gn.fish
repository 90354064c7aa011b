# Completion of dyncollate-gn for fish.
complete -c dyncollate-gn -n "not __fish_seen_subcommand_from adopt restore" -f \
  -a "adopt restore"
complete -c dyncollate-gn -n "__fish_seen_subcommand_from adopt restore" -x \
  -a "(__fish_complete_directories)"
complete -c dyncollate-gn -l help -d "Say how it is called"
complete -c dyncollate-gn -l version -d "Print the version"
