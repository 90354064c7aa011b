# Completion of dyncollate-cmake for fish.
complete -c dyncollate-cmake -n "not __fish_seen_subcommand_from adopt restore status" -f \
  -a "adopt restore status"
complete -c dyncollate-cmake -n "__fish_seen_subcommand_from adopt restore status" -x \
  -a "(__fish_complete_directories)"
complete -c dyncollate-cmake -l help -d "Say how it is called"
complete -c dyncollate-cmake -l version -d "Print the version"
