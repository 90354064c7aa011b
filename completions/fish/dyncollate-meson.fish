# Completion of dyncollate-meson for fish.
complete -c dyncollate-meson -n "not __fish_seen_subcommand_from adopt restore" -f \
  -a "adopt restore"
complete -c dyncollate-meson -n "__fish_seen_subcommand_from adopt restore" -x \
  -a "(__fish_complete_directories)"
complete -c dyncollate-meson -l help -d "Say how it is called"
complete -c dyncollate-meson -l version -d "Print the version"
