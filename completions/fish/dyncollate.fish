# Completion of dyncollate for fish.
set -l commands one collate project show effect order
complete -c dyncollate -n "not __fish_seen_subcommand_from $commands" -f -a "$commands"
complete -c dyncollate -n "__fish_seen_subcommand_from one" -k -x -a "(__fish_complete_suffix .ddi)"
complete -c dyncollate -n "__fish_seen_subcommand_from collate project" -k -x \
  -a "(__fish_complete_suffix .json)"
complete -c dyncollate -n "__fish_seen_subcommand_from show" -k -x -a "(__fish_complete_suffix .dd)"
