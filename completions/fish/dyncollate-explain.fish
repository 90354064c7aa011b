# Completion of dyncollate-explain for fish.
complete -c dyncollate-explain -s h -l help -d "Say how it is called"
complete -c dyncollate-explain -l version -d "Print the version"
complete -c dyncollate-explain -l page -r -F -d "Also write a page for browsers"
