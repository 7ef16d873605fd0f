# Completion of ygm_run for fish.
complete -c ygm_run -n __fish_is_first_token -f -a tally -d 'Count equal lines'
complete -c ygm_run -n __fish_is_first_token -f -l help -s h -d 'Print a help text'
complete -c ygm_run -n __fish_is_first_token -f -l version -d 'Print the version'
complete -c ygm_run -n 'not __fish_is_first_token' -x -l ranks -d 'Number of ranks, at most 32'
complete -c ygm_run -n 'not __fish_is_first_token' -x -l cores -d 'Number of cores of a node'
complete -c ygm_run -n 'not __fish_is_first_token' -x -l scheme -a 'none nr nlnr' -d 'How letters travel between ranks'
complete -c ygm_run -n 'not __fish_is_first_token' -x -l buffer -d 'The most bytes of a batch of letters, 64 to 65536'
