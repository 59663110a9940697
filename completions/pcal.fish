# fish completion for pcal
set -l commands translate check map rewrite run trace make

complete -c pcal -f
complete -c pcal -n "not __fish_seen_subcommand_from $commands" -a translate -d "the module with its translation"
complete -c pcal -n "not __fish_seen_subcommand_from $commands" -a check -d "whether anything is wrong with the module"
complete -c pcal -n "not __fish_seen_subcommand_from $commands" -a map -d "where each label is"
complete -c pcal -n "not __fish_seen_subcommand_from $commands" -a rewrite -d "the module in P- or C-syntax"
complete -c pcal -n "not __fish_seen_subcommand_from $commands" -a make -d "counts of a made module"
complete -c pcal -n "not __fish_seen_subcommand_from $commands" -a run -d "the states of the run that a script chooses"
complete -c pcal -n "not __fish_seen_subcommand_from $commands" -a trace -d "the states of a trace, each with its step"

complete -c pcal -n "__fish_seen_subcommand_from translate check map rewrite" -k -a "(__fish_complete_suffix .tla)"
complete -c pcal -n "__fish_seen_subcommand_from run trace" -F
complete -c pcal -n "__fish_seen_subcommand_from translate check map run trace" -l label -d "add labels wherever some are missing"
complete -c pcal -n "__fish_seen_subcommand_from translate run trace" -l no-terminating -d "write no Terminating"
complete -c pcal -n "__fish_seen_subcommand_from rewrite" -l to -x -a "p\tP-syntax c\tC-syntax" -d "the syntax of the algorithm"
