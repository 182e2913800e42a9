complete -c npmver -f
complete -c npmver -n __fish_use_subcommand -a fits -d 'whether the version matches the range'
complete -c npmver -n __fish_use_subcommand -a fits-pre -d 'the same, with pre-releases between the bounds'
complete -c npmver -n __fish_use_subcommand -a best -d 'the highest version that matches'
complete -c npmver -n __fish_use_subcommand -a normal -d 'the canonical form'
complete -c npmver -n __fish_use_subcommand -a meet -d 'whether the bounds of two ranges overlap'
complete -c npmver -n '__fish_seen_subcommand_from fits fits-pre best normal; and test (count (commandline -opc)) -eq 2' -a 'npm normal strict'
complete -c npmver -n __fish_use_subcommand -s h -l help -d 'the commands'
complete -c npmver -n __fish_use_subcommand -s V -l version -d 'the version'
