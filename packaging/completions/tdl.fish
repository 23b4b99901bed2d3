# fish completion of tdl(1)

function __tdl_behind
    # whether the command line has one of these commands
    __fish_seen_subcommand_from $argv
end

function __tdl_place
    # whether that many words precede the one that is completed
    test (count (commandline -opc)) -eq $argv[1]
end

complete -c tdl -f
complete -c tdl -n '__tdl_place 1' -a 'canon translate check resolve serve gen migrate class dump merge'
complete -c tdl -n '__tdl_place 1' -l help
complete -c tdl -n '__tdl_place 1' -l version
complete -c tdl -n '__tdl_place 2; and __tdl_behind canon translate' -a 'hex tag pure raw bracketed link'
complete -c tdl -n '__tdl_place 3; and __tdl_behind translate' -a 'hex tag pure raw bracketed link canon'
complete -c tdl -n '__tdl_place 2; and __tdl_behind class' -a 'canon uri'
complete -c tdl -n '__tdl_place 2; and __tdl_behind dump' -a 'read write'
complete -c tdl -n '__tdl_behind canon translate check resolve serve gen migrate class dump merge' -l tables -r -F
complete -c tdl -n '__tdl_behind translate check uri' -l prefixes -r -F
complete -c tdl -n '__tdl_behind class' -l classes -r -F
complete -c tdl -n '__tdl_behind check resolve serve merge' -l links -r -F
complete -c tdl -n '__tdl_behind check resolve serve' -l link-text -r -F
complete -c tdl -n '__tdl_behind merge' -l second -r -F
complete -c tdl -n '__tdl_behind merge' -l third -r -F
complete -c tdl -n '__tdl_behind check resolve serve merge' -l voc -x
complete -c tdl -n '__tdl_behind check resolve serve' -l templates -x -a 'yes no'
complete -c tdl -n '__tdl_behind resolve serve' -l describe -r -F
complete -c tdl -n '__tdl_behind serve' -l count -x
complete -c tdl -n '__tdl_behind serve' -l listen -x
complete -c tdl -n '__tdl_behind translate' -l filter -x -a '0 1 2 3 4 5 6 7'
complete -c tdl -n '__tdl_behind translate uri' -l gcp -x -a '1 2 3 4 5 6 7 8 9 10 11 12'
complete -c tdl -n '__tdl_behind translate' -l encoding -x
complete -c tdl -n '__tdl_behind translate' -l keys-only -x -a 'yes no'
complete -c tdl -n '__tdl_behind translate' -l stem -x
