# bash completion of tdl(1)

_tdl() {
    local current=${COMP_WORDS[COMP_CWORD]} previous=${COMP_WORDS[COMP_CWORD - 1]}
    local forms="hex tag pure raw bracketed link" words="" place
    case $COMP_CWORD:${COMP_WORDS[1]} in
    1:*) words="canon translate check resolve serve gen migrate class dump merge --help --version" ;;
    2:canon | 2:translate) words=$forms ;;
    3:translate) words="$forms canon" ;;
    2:gen) return ;;
    2:class) words="canon uri" ;;
    2:dump) words="read write" ;;
    *)
        case $previous in
        --tables | --prefixes | --links | --link-text | --second | --third | --describe | --classes)
            compopt -o filenames
            mapfile -t COMPREPLY < <(compgen -f -- "$current")
            return
            ;;
        --keys-only | --templates) words="yes no" ;;
        --filter) words="0 1 2 3 4 5 6 7" ;;
        --gcp) words="1 2 3 4 5 6 7 8 9 10 11 12" ;;
        --voc | --count | --listen | --encoding | --stem) return ;;
        *)
            case ${COMP_WORDS[1]}:${COMP_WORDS[2]} in
            canon:* | gen:* | migrate:* | dump:*) words="--tables" ;;
            class:canon) words="--tables --classes" ;;
            class:uri) words="--tables --prefixes --classes --gcp" ;;
            translate:*) words="--tables --prefixes --filter --gcp --encoding --keys-only --stem" ;;
            check:*) words="--tables --prefixes --links --link-text --voc --templates" ;;
            resolve:*) words="--links --link-text --tables --voc --templates --describe" ;;
            serve:*) words="--links --link-text --count --tables --voc --templates --describe --listen" ;;
            merge:*) words="--links --second --third --tables --voc" ;;
            esac
            # each option at most once
            for place in "${COMP_WORDS[@]:2:COMP_CWORD-2}"; do
                words=" $words "
                words=${words/ $place / }
            done
            ;;
        esac
        ;;
    esac
    mapfile -t COMPREPLY < <(compgen -W "$words" -- "$current")
}

complete -F _tdl tdl
