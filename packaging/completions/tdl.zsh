#compdef tdl
# zsh completion of tdl(1)

local -a forms names
forms=(hex tag pure raw bracketed link)
case $CURRENT:$words[2] in
2:*) compadd -- canon translate check resolve serve gen migrate class dump merge --help --version ;;
3:canon | 3:translate) compadd -- $forms ;;
4:translate) compadd -- $forms canon ;;
3:gen) ;;
3:class) compadd -- canon uri ;;
3:dump) compadd -- read write ;;
*)
    case $words[CURRENT-1] in
    --tables | --prefixes | --links | --link-text | --second | --third | --describe | --classes) _files ;;
    --keys-only | --templates) compadd -- yes no ;;
    --filter) compadd -- {0..7} ;;
    --gcp) compadd -- {1..12} ;;
    --voc | --count | --listen | --encoding | --stem) ;;
    *)
        case $words[2]:$words[3] in
        canon:* | gen:* | migrate:* | dump:*) names=(--tables) ;;
        class:canon) names=(--tables --classes) ;;
        class:uri) names=(--tables --prefixes --classes --gcp) ;;
        translate:*) names=(--tables --prefixes --filter --gcp --encoding --keys-only --stem) ;;
        check:*) names=(--tables --prefixes --links --link-text --voc --templates) ;;
        resolve:*) names=(--links --link-text --tables --voc --templates --describe) ;;
        serve:*) names=(--links --link-text --count --tables --voc --templates --describe --listen) ;;
        merge:*) names=(--links --second --third --tables --voc) ;;
        esac
        # each option at most once
        compadd -- ${names:|words}
        ;;
    esac
    ;;
esac
