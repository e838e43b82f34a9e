# Completion for bash: the commands, options, files and folders of tznode, tzlab, tzrouter and hizmorke.

# The options of a command, and what its words are: file, folder, op, or number; the last kind is that of all further words too.
_tz_grammar() {
    case $1 in
    tznode:format) options='--new' words='file number' ;;
    tznode:resume) options='' words='file number' ;;
    tznode:edit) options='--session --ticket' words='file op' ;;
    tznode:show) options='' words='file' ;;
    tznode:route) options='--words' words='file number' ;;
    tznode:check) options='--words' words='file' ;;
    tznode:tables) options='--words --node' words='file folder' ;;
    tznode:serve) options='--words --editors --forwarders --queue --live --rounds' words='file' ;;
    tznode:migrate | tznode:copy) options='' words='file file' ;;
    tzlab:load) options='--nodes' words='file file' ;;
    tzlab:grow) options='--nodes' words='file file' ;;
    tzlab:info) options='--json' words='file' ;;
    tzlab:landmarks) options='--seed --start --most-entries --most --figures' words='file' ;;
    tzlab:journal) options='--last' words='file' ;;
    tzlab:rehearse) options='--every-stop --most' words='file' ;;
    hizmorke:import)
        options='--as --update --least --scale --weight --columns --delimiter --undirected --names --header --no-header --nodes --grow'
        words='file file'
        ;;
    hizmorke:export) options='--as --words' words='file' ;;
    hizmorke:show) options='' words='file' ;;
    hizmorke:edit) options='--session --ticket' words='file op' ;;
    hizmorke:route) options='--words' words='file number' ;;
    hizmorke:stats) options='--words --pairs --seed --by-node --csv --json' words='file' ;;
    hizmorke:view) options='--connect --token --name --words --port --listen --edit --no-browser' words='file' ;;
    hizmorke:plot) options='--words --out' words='kind file' ;;
    hizmorke:fleet) options='' words='part file' ;;
    hizmorke:time) options='--words --runs --json' words='file' ;;
    hizmorke:gate)
        options='--words --socket --mode --tcp --metrics --program --clients --unanswered --idle --names --forget --token --backups --tables'
        words='file'
        ;;
    *) return 1 ;;
    esac
}

_tz() {
    local current=${COMP_WORDS[COMP_CWORD]} program=${1##*/} at=0 k word last='' options='' words='' kind='' list=''
    local -a kinds
    COMPREPLY=()
    if [ "$program" = tzrouter ]; then
        options=--help kind=file
    elif [ "$COMP_CWORD" -eq 1 ]; then
        case $program in
        tznode) list='format edit show resume route check tables serve copy migrate help --help --version' ;;
        tzlab) list='load grow info landmarks journal rehearse help --help' ;;
        hizmorke) list='import export stats show edit route view plot time gate fleet help --help' ;;
        esac
    else
        _tz_grammar "$program:${COMP_WORDS[1]}" || return 0
        [ "$program" = tznode ] || options+=' --help'
        # How many words stand before this one, without options and their values. Bash takes at:2 for three words.
        for ((k = 2; k < COMP_CWORD; k++)); do
            word=${COMP_WORDS[k]}
            if [ "$word" = : ] || [ "${COMP_WORDS[k - 1]}" = : ]; then continue; fi
            case $word in
            --live | --new | --grow | --header | --no-header | --least | --update | --json | --csv | --by-node | --figures | --every-stop | --edit | --no-browser | --help) last='' ;;
            --*) last=$word ;;
            *)
                [ -n "$last" ] || at=$((at + 1))
                last=''
                ;;
            esac
        done
        # Behind a colon the word before it goes on.
        if [ "$current" = : ] || [ "${COMP_WORDS[COMP_CWORD - 1]}" = : ]; then return 0; fi
        read -ra kinds <<<"$words"
        kind=${kinds[at]-}
        [ -n "$kind" ] || case ${kinds[-1]} in op | number) kind=${kinds[-1]} ;; esac
        case $last in
        --words) kind=choice list='none at: draw:' ;;
        --as)
            kind=choice list='edges csv dimacs dot json graphml gml pajek mm'
            [ "${COMP_WORDS[1]}" != import ] || list='edges dimacs as-rel json gephi konect networkx graphml gml pajek gexf mm'
            ;;
        --start) kind=choice list='best none draw degree' ;;
        --undirected) kind=choice list=min ;;
        --names) [ "${COMP_WORDS[1]}" != gate ] || kind='file' ;;
        --socket | --program | --token | --out | --connect) kind='file' ;;
        --backups | --tables) kind=folder ;;
        --*) return 0 ;;
        esac
    fi
    [[ $current != -* ]] || list=$options
    case $kind:$current in
    *:-*) ;;
    op:*) list='add: set: cut:' ;;
    file:*) compopt -o filenames && mapfile -t COMPREPLY < <(compgen -f -- "$current") ;;
    kind:*) list='network stretch tables' ;;
    part:*) list='wires hand-out send ping trace replica edit run' ;;
    folder:*) compopt -o filenames && mapfile -t COMPREPLY < <(compgen -d -- "$current") ;;
    esac
    [ -n "$list" ] || return 0
    mapfile -t COMPREPLY < <(compgen -W "$list" -- "$current")
    # A word that goes on gets no blank behind it.
    [[ ${#COMPREPLY[@]} -ne 1 || ${COMPREPLY[0]} != *: ]] || compopt -o nospace
}

complete -F _tz tznode tzlab tzrouter hizmorke
