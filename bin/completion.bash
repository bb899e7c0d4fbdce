# Completion of bfdd and its tools, for bash.
_bfdd() {
    local word="${COMP_WORDS[COMP_CWORD]}" before="${COMP_WORDS[COMP_CWORD - 1]}" words
    COMPREPLY=()
    case "${COMP_WORDS[0]##*/}" in
    bfdd)
        [ "$COMP_CWORD" = 1 ] && mapfile -t COMPREPLY < <(compgen -W "replay serve watch load pair help --help --version" -- "$word") && return
        case "${COMP_WORDS[1]}" in
        replay | load) words="--shards --workers --timers" ;;
        serve) words="--shards --workers --turns --ticks --journal --timers" ;;
        watch) words="--shards" ;;
        esac ;;
    bfdd-capture) words="--help --local --keys --tick --from --to --mode --output" ;;
    bfdd-evidence) words="--help --output --program" ;;
    bfdd-explain) words="--help --report --served --program --session --json" ;;
    bfdd-judge) words="--help --local --keys --slack --json --rules --program" ;;
    bfdd-listing) words="--help --report --served --program --session --peer" ;;
    bfdd-packets) words="--help --report --served --program --sent --output" ;;
    bfdd-peer) words="--help --multihop --interface --tx --rx --mult --passive --auth --json --on-change --record --control --log --version" ;;
    bfdd-probe) words="--help --interface --source --multihop --auth --jitter --json --list" ;;
    bfdd-script) words="--help --output" ;;
    bfdd-timeline) words="--help --report --served --program --output --from --to --lanes --session --peer --title" ;;
    esac
    case "$before" in
    --timers) mapfile -t COMPREPLY < <(compgen -W "hashed levels" -- "$word") && return ;;
    --mode) mapfile -t COMPREPLY < <(compgen -W "active passive" -- "$word") && return ;;
    esac
    case "$word" in
    -*) mapfile -t COMPREPLY < <(compgen -W "${words-}" -- "$word") ;;
    *) mapfile -t COMPREPLY < <(compgen -f -- "$word") ;;
    esac
}
complete -o filenames -F _bfdd bfdd bfdd-capture bfdd-evidence bfdd-explain bfdd-judge bfdd-listing bfdd-packets bfdd-peer bfdd-probe bfdd-script bfdd-timeline
