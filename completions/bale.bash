# Bash completion for bale. Source this file, or install it as share/bash-completion/completions/bale.

_bale() {
    local current=${COMP_WORDS[COMP_CWORD]} previous=${COMP_WORDS[COMP_CWORD - 1]} application=${COMP_WORDS[1]}
    local choices=""
    if [ "$COMP_CWORD" = 1 ]; then
        choices="histo ig permute transpose topo sssp tally"
    else
        case $previous in
        --grid) choices="1 2 4 8 16 32 64 2x2 4x4 8x8 2x2x2 4x4x4" ;;
        --via)
            choices="convey exstack"
            [ "$application" != ig ] || choices+=" biconvey"
            ;;
        --slots) choices="1 2 4 8" ;;
        --steady) choices="yes no" ;;
        --buffer) choices="1 2 4 8 16 32 64 128 256 512 1024" ;;
        --drive) choices="threads serial" ;;
        --gen | --source | --delta | --seed | --rperm | --cperm) ;;
        *)
            choices="--grid --via --slots --steady --buffer --drive"
            [ "$application" = tally ] || choices+=" --gen"
            case $application in
            sssp) choices+=" --source --delta" ;;
            permute) choices+=" --seed --rperm --cperm" ;;
            esac
            ;;
        esac
    fi
    mapfile -t COMPREPLY < <(compgen -W "$choices" -- "$current")
}

complete -o default -F _bale bale ./bale
