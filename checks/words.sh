# Whether words can be a command of bale: the names of the applications and of their options, and what a
# value looks like, as crates/bale_words/specs/Words.antt has them. ./bale refuses words by this table
# before it compiles a program, which then reads them again; checks/run compares the two on
# the rows of checks/commands.txt.

declare -A shape_of=(
    [grid]='[0-9]+(x[0-9]+){0,2}' [via]='convey|exstack' [slots]='0*[1248]' [steady]='yes|no'
    [buffer]='0*(1|2|4|8|16|32|64|128|256|512|1024)' [drive]='threads|serial' [gen]='[0-9]+,[0-9]+,[0-9]+'
    [source]='[0-9]+' [delta]='[0-9]+' [seed]='[0-9]+' [rperm]='[0-9]+(,[0-9]+)*' [cperm]='[0-9]+(,[0-9]+)*'
)

may_be_command() { # words..
    local names="grid via slots steady buffer drive gen" name value shape given=" "
    case ${1:-} in
    histo | ig | transpose | topo) ;;
    permute) names+=" seed rperm cperm" ;;
    sssp) names+=" source delta" ;;
    tally) names=${names% gen} ;;
    *) return 1 ;;
    esac
    [ "$1" != ig ] || shape_of[via]+='|biconvey'
    shift
    while [ $# -gt 0 ]; do
        case $1 in
        --*=*)
            name=${1%%=*}
            value=${1#*=}
            shift
            ;;
        --?*)
            [ $# -gt 1 ] || return 1
            name=$1
            value=$2
            shift 2
            ;;
        *) return 1 ;;
        esac
        name=${name#--}
        [[ -n $name && " $names " = *" $name "* && $given != *" $name "* ]] || return 1
        shape=${shape_of[$name]}
        [[ $value =~ ^($shape)$ ]] || return 1
        given+="$name "
    done
}
