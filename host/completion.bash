# Completion of glintloom in bash. Verbs, options and numbers are those that the program itself lists.
_glintloom() {
    local program=$1 word=$2 before=$3 help verbs verb= earlier words=
    help=$("$program" help 2>/dev/null)
    verbs=$(sed -n 's/^glintloom \([a-z][a-z-]*\) .*/\1/p' <<<"$help")
    for earlier in "${COMP_WORDS[@]:1:COMP_CWORD-1}"; do
        [[ -n $verb ]] || verb=$(grep -Fx -e "$earlier" <<<"$verbs")
    done
    if [[ $before == -o ]]; then
        words=
    elif [[ $word == -* ]]; then
        words=$(sed -n 's/^  \(-[a-z0-9-]*\) .*/\1/p' <<<"$help")
    elif [[ -z $verb ]]; then
        words=$verbs
    elif [[ $verb == explain ]]; then
        words=$("$program" explain 2>/dev/null | sed -n 's/^ *\([0-9][0-9]*\) .*/\1/p')
    fi
    mapfile -t COMPREPLY < <(compgen -W "$words" -- "$word")
}
# Where it has nothing to offer, bash offers file names.
complete -o default -F _glintloom glintloom
