# Completion of acc for bash, made by tools/manual from what `acc --help` prints.
_acc_forms='play DESIGN SCRIPT ORDER
rehearse DESIGN CERT SCRIPT ORDER
print DESIGN
draw DESIGN
check DESIGN CERT
prove DESIGN
advise DESIGN HELD STEP SIDE
audit DESIGN COPY
follow DESIGN CERT COPY SIZE
init DESIGN JOURNAL
sched DESIGN CERT SCRIPT ORDER JOURNAL
run DESIGN CERT SCRIPT WORKERS JOURNAL
recover DESIGN CERT JOURNAL
dump DESIGN CERT JOURNAL
replies DESIGN CERT JOURNAL
verify DESIGN CERT JOURNAL
migrate DESIGN CERT OLD JOURNAL
tpcc design
tpcc load W ITEMS CUSTOMERS
tpcc mix W ITEMS CUSTOMERS COUNT START
booking design
booking verify DESIGN CERT JOURNAL
bench DESIGN CERT W ITEMS CUSTOMERS COUNT START
--help
--version'

# The points of a design, as TYPE.POINT.
_acc_points() {
    awk '!/^ *#/ { n = split($0, part, ";"); for (i = 1; i <= n; i++) { split(part[i], word, " ")
        if (word[1] == "type") type = word[2]; if (word[1] == "point") print type "." word[2] } }' "$1" 2> /dev/null
}

# Adds what may stand at a place of a form: the word itself, or what it stands for; $2 is the design that the form has.
_acc_add() {
    local -a more
    case $1 in
        '') return ;;
        DESIGN) _acc_files '.design' ;;
        CERT) _acc_files '.cert' ;;
        SCRIPT) _acc_files '.script' ;;
        ORDER) _acc_files '.order' ;;
        JOURNAL) _acc_files '.journal' ;;
        OLD) _acc_files '.journal' ;;
        COPY) _acc_files '.journal' ;;
        HELD) mapfile -t more < <(compgen -W "$(_acc_points "$2")" -- "$word") ;;
        STEP) mapfile -t more < <(compgen -W "$(_acc_points "$2")" -- "$word") ;;
        SIDE) mapfile -t more < <(compgen -W 'next undo' -- "$word") ;;
        [[:upper:]]*) return ;;
        *) mapfile -t more < <(compgen -W "$1" -- "$word") ;;
    esac
    COMPREPLY+=("${more[@]}")
}

# Files with an ending and folders, or any files where there are none.
_acc_files() {
    compopt -o filenames 2> /dev/null
    mapfile -t more < <(compgen -f -X "!*$1" -- "$word"; compgen -d -- "$word")
    [ "${#more[@]}" -gt 0 ] || mapfile -t more < <(compgen -f -- "$word")
}

_acc() {
    local word=${COMP_WORDS[COMP_CWORD]} i
    local -a typed=("${COMP_WORDS[@]:1:COMP_CWORD-1}") form
    COMPREPLY=()
    [ "${#typed[@]}" -gt 0 ] || mapfile -t COMPREPLY < <(compgen -W '--unproved' -- "$word")
    [ "${typed[0]-}" != --unproved ] || typed=("${typed[@]:1}")
    while read -r -a form; do
        local design=''
        for ((i = 0; i < ${#typed[@]}; i++)); do
            case ${form[i]-} in
                DESIGN) design=${typed[i]} ;;
                [[:upper:]]*) ;;
                "${typed[i]}") ;;
                *) continue 2 ;;
            esac
        done
        _acc_add "${form[${#typed[@]}]-}" "$design"
    done <<< "$_acc_forms"
    mapfile -t COMPREPLY < <(printf '%s\n' "${COMPREPLY[@]}" | sort -u)
    [ -n "${COMPREPLY[0]-}" ] || COMPREPLY=()
}

complete -F _acc acc
