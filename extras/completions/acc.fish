# Completion of acc for fish, made by tools/manual from what `acc --help` prints.
set -g __acc_forms \
    'play DESIGN SCRIPT ORDER|plays the script in the order\'s turns, and prints the turns and the replies' \
    'rehearse DESIGN CERT SCRIPT ORDER|the same by rules of locks, if the certificate proves it sound; ends the rest' \
    'print DESIGN|prints the design in its one spelling' \
    'draw DESIGN|prints a picture of the design, as Graphviz reads it' \
    'check DESIGN CERT|tells whether the certificate proves that the design is sound, and else why not' \
    'prove DESIGN|makes such a certificate, or tells which obligations stay open' \
    'advise DESIGN HELD STEP SIDE|tells which entry lets the step go where HELD is held, and forbids least' \
    'audit DESIGN COPY|tells whether a clause is false after an event of a journal, whoever wrote it' \
    'follow DESIGN CERT COPY SIZE|replays a journal\'s whole batches, read in pieces of SIZE bytes, and prints the rows' \
    'init DESIGN JOURNAL|makes JOURNAL a journal of the design without events, if it isn\'t one already' \
    'sched DESIGN CERT SCRIPT ORDER JOURNAL|recovers the journal, and goes on as `rehearse`; each end is kept in it' \
    'run DESIGN CERT SCRIPT WORKERS JOURNAL|recovers the journal, and 1 to 64 workers run the script; each end is kept in it' \
    'recover DESIGN CERT JOURNAL|ends what its events left unfinished, and tells how many events there are then' \
    'dump DESIGN CERT JOURNAL|does the same, and prints the rows that its events lead to' \
    'replies DESIGN CERT JOURNAL|does the same, and prints how each transaction ended, by its number' \
    'verify DESIGN CERT JOURNAL|does the same, and tells which of TPC-C\'s conditions 1 to 9 are true of its rows' \
    'migrate DESIGN CERT OLD JOURNAL|makes JOURNAL a new journal of what is recovered from OLD, which stays as it is' \
    'tpcc design|prints the design of TPC-C\'s transactions that the program brings along' \
    'tpcc load W ITEMS CUSTOMERS|prints a script that fills W warehouses of TPC-C, 1 to 10, as the standard says' \
    'tpcc mix W ITEMS CUSTOMERS COUNT START|prints a script of COUNT of TPC-C\'s transactions behind that, drawn from START' \
    'booking design|prints the design of bookings of seats and rooms that the program brings along' \
    'booking verify DESIGN CERT JOURNAL|recovers a journal of that design, and tells that no seat or room is sold twice' \
    'bench DESIGN CERT W ITEMS CUSTOMERS COUNT START|runs both in memory, and tells whether TPC-C\'s conditions are true' \
    '--help|prints these lines' \
    '--version|prints the version of acc, and of the toolchain that proved it'

# The points of a design, as TYPE.POINT.
function __acc_points
    awk '!/^ *#/ { n = split($0, part, ";"); for (i = 1; i <= n; i++) { split(part[i], word, " ")
        if (word[1] == "type") type = word[2]; if (word[1] == "point") print type "." word[2] } }' $argv[1] 2>/dev/null
end

# What may stand at a place of a form; the second word is what the form's command does, the third the design that it has.
function __acc_add
    switch $argv[1]
        case ''
        case DESIGN
            __fish_complete_suffix .design
        case CERT
            __fish_complete_suffix .cert
        case SCRIPT
            __fish_complete_suffix .script
        case ORDER
            __fish_complete_suffix .order
        case JOURNAL
            __fish_complete_suffix .journal
        case OLD
            __fish_complete_suffix .journal
        case COPY
            __fish_complete_suffix .journal
        case HELD
            __acc_points $argv[3]
        case STEP
            __acc_points $argv[3]
        case SIDE
            string split ' ' 'next undo'
        case '*'
            string match -qr '^[A-Z]' -- $argv[1]; or printf '%s\t%s\n' $argv[1] $argv[2]
    end
end

function __acc_complete
    set -l typed (commandline -opc)[2..-1]
    test (count $typed) -gt 0; or printf '%s\t%s\n' --unproved 'runs without a proof, and slow'
    test "$typed[1]" != --unproved; or set -e typed[1]
    for line in $__acc_forms
        set -l parts (string split -m 1 '|' -- $line)
        set -l form (string split ' ' -- $parts[1])
        set -l next (math (count $typed) + 1)
        set -l behind (math (count $typed) + 2)
        set -l design
        set -l fits yes
        for i in (seq (count $typed))
            test "$form[$i]" = DESIGN; and set design $typed[$i]
            string match -qr '^[A-Z]' -- "$form[$i]"; or test "$form[$i]" = "$typed[$i]"; or set fits no
        end
        # what a command does stands behind the last word of its verb
        string match -qr '^[a-z]' -- "$form[$behind]"; and set parts[2] ''
        test $fits = yes; and __acc_add "$form[$next]" $parts[2] "$design"
    end
end

complete -c acc -f -k -a '(__acc_complete)'
