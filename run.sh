#!/bin/sh
# A station's first day. The program is built where it is not built, a journal is made where there is none, a server is
# started on it, a station with its rating and the readings of a day are put in by curl, and what came is shown.
#
#     sh run.sh [PORT]
#
# The port is 8080 where none is given. The journal is first_day.journal beside this file, and stays: a second run finds
# the edits in it. At a terminal the server goes on until Enter is pressed; it is stopped before the script ends.
# STREAMOFFICE=PROGRAM takes that program, and builds none.
set -u

say() {
    printf '%s\n' "run.sh: $*" >&2
}

port=${1:-8080}
case $port in
    *[!0-9]* | 0* | ??????*) port=0 ;;
esac
if [ $# -gt 1 ] || [ "$port" -lt 1 ] || [ "$port" -gt 65535 ]; then
    say "usage: sh run.sh [PORT], a port from 1 to 65535, as in sh run.sh 8090"
    exit 1
fi

# A program that is named by its place is looked for from where the caller stands.
program=${STREAMOFFICE:-}
case $program in
    /*) ;;
    */*) program=$PWD/$program ;;
esac
CDPATH='' cd -- "$(dirname -- "$0")" || exit 1
journal=first_day.journal
office=http://127.0.0.1:$port
server=
build=
gap=

stop() {
    for child in $build $server; do
        kill "$child" 2> /dev/null
        wait "$child" 2> /dev/null
    done
    build=
    server=
}
trap stop EXIT
trap 'exit 129' HUP
trap 'exit 130' INT
trap 'exit 131' QUIT
trap 'exit 141' PIPE
trap 'exit 143' TERM

# The options of curl that are the user's own are left out.
ask() {
    curl -q -sS --noproxy '*' --max-time 60 "$@"
}

# Whether somebody answers at the port within five seconds, as curl's status: 7 says that nobody listens there.
knock() {
    ask --max-time 5 -o /dev/null "$office/status" 2> /dev/null
}

# What is asked, in words; its target; and for a POST its body, or @ and the name of a file.
show() {
    printf '%b%s\n' "$gap" "$1"
    gap='\n'
    if [ $# -eq 2 ]; then
        printf '  GET %s\n' "$2"
        reply=$(ask "$office$2") || exit 1
    else
        printf '  POST %s\n' "$2${3:+ $3}"
        reply=$(ask --data-binary "$3" "$office$2") || exit 1
    fi
    printf '%s\n' "$reply" | sed 's/^/  /'
}

command -v curl > /dev/null || {
    say "curl is not on the path"
    exit 1
}
if [ -z "$program" ]; then
    program=crates/streamoffice/out/streamoffice
    [ -x "$program" ] || {
        command -v rt > /dev/null || {
            say "rt, the command of the toolchain, is not on the path"
            exit 1
        }
        say "the program is proved and built first, and then tried by a trial; README.md says how long that takes"
        # Beside the script, which else would not heed a signal before the build has ended.
        (cd crates/streamoffice && exec rt run -- trial --number 1) &
        build=$!
        wait "$build" || {
            say "the program was not built"
            exit 1
        }
        build=
    }
fi
case $program in
    */*) [ -f "$program" ] && [ -x "$program" ] ;;
    *) command -v "$program" > /dev/null ;;
esac || {
    say "$program is no program that can be run"
    exit 1
}

knock
if [ $? -ne 7 ]; then
    say "port $port is not free: name another one, as in sh run.sh 8090"
    exit 1
fi

# Status 8 says that a journal is there. What an init that was stopped has left is made anew.
told=$("$program" init --journal "$journal" 2>&1)
made=$?
if [ "$made" -ne 0 ] && [ "$made" -ne 8 ]; then
    say "no journal was made or found: $told (status $made, docs/OPERATING.md)"
    exit "$made"
fi

"$program" serve --journal "$journal" --port "$port" --workers 0 --connections 1000 &
server=$!
tries=0
until knock; do
    if ! kill -0 "$server" 2> /dev/null; then
        wait "$server"
        say "the server ended with status $?; docs/OPERATING.md says what that means"
        server=
        exit 1
    fi
    tries=$((tries + 1))
    if [ "$tries" -gt 30 ]; then
        say "the server runs and did not answer in half a minute; it is stopped"
        exit 1
    fi
    sleep 1
done

day=/stations/01646500/days/2024-01-05
show 'A station is added.' /edits '{"kind":"AddStation","by":"AB","ref":"st-1","site":"01646500","name":"POTOMAC","zone":"-05:00","gap":720,"stage_array":"9999999992","discharge_array":"0222233332"}'
show 'It gets a rating, as a text in RDB.' /ratings/01646500/1/AB/g-1 @examples/rating.rdb
show 'The rating is in force from 1 October 2023 on.' /edits '{"kind":"PutPeriod","by":"AB","ref":"p-1","site":"01646500","rating":1,"from":"2023-10-01T05:00:00Z","until":null}'
show 'Three readings of the stage are put: at the day'\''s beginning, at noon and at its end.' /edits '{"kind":"PutReadings","by":"AB","ref":"u-1","site":"01646500","readings":[["2024-01-05T05:00:00Z","1.00"],["2024-01-05T17:00:00Z","2.00"],["2024-01-06T05:00:00Z","1.00"]]}'
show 'What is known of the day? It awaits an edit, and is not computed yet.' "$day"
show 'A settlement computes all that is pending.' /settle ''
show 'What is known of the day now?' "$day"
known=$reply
show 'How did its value come about?' "$day/sheet"
show 'The station is sent once more, under its reference: nothing is done twice.' /edits '{"kind":"AddStation","by":"AB","ref":"st-1","site":"01646500","name":"POTOMAC","zone":"-05:00","gap":720,"stage_array":"9999999992","discharge_array":"0222233332"}'
show 'How many edits were accepted, and how many days are pending?' /status

printf '\nThe edits are in %s.\n' "$journal"
if [ -t 0 ]; then
    printf 'The server goes on at %s until you press Enter.\n' "$office$day"
    read -r _
fi
case $known in
    *'"answer":"computed"'*) ;;
    *)
        say "the day was not computed"
        exit 1
        ;;
esac
