#!/usr/bin/env bash
# Plays random scenarios with a program, and checks each report with check_report.py.
#
#   tests/outside/campaigns/play_many.sh [OPTIONS] PROGRAM [COUNT] [TIMES]
#
# For each seed from 1 to COUNT (200) it makes a scenario, runs `PROGRAM play FILE --watch` TIMES (5)
# times and `PROGRAM replay FILE` once, and checks what each run printed. What `replay` prints must
# also be what simulate.py prints, byte for byte, and in what `play` prints each client must take a
# reply only where its next step can't be done yet. Each failure is told with its seed. Ends with 0
# only where every run was accepted.
#
#   --seconds S     the longest time of one run (20)
#   --minutes M     the longest time of all (20); what is left then counts as failed
#   --first SEED    the first seed (1)
#   --keep FOLDER   where the scenario and the report of each failure are left

set -u
here=$(cd "$(dirname "${BASH_SOURCE[0]}")/.." && pwd)
seconds=20 minutes=20 first=1 keep=

usage() {
    echo "words: [--seconds S] [--minutes M] [--first SEED] [--keep FOLDER] PROGRAM [COUNT] [TIMES]" >&2
    exit 2
}

while [ $# -gt 0 ]; do
    case $1 in
        --seconds | --minutes | --first | --keep)
            [ $# -ge 2 ] || usage
            case $1 in
                --seconds) seconds=$2 ;;
                --minutes) minutes=$2 ;;
                --first) first=$2 ;;
                --keep) keep=$2 ;;
            esac
            shift 2 ;;
        --*) usage ;;
        *) break ;;
    esac
done
if [ $# -lt 1 ] || [ $# -gt 3 ]; then usage; fi
program=$1 count=${2:-200} times=${3:-5}
for number in "$seconds" "$minutes" "$first" "$count" "$times"; do
    case $number in '' | *[!0-9]*) usage ;; esac
done
if ! command -v "$program" > /dev/null; then
    echo "file: $program" >&2
    exit 2
fi
[ -z "$keep" ] || mkdir -p "$keep" || exit 2

room=$(mktemp -d) || exit 2
trap 'rm -rf "$room"' EXIT
passed=0 failed=0
last=$((first + count - 1))

# fail SEED RUN REASON
fail() {
    failed=$((failed + 1))
    echo "seed $1, $2: $3"
    if [ -n "$keep" ]; then
        cp "$room/scenario.json" "$keep/$1.json"
        cp "$room/out" "$keep/$1.${2// /}.out"
    fi
}

# run_one SEED RUN OPTIONS WORDS..: runs the program and checks what it printed with these options
run_one() {
    local seed=$1 run=$2 options=$3 status
    shift 3
    timeout -k 2 "$seconds" "$program" "$@" > "$room/out" 2> "$room/err" < /dev/null
    status=$?
    if [ "$status" -eq 124 ] || [ "$status" -eq 137 ]; then
        fail "$seed" "$run" "it took more than $seconds seconds"
    elif [ "$status" -ne 0 ]; then
        fail "$seed" "$run" "status $status: $(head -n 1 "$room/err")"
    elif [ -s "$room/err" ]; then
        fail "$seed" "$run" "it wrote on standard error: $(head -n 1 "$room/err")"
    elif ! python3 "$here/rules/check_report.py" "$room/scenario.json" "$room/out" $options 2> "$room/fault"; then
        fail "$seed" "$run" "$(tail -n 1 "$room/fault")"
    elif [ "$run" = replay ] && ! cmp -s "$room/out" "$room/simulated"; then
        fail "$seed" "$run" "the simulation prints another report: $(cmp "$room/out" "$room/simulated" 2>&1 | sed 's/.*: //; s/.*differ/differs/')"
    else
        passed=$((passed + 1))
    fi
}

for ((seed = first; seed <= last; seed++)); do
    if ((SECONDS >= minutes * 60)); then
        left=$(((last - seed + 1) * (times + 1)))
        failed=$((failed + left))
        echo "the time is over: seeds $seed to $last were not tried"
        break
    fi
    if ! python3 "$here/tests/random_scenario.py" "$seed" > "$room/scenario.json" ||
        ! python3 "$here/rules/simulate.py" "$room/scenario.json" > "$room/simulated"; then
        echo "seed $seed: no scenario was made" >&2
        failed=$((failed + times + 1))
        continue
    fi
    for ((run = 1; run <= times; run++)); do
        run_one "$seed" "play $run" "--watch --play" play "$room/scenario.json" --watch
    done
    run_one "$seed" replay "" replay "$room/scenario.json"
done

echo "$passed passed, $failed failed"
[ "$failed" -eq 0 ]
