#!/usr/bin/env bash
# Runs two programs many times, by several numbers of workers, and compares what each run writes and reports: whatever the
# schedule, the bytes are the same. The first has forty activations that read what others write, mostly two before or behind them: some
# wait for one another and are starved, one traps and poisons four. Its runs are compared with one by one worker. The second,
# `examples/smooth.c`, has forty activations that can all run at once; it is run over the bytes 0 to 41, whose means by three are the
# bytes 1 to 40. The last line is `N passed, M failed`.
#
#     tests/schedules.sh [RUNS]       10,000 runs of each, where no number is given
set -u
top=$(cd "$(dirname "${BASH_SOURCE[0]}")/.." && pwd)
. "$top/tests/programs.bash"
program=$osrun_program
runs=${1:-10000}
work=$(mktemp -d)
trap 'rm -rf "$work"' EXIT
cd "$work" || exit 2
cat >program.c <<'END'
int turns(int n) {
    int k;
    int sum = 0;
    for (k = 0; k < n; k++) sum = sum + k;
    return sum & 255;
}
int main(void) {
    int s[40] __attribute__((stream));
    int i, x, y, z;
    for (i = 0; i < 40; i++) {
        if (i < 5) {
            #pragma omp task output(osout << y, s[i] << z)
            { y = turns(i * 50); z = y; }
        } else if (i == 17) {
            #pragma omp task input(s[i - 10] >> x) output(osout << y, s[i] << z)
            { y = x / (i - 17); z = y; }
        } else if (i % 9 == 0) {
            #pragma omp task input(s[i + 2] >> x) output(osout << y, s[i] << z)
            { y = (x + turns(i)) & 255; z = y; }
        } else {
            #pragma omp task input(s[i - 2] >> x) output(osout << y, s[i] << z)
            { y = (x + turns(i * 20)) & 255; z = y; }
        }
    }
    return 0;
}
END
: >input
"$program" run program.c input --workers 1 >wanted 2>reported
wanted_status=$?
cp "$top/examples/smooth.c" .
# numbers FIRST LAST: the bytes of these values.
numbers() {
    printf "$(seq "$1" "$2" | awk '{ printf "\\%03o", $1 }')"
}
numbers 0 41 >counting
numbers 1 40 >means
printf 'control done\noutput 40 of 40\n' >told
passed=0
failed=0
# repeats PROGRAM INPUT OUTPUT REPORT STATUS: runs a program so often, and compares each run with what is wanted.
repeats() {
    local number workers status
    for number in $(seq 1 "$runs"); do
        case $((number % 4)) in 0) workers=1 ;; 1) workers=2 ;; 2) workers=7 ;; 3) workers=64 ;; esac
        "$program" run "$1" "$2" --workers "$workers" >out 2>report
        status=$?
        if [ "$status" = "$5" ] && cmp -s out "$3" && cmp -s report "$4"; then
            passed=$((passed + 1))
        else
            failed=$((failed + 1))
            echo "run $number of $1 by $workers workers: status $status"
        fi
    done
}
repeats program.c input wanted reported "$wanted_status"
repeats smooth.c counting means told 0
echo "$passed passed, $failed failed"
[ "$failed" = 0 ]
