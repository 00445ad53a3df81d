#!/usr/bin/env bash
# What a step of the machine costs, as a table: for a body of integer arithmetic, one that goes through windows, one that
# calls a function and one over a local array the machine instructions and the nanoseconds of a step. Beside the first two
# stand those of a small interpreter of the same instructions in C, compiled by gcc -O2, where gcc is there; beside all the
# same work in Lua, by lua5.4, where it is there, as nanoseconds for each step that the machine takes for it. A step's cost is
# the difference of a long and a short run, divided by the steps between them. The program is proved and built, by LLVM, in a
# copy of the crates below it.
set -eu
top=$(cd "$(dirname "${BASH_SOURCE[0]}")/.." && pwd)
work=$(mktemp -d)
trap 'rm -rf "$work"' EXIT
mkdir "$work/crates"
for name in os_io flow_core_laws c_int os_lexer os_ast os_code task_vm; do cp -r "$top/crates/$name" "$work/crates"; done
grep -E '^(os_io|flow_core_laws|c_int|os_lexer|os_ast|os_code|task_vm):' "$top/crates.txt" >"$work/crates.txt"
echo 'machine: task_vm os_code flow_core_laws c_int os_io' >>"$work/crates.txt"

machine=$work/crates/machine
tests=$top/crates/machine_tests
mkdir -p "$machine/src" "$machine/proofs"
cp "$top/bench/machine.program" "$machine/src/main.rt"
cp "$tests/src/written.rt" "$tests/src/task_runs.rt" "$machine/src"
cp -r "$tests/specs" "$machine"
cp -r "$tests/proofs/Lib.antt" "$tests/proofs/Fitting.antt" "$tests/proofs/written" "$tests/proofs/task_runs" "$machine/proofs"
find "$machine" \( -name '*.antt' -o -name '*.rt' \) \
    -exec sed -i 's/machine_tests\.specs/machine.specs/g; s/machine_tests\.proofs/machine.proofs/g' {} +
(cd "$machine" && rt run -- arithmetic 1) >"$work/log" 2>&1 || { cat "$work/log" >&2; exit 1; }

# The same instructions in C. Like the machine it tests each result and each index, takes a unit of the budget at each
# turn, and counts steps at jumps.
cat >"$work/machine.c" <<'END'
#include <stdint.h>
#include <stdio.h>
#include <stdlib.h>
#include <string.h>

enum op { PUSH, LOAD, STORE, BINARY, JUMP, JUMP_ZERO, TURN, ITEM_LOAD, ITEM_STORE, END };
enum binary { LESS, GREATER, SHL, AND, XOR, ADD, SUBTRACT, MULTIPLY, REMAINDER };
struct instr { uint8_t op, binary; int32_t a; uint32_t line; };
struct row { uint8_t write; uint32_t first, horizon; };
struct end { int trap; uint32_t line; uint64_t steps; };

static struct end run(const struct instr *code, uint64_t length, const struct row *rows, const int32_t *inputs,
                      int32_t *outputs, int32_t *stack, int32_t *slots, uint64_t turns) {
    uint64_t place = 0, past = length, top = 0;
    for (;;) {
        const struct instr *at = &code[place];
        int trap = 0;
        int64_t number = 0;
        switch (at->op) {
        case PUSH: stack[top++] = at->a; place++; continue;
        case LOAD: stack[top++] = slots[at->a]; place++; continue;
        case STORE: slots[at->a] = stack[--top]; place++; continue;
        case BINARY: {
            int64_t a = stack[top - 2], b = stack[top - 1];
            switch (at->binary) {
            case LESS: number = a < b; break;
            case GREATER: number = a > b; break;
            case AND: number = a & b; break;
            case XOR: number = a ^ b; break;
            case SHL:
                if (a < 0 || b < 0 || b > 31) { trap = 3; break; }
                number = a << b;
                if (number > INT32_MAX) trap = 3;
                break;
            case ADD: number = a + b; break;
            case SUBTRACT: number = a - b; break;
            case MULTIPLY: number = a * b; break;
            case REMAINDER:
                if (b == 0) { trap = 2; break; }
                if (a == INT32_MIN && b == -1) { trap = 1; break; }
                number = a % b;
                break;
            }
            if (trap == 0 && number != (int32_t)number) trap = 1;
            if (trap) return (struct end){trap, at->line, past + place + 1 - length};
            stack[top - 2] = number;
            top--;
            place++;
            continue;
        }
        case JUMP: past += place + 1 - at->a; place = at->a; continue;
        case JUMP_ZERO:
            if (stack[--top] == 0) { past += place + 1 - at->a; place = at->a; } else place++;
            continue;
        case TURN:
            if (turns == 0) return (struct end){-1, 0, past + place + 1 - length};
            turns--;
            place++;
            continue;
        case ITEM_LOAD: {
            struct row row = rows[at->a];
            int64_t index = stack[top - 1];
            if ((uint64_t)index >= row.horizon) return (struct end){4, at->line, past + place + 1 - length};
            stack[top - 1] = (row.write ? outputs : inputs)[row.first + index];
            place++;
            continue;
        }
        case ITEM_STORE: {
            struct row row = rows[at->a];
            int64_t index = stack[top - 2];
            if ((uint64_t)index >= row.horizon) return (struct end){4, at->line, past + place + 1 - length};
            outputs[row.first + index] = stack[top - 1];
            top -= 2;
            place++;
            continue;
        }
        default: return (struct end){0, 0, past + place + 1 - length};
        }
    }
}

static const struct instr arithmetic[] = {
ARITHMETIC
};
static const struct instr windows[] = {
WINDOWS
};

int main(int argc, char **argv) {
    static int32_t inputs[64], outputs[64], stack[16], slots[16];
    static const struct row one[] = {{1, 0, 1}};
    static const struct row two[] = {{0, 0, 64}, {1, 0, 64}};
    int is_windows = argc > 1 && strcmp(argv[1], "windows") == 0;
    for (int i = 0; i < 64; i++) inputs[i] = 7;
    slots[0] = argc > 2 ? atoi(argv[2]) : 0;
    const struct instr *code = is_windows ? windows : arithmetic;
    uint64_t length = is_windows ? sizeof windows / sizeof *windows : sizeof arithmetic / sizeof *arithmetic;
    struct end end = run(code, length, is_windows ? two : one, inputs, outputs, stack, slots, 1000000000);
    printf("%llu %s\n", (unsigned long long)end.steps, end.trap == 0 ? "true" : "false");
}
END

# rows NAME: the instructions of a function of the program, as C has them.
rows() {
    awk -v name="fn $1(" '
    index($0, name) { here = 1 }
    here && /let instrs = \[/ { on = 1; next }
    on && /^    \];/ { exit }
    on { text = text $0 }
    END {
        gsub(/[ \t]+/, " ", text)
        while (match(text, /Instr::[A-Za-z]+( \{[^}]*\}|\([-0-9]*\))?/)) {
            one = substr(text, RSTART + 7, RLENGTH - 7)
            text = substr(text, RSTART + RLENGTH)
            word = one; sub(/[ (].*/, "", word)
            value = 0; kind = 0
            if (match(one, /\([-0-9]+\)/)) value = substr(one, RSTART + 1, RLENGTH - 2)
            if (match(one, /item: [0-9]+/)) value = substr(one, RSTART + 6, RLENGTH - 6)
            if (match(one, /Binary::[A-Za-z]+/)) kind = names[substr(one, RSTART + 8, RLENGTH - 8)]
            printf "    {%s, %s, %s, 0},\n", ops[word], kind, value
        }
    }
    BEGIN {
        ops["Push"] = "PUSH"; ops["Load"] = "LOAD"; ops["Store"] = "STORE"; ops["Binary"] = "BINARY"; ops["Jump"] = "JUMP"
        ops["JumpZero"] = "JUMP_ZERO"; ops["Turn"] = "TURN"; ops["ItemLoad"] = "ITEM_LOAD"; ops["ItemStore"] = "ITEM_STORE"
        ops["End"] = "END"
        names["Less"] = "LESS"; names["Greater"] = "GREATER"; names["ShiftLeft"] = "SHL"; names["BitAnd"] = "AND"
        names["BitXor"] = "XOR"; names["Add"] = "ADD"; names["Subtract"] = "SUBTRACT"; names["Multiply"] = "MULTIPLY"
        names["Remainder"] = "REMAINDER"
    }' "$top/bench/machine.program"
}

programs="$machine/out/machine"
if command -v gcc >/dev/null; then
    rows arithmetic >"$work/arithmetic"
    rows windows >"$work/windows"
    sed -e "/^ARITHMETIC\$/{r $work/arithmetic
d}" -e "/^WINDOWS\$/{r $work/windows
d}" "$work/machine.c" >"$work/whole.c"
    gcc -O2 -o "$work/c" "$work/whole.c"
    programs="$programs $work/c"
fi

cat >"$work/work.lua" <<'END'
local kind, n = arg[1], tonumber(arg[2])
local function wrap(d) return ((d + 128) & 255) - 128 end
local x, y = 0, 0
if kind == "arithmetic" then
  for k = 0, n - 1 do
    x = (x * 31 + k) % 1009
    y = y ~ ((x << 3) & 255)
    y = (y + x) & 65535
    if x > y then x = x - 1 else y = y - 1 end
  end
elseif kind == "windows" then
  local a, b = {}, {}
  for i = 0, 63 do a[i] = 7 b[i] = 0 end
  for k = 0, n - 1 do
    local i = k & 63
    b[i] = (b[i] + a[i]) & 65535
    x = b[i]
  end
elseif kind == "calls" then
  local a, b = { [0] = 10, 20, 20, 10 }, { [0] = 0, 0, 0, 0 }
  for _ = 1, n do
    for k = 0, 3, 2 do
      local d = wrap(a[k + 1] - a[k])
      b[k] = (a[k] + (d >> 1)) & 255
      b[k + 1] = d & 255
    end
  end
else
  local a = {}
  for i = 0, 15 do a[i] = 0 end
  for k = 0, n - 1 do
    local i = k & 15
    a[i] = (a[i] + k) & 65535
    x = a[i]
  end
end
print("0 true")
END
printf '#!/bin/sh\nexec lua5.4 %s/work.lua "$@"\n' "$work" >"$work/lua"
chmod +x "$work/lua"
if command -v lua5.4 >/dev/null; then programs="$programs $work/lua"; fi

# cost PROGRAM KIND TIMES: its steps, and the milliseconds of processor time of the quickest of nine runs.
cost() {
    local best= now
    TIMEFORMAT=%3U
    for _ in 1 2 3 4 5 6 7 8 9; do
        now=$({ time "$1" "$2" "$3" >"$work/steps"; } 2>&1 | awk '{ printf "%d", $1 * 1000 }')
        if [ -z "$best" ] || [ "$now" -lt "$best" ]; then best=$now; fi
    done
    echo "$(cut -d ' ' -f 1 "$work/steps") $best"
}

counted() {
    valgrind --tool=callgrind --callgrind-out-file=/dev/null "$1" "$2" "$3" 2>&1 | awk '/Collected/ { print $NF }'
}

printf '%-11s %-9s %13s %9s\n' body by instructions ns
for kind in arithmetic windows calls arrays; do
    for program in $programs; do
        by=machine
        if [ "$program" = "$work/c" ]; then
            by=C
            case $kind in calls | arrays) continue ;; esac
        fi
        read -r few short < <(cost "$program" "$kind" 100000)
        read -r many long < <(cost "$program" "$kind" 2000000)
        if [ "$program" = "$work/lua" ]; then
            by=Lua
            few=$machine_few
            many=$machine_many
        elif [ "$by" = machine ]; then
            machine_few=$few
            machine_many=$many
        fi
        time=$(awk -v a="$short" -v b="$long" -v m="$few" -v n="$many" 'BEGIN { printf "%.2f", (b - a) * 1000000 / (n - m) }')
        instructions=-
        if [ "$by" != Lua ] && command -v valgrind >/dev/null; then
            read -r start _ < <("$program" "$kind" 20000)
            read -r end _ < <("$program" "$kind" 60000)
            instructions=$(awk -v a="$(counted "$program" "$kind" 20000)" -v b="$(counted "$program" "$kind" 60000)" \
                -v m="$start" -v n="$end" 'BEGIN { printf "%.2f", (b - a) / (n - m) }')
        fi
        printf '%-11s %-9s %13s %9s\n' "$kind" "$by" "$instructions" "$time"
    done
done
