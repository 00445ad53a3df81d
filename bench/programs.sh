#!/usr/bin/env bash
# What whole runs of the command take, as a table: for each program and 1, 2 and 4 workers the milliseconds, the microseconds an
# activation, the nanoseconds a step of the machine and the peak memory in megabytes, of the quickest of five runs; beside them
# the same work in C with OpenMP tasks by as many threads, by gcc -O2 -fopenmp, and in Lua by one thread, by lua5.4, where these
# are there, and how many times their milliseconds the command takes. With one worker also the machine instructions a step, of the
# whole program, where valgrind is there. Each output is compared with that of the command byte by byte. ./build has to have built
# the program. How many steps a program makes is counted by bench/steps.program, which is proved and built in a copy of the crates
# below it; where it isn't wanted (an hour from nothing), the word `unstepped` leaves out what is told a step.
set -eu
top=$(cd "$(dirname "${BASH_SOURCE[0]}")/.." && pwd)
osrun=$top/crates/osrun/out/osrun
[ -x "$osrun" ] || { echo "build the program first: ./build" >&2; exit 1; }
work=$(mktemp -d)
trap 'rm -rf "$work"' EXIT
# The program that counts steps.
if [ "${1:-}" != unstepped ]; then
    mkdir "$work/crates"
    for crate in os_io c_int flow_core_laws os_lexer os_ast os_parser_grammar os_parser_completions os_parser_places os_parser_expressions \
        os_parser_parts os_parser window_check_laws \
        window_check_names window_check front_end cddf_meaning os_code task_vm lowering_relation \
        lowering_draft lowering_expressions lowering stream_match_layouts control_run; do
        cp -r "$top/crates/$crate" "$work/crates"
        grep -E "^$crate:" "$top/crates.txt" >>"$work/crates.txt"
    done
    echo 'steps: control_run lowering task_vm os_code front_end flow_core_laws os_io' >>"$work/crates.txt"
    counting=$work/crates/steps
    mkdir -p "$counting/src"
    cp "$top/bench/steps.program" "$counting/src/main.rt"
    cp "$top/crates/compiler_tests/src/elements.rt" "$counting/src"
    (cd "$counting" && rt run) >"$work/log" 2>&1 </dev/null || { cat "$work/log" >&2; exit 1; }
    counter=$counting/out/steps
fi
cd "$work"

# The programs of the language.
cp "$top/examples/first.c" first.c
sed 's/B = 4/B = 64/' "$top/examples/invert.c" >invert.c
cp "$top/examples/lift.c" lift.c
sed 's/64/4096/g' "$top/examples/wavelet.c" >wavelet.c
cat >turns.c <<'END'
int main(void) {
    int i, y;
    for (i = 0; i < 32; i++) {
        #pragma omp task output(osout << y)
        {
            int k, x = i + 1;
            for (k = 0; k < 200000; k++) x = (x * 31 + (x >> 3) + k) & 65535;
            y = x & 255;
        }
    }
    return 0;
}
END

cat >overlap.c <<'END'
int main(void) {
    int i;
    for (i = 0; i + 2 < osin_len; i++) {
        int w[3], y;
        #pragma omp task input(osin >> w[1]) output(osout << y)
        y = (w[0] + w[1] + w[2]) / 3;
    }
}
END
cat >pipeline.c <<'END'
int wrap(int d) {
    return ((d + 128) & 255) - 128;
}
int main(void) {
    int mid __attribute__((stream));
    int i;
    for (i = 0; i + 1 < osin_len; i += 2) {
        int a[2], m[2], q[2], o[2];
        #pragma omp task input(osin >> a[2]) output(mid << m[2])
        {
            int d = wrap(a[1] - a[0]);
            m[0] = (a[0] + (d >> 1)) & 255;
            m[1] = d;
        }
        #pragma omp task input(mid >> q[2]) output(osout << o[2])
        {
            o[0] = q[0];
            o[1] = (q[1] / 4) & 255;
        }
    }
}
END
cat >mixing.c <<'END'
int main(void) {
    int mid __attribute__((stream));
    int i;
    for (i = 0; i + 1 < osin_len; i += 2) {
        int a[2], m[2], q[2], o[2];
        #pragma omp task input(osin >> a[2]) output(mid << m[2])
        {
            int k, x = a[0], y = a[1];
            for (k = 0; k < 16; k++) {
                x = (x * 5 + y) & 255;
                y = (y + (x >> 3)) & 255;
            }
            m[0] = x;
            m[1] = y;
        }
        #pragma omp task input(mid >> q[2]) output(osout << o[2])
        {
            int k, x = q[0], y = q[1];
            for (k = 0; k < 16; k++) {
                x = (x * 3 + y) & 255;
                y = (y + (x >> 2)) & 255;
            }
            o[0] = x;
            o[1] = y;
        }
    }
}
END
cat >chain.c <<'END'
int main(void) {
    int s __attribute__((stream));
    int i, x, y, z, o;
    #pragma omp task input(osin >> z) output(s << y, osout << o)
    { y = z; o = z; }
    for (i = 1; i < osin_len; i++) {
        #pragma omp task input(s >> x, osin >> z) output(s << y, osout << o)
        { y = (x + z) & 255; o = y; }
    }
}
END

# Each first task of a pair waits for the second one, so that the run goes through epochs.
cat >swapped.c <<'END'
int main(void) {
    int mid __attribute__((stream));
    int i;
    for (i = 0; i + 1 < osin_len; i += 2) {
        int a[2], m[2], q[2], o[2];
        #pragma omp task input(mid >> q[2]) output(osout << o[2])
        {
            o[0] = q[0];
            o[1] = q[1];
        }
        #pragma omp task input(osin >> a[2]) output(mid << m[2])
        {
            m[0] = a[1];
            m[1] = a[0];
        }
    }
}
END

# Inputs: bytes of a generator, made in parts of 4,096.
awk 'BEGIN { x = 1; for (k = 0; k < 4096; k++) { x = x * 16807 % 2147483647; printf "\\%03o", int(x / 65536 % 256) } }' >escaped
printf "$(cat escaped)" >part
head -c 4 part >first.in
: >turns.in
for _ in $(seq 64); do cat part; done >lift.in
for _ in $(seq 256); do cat part; done >invert.in
cp invert.in wavelet.in
head -c 65536 lift.in >chain.in
cp chain.in pipeline.in
cp chain.in mixing.in
cp chain.in swapped.in
{ cat chain.in; head -c 2 part; } >overlap.in

# The same work in C.
cat >work.c <<'END'
#include <stdio.h>
#include <stdlib.h>
#include <string.h>

static int wrap(int d) { return ((d + 128) & 255) - 128; }

static void wavelet(const unsigned char *a, unsigned char *out, int n) {
    int b[4096], k, step, left, right;
    for (k = 0; k < n; k++) b[k] = a[k];
    for (step = 1; step < 8; step *= 2) {
        for (k = step; k < n; k += 2 * step) {
            left = b[k - step];
            right = k + step < n ? b[k + step] : left;
            b[k] = (b[k] - ((left + right) >> 1)) & 255;
        }
        for (k = 0; k < n; k += 2 * step) {
            right = k + step < n ? wrap(b[k + step]) : 0;
            left = k > 0 ? wrap(b[k - step]) : right;
            b[k] = (b[k] + ((left + right + 2) >> 2)) & 255;
        }
    }
    for (k = 0; k < n; k++) out[k] = b[k];
}

static void work(char kind, const unsigned char *in, unsigned char *out, int i, int size) {
    if (kind == 'f') {
        for (int k = 0; k < 4; k++) out[k] = in[3 - k];
    } else if (kind == 'i') {
        for (int k = i; k < i + size; k++) out[k] = 255 - in[k];
    } else if (kind == 'l') {
        for (int k = i; k < i + size; k += 2) {
            int d = wrap(in[k + 1] - in[k]);
            out[k] = (in[k] + (d >> 1)) & 255;
            out[k + 1] = d & 255;
        }
    } else if (kind == 'o') {
        out[i] = (in[i] + in[i + 1] + in[i + 2]) / 3;
    } else if (kind == 'w') {
        wavelet(in + i, out + i, size);
    } else {
        int x = i + 1;
        for (int k = 0; k < 200000; k++) x = (x * 31 + (x >> 3) + k) & 65535;
        out[i] = x & 255;
    }
}

/* An activation of the pipeline's first task, and one of its second. */
static void split(const unsigned char *in, int *mid) {
    int d = wrap(in[1] - in[0]);
    mid[0] = (in[0] + (d >> 1)) & 255;
    mid[1] = d;
}

static void scale(const int *mid, unsigned char *out) {
    out[0] = mid[0];
    out[1] = (mid[1] / 4) & 255;
}

/* An activation of a pipeline whose tasks take sixteen turns of a loop. */
static void mix(int x, int y, int factor, int shift, int *out) {
    for (int k = 0; k < 16; k++) {
        x = (x * factor + y) & 255;
        y = (y + (x >> shift)) & 255;
    }
    out[0] = x;
    out[1] = y;
}

static void mix_out(const int *mid, unsigned char *out) {
    int mixed[2];
    mix(mid[0], mid[1], 3, 2, mixed);
    out[0] = mixed[0];
    out[1] = mixed[1];
}

/* The tasks of pipelines and of a chain, of which each waits for another one. */
static void wait_for_others(char kind, const unsigned char *in, unsigned char *out, int length) {
    static int mid[65536];
    for (int i = 0; kind == 'p' && i + 1 < length; i += 2) {
        #pragma omp task firstprivate(i) depend(out: mid[i])
        split(in + i, mid + i);
        #pragma omp task firstprivate(i) depend(in: mid[i])
        scale(mid + i, out + i);
    }
    for (int i = 0; kind == 'm' && i + 1 < length; i += 2) {
        #pragma omp task firstprivate(i) depend(out: mid[i])
        mix(in[i], in[i + 1], 5, 3, mid + i);
        #pragma omp task firstprivate(i) depend(in: mid[i])
        mix_out(mid + i, out + i);
    }
    // A task of OpenMP waits for earlier ones alone, so the two of a pair change places.
    for (int i = 0; kind == 's' && i + 1 < length; i += 2) {
        #pragma omp task firstprivate(i) depend(out: mid[i])
        {
            mid[i] = in[i + 1];
            mid[i + 1] = in[i];
        }
        #pragma omp task firstprivate(i) depend(in: mid[i])
        {
            out[i] = mid[i];
            out[i + 1] = mid[i + 1];
        }
    }
    for (int i = 0; kind == 'c' && i < length; i++) {
        #pragma omp task firstprivate(i) depend(inout: mid[0])
        out[i] = mid[0] = (mid[0] + in[i]) & 255;
    }
}

int main(int argc, char **argv) {
    static unsigned char in[4194304], out[4194304];
    FILE *file = argc > 2 ? fopen(argv[2], "rb") : NULL;
    int length = file ? (int)fread(in, 1, sizeof in, file) : 0, written = length;
    int size = strcmp(argv[1], "invert") == 0 ? 64 : strcmp(argv[1], "wavelet") == 0 ? 4096 : 4;
    if (strcmp(argv[1], "turns") == 0) {
        length = written = 32;
        size = 1;
    }
    if (strcmp(argv[1], "overlap") == 0) {
        written = length > 2 ? length - 2 : 0;
        size = 1;
    }
    int waits = strcmp(argv[1], "pipeline") == 0 || strcmp(argv[1], "mixing") == 0 || strcmp(argv[1], "chain") == 0
        || strcmp(argv[1], "swapped") == 0;
    #pragma omp parallel
    #pragma omp single
    if (waits)
        wait_for_others(argv[1][0], in, out, length);
    else
        for (int i = 0; i + (size == 1 ? length - written : 0) < length; i += size) {
            #pragma omp task firstprivate(i)
            work(argv[1][0], in, out, i, size);
        }
    fwrite(out, 1, written, stdout);
    return 0;
}
END

# And in Lua.
cat >work.lua <<'END'
local kind, name = arg[1], arg[2]
local file = name and io.open(name, "rb")
local input = file and file:read("a") or ""
local out = {}
local function wrap(d) return ((d + 128) & 255) - 128 end
local function wavelet(first, n)
  local b = { input:byte(first, first + n - 1) }
  local step = 1
  while step < 8 do
    for k = step, n - 1, 2 * step do
      local left = b[k - step + 1]
      local right = k + step < n and b[k + step + 1] or left
      b[k + 1] = (b[k + 1] - (left + right) // 2) & 255
    end
    for k = 0, n - 1, 2 * step do
      local right = k + step < n and wrap(b[k + step + 1]) or 0
      local left = k > 0 and wrap(b[k - step + 1]) or right
      b[k + 1] = (b[k + 1] + (left + right + 2) // 4) & 255
    end
    step = step * 2
  end
  for k = 1, n do out[#out + 1] = string.char(b[k]) end
end
if kind == "first" then
  out[1] = input:sub(1, 4):reverse()
elseif kind == "invert" then
  for k = 1, #input do out[k] = string.char(255 - input:byte(k)) end
elseif kind == "lift" then
  for k = 1, #input - 1, 2 do
    local d = wrap(input:byte(k + 1) - input:byte(k))
    out[k] = string.char((input:byte(k) + d // 2) & 255)
    out[k + 1] = string.char(d & 255)
  end
elseif kind == "overlap" then
  for k = 1, #input - 2 do
    out[k] = string.char((input:byte(k) + input:byte(k + 1) + input:byte(k + 2)) // 3)
  end
elseif kind == "pipeline" then
  for k = 1, #input - 1, 2 do
    local d = wrap(input:byte(k + 1) - input:byte(k))
    out[k] = string.char((input:byte(k) + d // 2) & 255)
    out[k + 1] = string.char((d < 0 and -(-d // 4) or d // 4) & 255)
  end
elseif kind == "mixing" then
  local function mix(x, y, factor, shift)
    for k = 1, 16 do
      x = (x * factor + y) & 255
      y = (y + (x >> shift)) & 255
    end
    return x, y
  end
  for k = 1, #input - 1, 2 do
    local x, y = mix(input:byte(k), input:byte(k + 1), 5, 3)
    x, y = mix(x, y, 3, 2)
    out[k] = string.char(x)
    out[k + 1] = string.char(y)
  end
elseif kind == "swapped" then
  for k = 1, #input - 1, 2 do
    out[k] = string.char(input:byte(k + 1))
    out[k + 1] = string.char(input:byte(k))
  end
elseif kind == "chain" then
  local x = 0
  for k = 1, #input do
    x = (x + input:byte(k)) & 255
    out[k] = string.char(x)
  end
elseif kind == "wavelet" then
  for first = 1, #input, 4096 do wavelet(first, math.min(4096, #input - first + 1)) end
else
  for i = 1, 32 do
    local x = i
    for k = 0, 199999 do x = (x * 31 + (x >> 3) + k) & 65535 end
    out[i] = string.char(x & 255)
  end
end
io.write(table.concat(out))
END

# quickest WORD..: the milliseconds and the peak kilobytes of the quickest of five runs. Its output is in `out`.
quickest() {
    local began best='' peak now
    for _ in 1 2 3 4 5; do
        began=$(date +%s%N)
        /usr/bin/time -f %M -o peak "$@" >out 2>/dev/null || { echo "$*: failed" >&2; exit 1; }
        now=$((($(date +%s%N) - began) / 1000))
        if [ -z "$best" ] || [ "$now" -lt "$best" ]; then
            best=$now
            peak=$(tail -n 1 peak)
        fi
    done
    echo "$best $peak"
}

# milliseconds BY WORKERS COMMAND..: those of the quickest run in `micros`, its kilobytes in `kilobytes`; a line on standard error
# where its output isn't the one wanted.
measure() {
    read -r micros kilobytes < <(quickest "${@:3}")
    cmp -s out wanted || echo "$program by $1 with $2: another output" >&2
}

# row PROGRAM BY WORKERS MICROSECONDS KILOBYTES ACTIVATIONS STEPS INSTRUCTIONS C LUA: a line of the table; 0 is what isn't known.
row() {
    awk -v program="$1" -v by="$2" -v workers="$3" -v micros="$4" -v kilobytes="$5" -v count="$6" -v steps="$7" -v instrs="$8" \
        -v c="$9" -v lua="${10}" '
        function told(form, top, bottom) { return bottom > 0 && top > 0 ? sprintf(form, top / bottom) : "-" }
        BEGIN {
            printf "%-8s %-6s %7s %9.2f %9.3f %8s %11s %7.1f %6s %6s\n", program, by, workers, micros / 1000, micros / count,
                told("%.2f", micros * 1000, steps), told("%.2f", instrs, steps), kilobytes / 1024,
                told("%.2f", micros, c), told("%.2f", micros, lua)
        }'
}

# The machine instructions of a run by one worker.
instructions() {
    valgrind --tool=callgrind --callgrind-out-file=/dev/null "$osrun" run "$program.c" "$program.in" --workers 1 2>&1 >/dev/null |
        awk '/Collected/ { print $NF }'
}

gcc=$(command -v gcc || true)
lua=$(command -v lua5.4 || true)
valgrind=$(command -v valgrind || true)
if [ -n "$gcc" ]; then
    "$gcc" -O2 -fopenmp -o work work.c 2>log || { echo "gcc has no OpenMP here: C isn't measured" >&2; gcc=''; }
else
    echo "gcc isn't here: C isn't measured" >&2
fi
[ -n "$lua" ] || echo "lua5.4 isn't here: Lua isn't measured" >&2
[ -n "$valgrind" ] || echo "valgrind isn't here: machine instructions aren't measured" >&2

printf '%-8s %-6s %7s %9s %9s %8s %11s %7s %6s %6s\n' program by workers ms us/activ ns/step instrs/step MB to-C to-Lua
while read -r program activations; do
    "$osrun" run "$program.c" "$program.in" --workers 1 >wanted 2>report
    steps=0
    [ "${1:-}" = unstepped ] || steps=$("$counter" "$program.c" "$(stat -c %s "$program.in")")
    lua_micros=0
    if [ -n "$lua" ]; then
        measure Lua 1 "$lua" work.lua "$program" "$program.in"
        lua_micros=$micros
        row "$program" Lua 1 "$micros" "$kilobytes" "$activations" 0 0 0 0
    fi
    for workers in 1 2 4; do
        c_micros=0
        if [ -n "$gcc" ]; then
            measure C "$workers" env OMP_NUM_THREADS="$workers" ./work "$program" "$program.in"
            c_micros=$micros
            row "$program" C "$workers" "$micros" "$kilobytes" "$activations" 0 0 0 "$lua_micros"
        fi
        measure osrun "$workers" "$osrun" run "$program.c" "$program.in" --workers "$workers"
        instrs=0
        [ "$workers" != 1 ] || [ -z "$valgrind" ] || [ "$steps" = 0 ] || instrs=$(instructions)
        row "$program" osrun "$workers" "$micros" "$kilobytes" "$activations" "$steps" "$instrs" "$c_micros" "$lua_micros"
    done
done <<'END'
first 1
invert 16384
lift 65536
overlap 65536
pipeline 65536
mixing 65536
swapped 65536
chain 65536
turns 32
wavelet 256
END
