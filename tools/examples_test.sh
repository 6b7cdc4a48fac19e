#!/bin/sh
# examples_test.sh ARCHIVE: examples/loader.c, compiled with the header as C99 and as C++17 without warnings and linked with
# librl_abi.a, on the samples and on images made here: what it prints, and its exit status. RLIMG, CC and CXX may name other programs.
set -eu
[ $# -eq 1 ] || { echo 'usage: examples_test.sh ARCHIVE' >&2; exit 2; }
archive=$(cd "$(dirname "$1")" && pwd)/$(basename "$1")
cd "$(dirname "$0")/.."
rlimg=${RLIMG:-tools/target/release/rlimg}
new=$(mktemp -d)
trap 'rm -rf "$new"' EXIT
trap 'exit 1' HUP INT TERM
fail() { echo "examples_test: $*" >&2; exit 1; }
runs=0

# ---- the header's refusals have the numbers of Cause, which number_of answers

sed -n '/^enum rl_refusal/,/^};/s/^ *\(RL_[A-Z_]*\) = \([0-9]*\).*/\1 \2/p' include/rl_contracts.h | sort >"$new/header"
sed -n '/^pub enum Cause/,/^}/s/^ *\([A-Za-z]*\) = \([0-9]*\),$/\1 \2/p' crates/rl_spec/src/lib.rt |
    sed 's/[A-Z]/_&/g; s/^/RL/' | tr a-z A-Z | sort >"$new/numbers"
[ "$(wc -l <"$new/numbers")" -eq 22 ] || fail 'Cause has not 22 numbers'
diff "$new/numbers" "$new/header" >&2 || fail 'the header has other refusals than Cause'

# ---- and its other numbers are those of 01, those of pages 02's

warnings='-Wall -Wextra -Wpedantic -Werror'
{
    echo '#include "rl_contracts.h"'
    while read -r names; do
        set -- $names
        while [ $# -gt 0 ]; do
            echo "typedef char is_$1[(RL_$1) == ($2) ? 1 : -1];"
            shift 2
        done
    done <<'END'
NULL 0 INT 1 FLOAT 2 STR 3 BOOL 4 OK 8 ERR 16
RETURNED 1 STOPPED 2 FAULT 3 SPENT 4
FAULT_FORM 1 FAULT_SORT 2 FAULT_NAME 3 FAULT_VALUE 4 FAULT_BINDINGS 5
REFINEMENT 0 REQUIRES 1
IMAGE 65535 WORK 8192 OUT 65535 VALUE 2 VALUES 16 BUDGET 1000000 OUTCOME 4 REPORT 4 CALL_REPORTS 512 MESSAGE 65535
ALL_REPORTS 256*512 PAGE_LINES 60 PAGE 60*(4+1+10+1+16*4+1+39*4+1)
END
} >"$new/numbers.c"
${CC:-cc} -std=c99 $warnings -Iinclude -c "$new/numbers.c" -o "$new/numbers.o" || fail 'a number of the header, in C99'
${CXX:-c++} -x c++ -std=c++17 $warnings -Iinclude -c "$new/numbers.c" -o "$new/numbers.o" || fail 'a number of the header, in C++17'

# ---- the stack that it states is what stack_limits measures against

sed -n 's/^ \*     \(rl_[a-z_]*\) *\([0-9]*\)$/\1 \2/p' include/rl_contracts.h >"$new/stated"
sed -n 's/^ *("\(rl_[a-z_]*\)", \([0-9]*\)),$/\1 \2/p' tools/check/src/bin/stack_limits.rs >"$new/measured"
[ "$(wc -l <"$new/measured")" -eq 9 ] || fail 'stack_limits has not 9 exports'
diff "$new/measured" "$new/stated" >&2 || fail 'the header states other bounds than stack_limits has'

# ---- the archive asks its user for no other function

asked=$(nm -u "$archive" | sed -n 's/^ *U //p' | sort -u | tr '\n' ' ')
[ "$asked" = 'memcpy memset ' ] || fail "the archive asks for $asked"

# ---- NULL is taken for a slice of length 0

cat >"$new/null.c" <<'END'
#include "rl_contracts.h"
int main(void)
{
    static uint16_t work[RL_WORK];
    static uint64_t value[RL_VALUE], outcome[RL_OUTCOME];
    static uint8_t out[RL_MESSAGE];
    uint64_t short_work = (uint64_t)RL_WORK_TOO_SHORT << 32, no_bytes = (uint64_t)RL_BYTES_END << 32;
    int wrong = rl_read(NULL, 0, NULL, 0) != short_work;
    wrong |= rl_fold(NULL, 0, NULL, 0, 0, 0, value) != short_work;
    wrong |= rl_text(NULL, 0, NULL, 0, 0) != short_work;
    wrong |= rl_read(NULL, 0, work, RL_WORK) != no_bytes;
    wrong |= rl_prove(NULL, 0, work, RL_WORK, 0, NULL, 0) != no_bytes;
    wrong |= rl_prove_all(NULL, 0, work, RL_WORK, NULL, 0) != no_bytes;
    wrong |= rl_run(NULL, 0, work, RL_WORK, 0, NULL, 0, 0, outcome) != no_bytes;
    wrong |= rl_lower(NULL, 0, work, RL_WORK, 0, NULL, 0) != no_bytes;
    wrong |= rl_message(NULL, 0, work, RL_WORK, 0, 0, out) != no_bytes;
    wrong |= rl_pages(NULL, 0, work, RL_WORK, NULL, 0) != no_bytes;
    return wrong;
}
END
${CC:-cc} -std=c99 $warnings -O2 -Iinclude "$new/null.c" "$archive" -o "$new/null" || fail 'NULL, compiled'
"$new/null" || fail 'NULL for a slice of length 0: another answer'

# ---- the loader

${CC:-cc} -std=c99 $warnings -O2 -Iinclude examples/loader.c "$archive" -o "$new/loader.c99" || fail 'the loader as C99'
${CXX:-c++} -x c++ -std=c++17 $warnings -O2 -Iinclude examples/loader.c -x none "$archive" -o "$new/loader.c++17" ||
    fail 'the loader as C++17'

# loaded STATUS WORD...: the loader on these words prints the file `expected` and exits with the status, in both languages
loaded() {
    status=$1
    shift
    for language in c99 c++17; do
        got=0
        "$new/loader.$language" "$@" >"$new/out" 2>"$new/err" || got=$?
        diff "$new/expected" "$new/out" >&2 || fail "$language: loader $*: other lines than expected"
        [ "$got" -eq "$status" ] || fail "$language: loader $*: exit status $got, not $status"
    done
    runs=$((runs + 1))
}

# image NAME FILE STATUS <LINES: what it prints of an image; runs of its functions print this first
image() {
    name=$1 file=$2 of_image=$3
    cat >"$new/$name.lines"
    cp "$new/$name.lines" "$new/expected"
    loaded "$of_image" "$file"
}

# run STATUS LINE FUNCTION BUDGET ARG...: the line that a run of the last image's function adds
run() {
    status=$1 line=$2
    shift 2
    { cat "$new/$name.lines"; printf '%s\n' "$line"; } >"$new/expected"
    loaded "$status" "$file" "$@"
}

# paged FILE <LINES: the pages of an image, these lines and 60 a page, all of 72 columns; rlimg prints the same
paged() {
    awk '{ printf "%-72s\n", $0 } END { for (n = NR; n % 60; n++) printf "%72s\n", "" }' >"$new/expected"
    loaded 0 --pages "$1"
    "$rlimg" pages "$1" | diff "$new/expected" - >&2 || fail "rlimg pages $1: other lines than expected"
}

# wrong WORD...: wrong usage, or a file that cannot be read
wrong() {
    : >"$new/expected"
    loaded 2 "$@"
    [ -s "$new/err" ] || fail "loader $*: says nothing"
}

# ---- the samples are what they are made from

for text in samples/*.txt; do
    "$rlimg" build "$text" -o "$new/built.img" || fail "$text"
    cmp "$new/built.img" "${text%.txt}.img" || fail "${text%.txt}.img is not what $text makes"
done
head -c 100 samples/flow.img | cmp - samples/cut.img || fail 'samples/cut.img is not the start of samples/flow.img'

# ---- runs of the samples; samples/README.md counts the steps

image flow samples/flow.img 0 <<'END'
0 7 contract violation (proven at compile time): refinement failed: flow >= 1
1 9 contract violation (proven at compile time): flow id range
function 0: lowered to 571 bytes
END
run 0 'returned 17 in 12 steps' 0 1000 int:17
run 0 'returned 17 in 12 steps' 0 12 int:17
run 0 'spent after 11 steps' 0 11 int:17
run 0 'spent after 0 steps' 0 0 int:17
run 0 'stopped with "refinement failed: flow >= 1" after 9 steps' 0 1000 int:0
run 0 'stopped with "flow id range" after 14 steps' 0 1000 int:5000
run 0 'returned 1.5 in 12 steps' 0 1000 float:1.5
run 0 'fault 4 after 5 steps' 0 1000 str:1
run 1 'function 0: run refused 20 at 0' 0 1000 str:3 # lowering has added a text 3
run 1 'function 0: run refused 19 at 0' 0 1000
run 1 'function 0: run refused 21 at 0' 0 1000001 int:17
run 1 'function 1: run refused 11 at 0' 1 1000 int:17
paged samples/flow.img <<'END'
   0          7 open             refinement failed: flow >= 1
   1          9 open             flow id range
END

image rate samples/rate.img 0 <<'END'
1 17 contract violation (proven at compile time): too many tries
function 0: lowered to 1253 bytes
function 1: lowered to 1400 bytes
END
run 0 'returned 38 in 15 steps' 0 1000 int:38 int:1
run 0 'returned 9 in 17 steps' 0 1000 int:38 int:4
run 0 'returned 9.625 in 17 steps' 0 17 float:38.5 int:4
run 0 'spent after 16 steps' 0 16 int:38 int:4
run 0 'stopped with "no rate left" after 19 steps' 0 1000 int:38 int:50
run 0 'stopped with "no rate left" after 17 steps' 0 1000 int:0 int:1
run 0 'fault 4 after 8 steps' 0 1000 int:38 int:0
run 0 'returned 8 in 56 steps' 1 1000000 int:3
run 0 'spent after 55 steps' 1 55 int:3
run 0 'stopped with "too many tries" after 9 steps' 1 1000000 int:11
run 1 'function 0: run refused 19 at 0' 0 1000 int:38
paged samples/rate.img <<'END'
   1         17 backoff          too many tries
END

image lease samples/lease.img 0 <<'END'
0 8 contract violation (proven at compile time): lease of no hours
function 0: lowered to 1328 bytes
END
run 0 'returned Ok(24) in 23 steps' 0 1000 int:24 true
run 0 'spent after 22 steps' 0 22 int:24 true
run 0 'returned Err("lease of no hours") in 8 steps' 0 1000 int:0 true
run 0 'returned Err("lease too long") in 24 steps' 0 1000 int:100 true
run 0 'returned Err("modem not known") in 15 steps' 0 1000 int:24 false
run 0 'fault 2 after 7 steps' 0 1000 int:24 int:1
run 0 'fault 4 after 5 steps' 0 1000 ok:int:24 true
paged samples/lease.img <<'END'
   0          8 lease            lease of no hours
END

image priority samples/priority.img 0 <<'END'
1 7 contract violation (proven at compile time): priority above 7
2 8 contract violation (proven at compile time): refinement failed: priority >= 0
function 0: lowered to 594 bytes
END
run 0 'returned 224 in 14 steps' 0 1000 int:7
run 0 'returned 0 in 14 steps' 0 14 int:0
run 0 'spent after 13 steps' 0 13 int:7
run 0 'stopped with "priority above 7" after 14 steps' 0 1000 int:9
run 0 'stopped with "refinement failed: priority >= 0" after 9 steps' 0 1000 int:-1
paged samples/priority.img <<'END'
   1          7 mark             priority above 7
   2          8 mark             refinement failed: priority >= 0
END

image cut samples/cut.img 1 <<'END'
refused 3 at 99
END
loaded 1 samples/cut.img 0 1000 int:17
loaded 1 --pages samples/cut.img

# ---- values of each sort, in and out

cat >"$new/echo.txt" <<'END'
arena 1
bytes "echovaluea\n\"\\\x7f\u{9b}é"
text 0 0+4
text 1 4+5
text 2 9+9
entry 0 0
expression 0 span 1 Identifier 1
statement 0 span 1 Return 0
parameter 0 name 1 type 0 refinement none operand none 0
function 0 name 0 span 1 parameters 0+1 result false body 0+1 requires 0+0 ensures 0+0
END
"$rlimg" build "$new/echo.txt" -o "$new/echo.img"
image echo "$new/echo.img" 0 <<END
function 0: lowered to $(($(wc -c <"$new/echo.img"))) bytes
END
returned() { run 0 "returned $2 in 2 steps" 0 2 "$1"; }
returned null null
returned true true
returned false false
returned int:-9223372036854775808 -9223372036854775808
returned int:9223372036854775807 9223372036854775807
returned float:0.1 0.10000000000000001
returned float:-3 -3.0
returned float:-0 -0.0
returned float:1e300 1.0000000000000001e+300
returned float:1e-400 0.0
returned float:inf inf
returned float:nan nan
returned str:0 '"echo"'
returned str:2 '"a\x0a\"\\\x7f\xc2\x9bé"'
returned ok:null 'Ok(null)'
returned err:str:1 'Err("value")'
returned ok:false 'Ok(false)'
returned err:float:2.5 'Err(2.5)'
run 1 'function 0: run refused 20 at 0' 0 2 str:3
run 1 'function 0: run refused 20 at 0' 0 2 ok:str:70000
run 1 'function 0: run refused 19 at 0' 0 2 null null
for argument in '' nul int: int:5x 'int: 5' int:+5 int:- int:9223372036854775808 int:-9223372036854775809 float: 'float: 1' \
    float:1e400 float:-1e400 float:1x str: str:-1 str:4294967296 TRUE bool:1 ok: ok:ok:null err:err:1; do
    wrong "$new/echo.img" 0 2 "$argument"
done
wrong
wrong "$new/echo.img" 0
wrong "$new/echo.img" -1 2 null
wrong "$new/echo.img" 0 1e3 null
wrong "$new/echo.img" 0 4294967296 null
wrong "$new/echo.img" 0 2 1 2 3 4 5 6 7 8 9 10 11 12 13 14 15 16 17
wrong "$new/none.img"
wrong --pages
wrong --pages "$new/none.img"
wrong --pages "$new/echo.img" 0
wrong "$new/echo.img" --pages
wrong "$new"
if [ -e /dev/full ]; then
    ! "$new/loader.c99" samples/flow.img >/dev/full 2>&1 || fail 'a full disk is not seen'
fi

# ---- pages: none without reports, two where there is a report more than lines, cuts, and what prints as `?`

paged "$new/echo.img" </dev/null
{
    cat <<'END'
arena 1
bytes "a\nb\x7fé€😀 and sixteen columns in all, then twenty-three"
text 0 0+31
text 1 0+59
entry 0 0
expression 0 span 1 Bool false
expression 1 span 1 String 1
clause 0 condition 0 message 1
function 0 name 0 span 1 parameters 0+0 result false body 0+0 requires 0+1 ensures 0+0
END
    i=0
    while [ $i -lt 61 ]; do echo "call $i callee 0 span $((4294967295 - i)) arguments 0+0"; i=$((i + 1)); done
} >"$new/pages.txt"
"$rlimg" build "$new/pages.txt" -o "$new/pages.img"
i=0
while [ $i -lt 61 ]; do
    printf '%4d %10d a?b\177é€😀 and sixt a?b\177é€😀 and sixteen columns in all, the\n' $i $((4294967295 - i))
    i=$((i + 1))
done >"$new/expected"
while [ $i -lt 120 ]; do
    printf '%72s\n' ''
    i=$((i + 1))
done >>"$new/expected"
loaded 0 --pages "$new/pages.img"
"$rlimg" pages "$new/pages.img" | cmp "$new/expected" - || fail 'rlimg pages: other lines than expected'

# ---- bytes that are no image

echo 'refused 3 at 0' >"$new/expected"
loaded 1 /dev/null
echo 'refused 1 at 0' >"$new/expected"
head -c 65536 /dev/zero >"$new/long.img"
loaded 1 "$new/long.img"
loaded 1 --pages "$new/long.img"
head -c 200000 /dev/zero >"$new/long.img"
loaded 1 "$new/long.img" 0 1000

# ---- lowerings that are refused
# deep: 31 loops around a return under ensures, 32 high, become 34 high, which is 12 for the next function

{
    cat <<'END'
arena 1
bytes "deepflatret"
text 0 0+4
text 1 4+4
text 2 8+3
END
    i=0
    while [ $i -lt 32 ]; do echo "entry $i $i"; i=$((i + 1)); done
    cat <<'END'
expression 0 span 1 Bool true
expression 1 span 1 Identifier 2
statement 0 span 1 Return 0
END
    i=1
    while [ $i -lt 32 ]; do echo "statement $i span 1 Loop $((i - 1))+1"; i=$((i + 1)); done
    cat <<'END'
clause 0 condition 0 message none
clause 1 condition 1 message none
function 0 name 0 span 1 parameters 0+0 result false body 31+1 requires 0+0 ensures 1+1
function 1 name 1 span 1 parameters 0+0 result false body 0+1 requires 0+1 ensures 0+0
END
} >"$new/deep.txt"
"$rlimg" build "$new/deep.txt" -o "$new/deep.img"
image deep "$new/deep.img" 1 <<'END'
function 0: lowered to 1146 bytes
function 1: lowering refused 12 at 0
END
run 1 'returned true in 71 steps' 0 1000 # 31 loops of 2, and 9 (01, marked case 14)
run 1 'function 1: not run' 1 1000

# full: 2,048 texts; lowering would add one, 14, and the image stays as it was

{
    printf 'arena 1\nbytes "full"\n'
    i=0
    while [ $i -lt 2048 ]; do echo "text $i 0+4"; i=$((i + 1)); done
    cat <<'END'
entry 0 0
expression 0 span 1 Bool true
statement 0 span 1 Return 0
clause 0 condition 0 message none
function 0 name 0 span 1 parameters 0+0 result false body 0+1 requires 0+1 ensures 0+0
function 1 name 0 span 1 parameters 0+0 result false body 0+1 requires 0+0 ensures 0+0
END
} >"$new/full.txt"
"$rlimg" build "$new/full.txt" -o "$new/full.img"
image full "$new/full.img" 1 <<END
function 0: lowering refused 14 at 0
function 1: lowered to $(($(wc -c <"$new/full.img"))) bytes
END
run 1 'function 0: not run' 0 1000
run 1 'returned true in 2 steps' 1 1000

echo "the example loader: $runs runs as C99 and as C++17"
