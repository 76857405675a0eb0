#!/usr/bin/env bash
# The program hnho on good, empty, overlong, unreadable and failing input, and on output that cannot be written or only in part. Its products are in target/program.
# Each run has status 0, as the older kit's programs had none to set: what is wrong must stand on standard error.
set -u
cd "$(dirname "$0")/.." || exit 2

program=crates/hnho/out/hnho
dir=target/program

fail() {
  printf 'program.sh: FAILED: %s\n' "$1" >&2
  exit 1
}

# check NAME STATUS TEXT ERROR: the run's status, its standard output in $dir/out and its standard error in $dir/err
check() {
  [ "$2" -eq 0 ] || fail "$1: status $2, due is 0"
  printf '%s' "$3" | cmp - "$dir/out" || fail "$1: standard output"
  printf '%s' "$4" | cmp - "$dir/err" || fail "$1: standard error"
}

# run NAME TEXT ERROR: runs the program on the standard input of this function
run() {
  "$program" >"$dir/out" 2>"$dir/err"
  check "$1" $? "$2" "$3"
}

# run_failing NAME ERROR: the same on an input that fails after its first bytes
run_failing() {
  gcc -std=c99 -O1 -Wall -Wextra -Werror -shared -fPIC tests/failing_read.c -o "$dir/failing_read.so" || fail 'gcc of tests/failing_read.c'
  LD_PRELOAD="$dir/failing_read.so" "$program" >"$dir/out" 2>"$dir/err"
  check "$1" $? '' "$2"
}

# run_full NAME ERROR: the same onto a device that is full
run_full() {
  : >"$dir/out"
  "$program" >/dev/full 2>"$dir/err"
  check "$1" $? '' "$2"
}

# run_cut NAME TEXT ERROR: the same onto the end of a file that has 100 bytes left to a limit of 1 KiB
run_cut() {
  head -c 924 /dev/zero >"$dir/file"
  (trap '' XFSZ; ulimit -f 1; exec "$program" >>"$dir/file" 2>"$dir/err")
  local status=$?
  tail -c +925 "$dir/file" >"$dir/out"
  check "$1" "$status" "$2" "$3"
}

command -v rt >/dev/null || fail 'rt is not on PATH'
mkdir -p "$dir" || fail "$dir cannot be made"
(cd crates/hnho && rt run </dev/null) >"$dir/rt.log" 2>&1 || { tail -n 20 "$dir/rt.log" >&2; fail 'rt run of hnho'; }

job=examples/job-a.bin
text=$(cat crates/hnho/stdout)$'\n'
run 'Job A' "$text" '' <"$job"
farm_text='normal greatest 27400547 least 0
overload greatest 0 least 0
service greatest 46150547000 row 3 least 15350000000 row 6
ultimate greatest 69708554839 row 11 least 11587500000 row 16
'
run 'the farm job' "$farm_text" '' <examples/farm-job.bin
run "the farm job's first ten words" $'refused 1 at 0\n' '' < <(head -c 40 examples/farm-job.bin)
run "the farm job's header" $'refused 3 at 62\n' '' < <(head -c 44 examples/farm-job.bin)
arch_text='normal greatest 207820515 least -128233892
overload greatest 323215971 least -175273014
service greatest 2749692386250 row 1 least -2503981063200 row 1
ultimate greatest 7414923629640 row 2 least -2330865309000 row 3
'
run 'the arch job' "$arch_text" '' <examples/arch-job.bin
# with spans by sign, 24 m for greatest and 27 m for least: words 5, 6 and 10 are 4, 240 and 270
spans_text='normal greatest 232743985 least -142340777
overload greatest 361978572 least -194554626
service greatest 2783339070750 row 1 least -2523025357950 row 1
ultimate greatest 7472679905130 row 2 least -2330865309000 row 3
'
arch_spans() {
  head -c 20 examples/arch-job.bin
  printf '\4\0\0\0\360\0\0\0'
  tail -c +29 examples/arch-job.bin | head -c 12
  printf '\16\1\0\0'
  tail -c +45 examples/arch-job.bin
}
run 'the arch job with spans by sign' "$spans_text" '' < <(arch_spans)
run "the arch job's first eleven words" $'refused 1 at 0\n' '' < <(head -c 44 examples/arch-job.bin)
run "the arch job's header" $'refused 3 at 113\n' '' < <(head -c 48 examples/arch-job.bin)
motorway_text='normal greatest 83867801 least -11451558
overload greatest 148202927 least -21401111
service greatest 279231531350 row 1 least 112240396700 row 1
ultimate greatest 421516390500 row 2 least 121138333500 row 2
'
run 'the motorway job' "$motorway_text" '' <examples/motorway-job.bin
run "the motorway job's first twelve words" $'refused 1 at 0\n' '' < <(head -c 48 examples/motorway-job.bin)
run "the motorway job's header" $'refused 3 at 116\n' '' < <(head -c 52 examples/motorway-job.bin)

# words WORD..: words from 0 to 65535
words() {
  local word bytes
  for word; do
    printf -v bytes '\\x%02x\\x%02x\\0\\0' $((word & 255)) $((word >> 8))
    printf "$bytes"
  done
}

# repeat COUNT COMMAND..: runs the command so many times
repeat() {
  local count=$1
  shift
  for ((; count > 0; count--)); do "$@"; done
}

# the longest job, of 16572 bytes, on lines of 0: its last row has its last record alone, which counts 3000 times 7 N.U, the last effect
longest_job() {
  words 3 1 1000 10 2079 1 1000 16 32 512 0 0 2079
  head -c $((4 * (2 * 1000 + 2 * 209))) /dev/zero
  repeat 15 words 0 0 1
  words 7 0 1
  repeat 31 words 1 0 0 0
  words 2 0 0 512
  repeat 511 words 1 0 0
  words 16 3000 0
}
longest_text='normal greatest 0 least 0
overload greatest 0 least 0
service greatest 0 row 1 least 0 row 1
ultimate greatest 21000 row 32 least 21000 row 32
'
longest_job >"$dir/longest.bin"
[ "$(wc -c <"$dir/longest.bin")" -eq 16572 ] || fail 'the longest job is not of 16572 bytes'
run 'the longest job' "$longest_text" '' <"$dir/longest.bin"
run 'the longest job by a pipe' "$longest_text" '' < <(cat "$dir/longest.bin")
run 'the longest job and one byte' $'refused 1 at 0\n' '' < <(cat "$dir/longest.bin"; printf '\0')

# job_a_in BYTES: Job A with zeros behind it, so many bytes in all
job_a_in() {
  cat "$job"
  head -c $(($1 - 340)) /dev/zero
}
run 'empty input' $'refused 1 at 0\n' '' </dev/null
run 'input of 32767 bytes' $'refused 1 at 0\n' '' < <(job_a_in 32767)
run 'input of 32768 bytes' $'refused 3 at 85\n' '' < <(job_a_in 32768)
run 'input of 32769 bytes, the last one not read' $'refused 3 at 85\n' '' < <(job_a_in 32769)
run 'input of 40001 bytes' $'refused 3 at 85\n' '' < <(job_a_in 40001)
run 'a directory as input' '' $'standard input: Is a directory\n' </
run_failing 'an input that fails half-way' $'standard input: Input/output error\n' <"$job"
run_full 'a full device as output' $'standard output: No space left on device\n' <"$job"
run_cut 'a file with too little room as output' "${text:0:100}" $'standard output: File too large\n' <"$job"
printf 'program.sh: what hnho prints and says is as due\n'
