#!/usr/bin/env bash
# The C side: installs the kernel, links it with nothing of a C library but memcpy and memset, compiles the header and the C files
# with warnings as errors, runs them under the address and undefined-behaviour sanitizers, and holds the examples' output to
# examples/*.expected, the jobs that arch and motorway pack to examples/*-job.bin, the form that form writes to
# examples/spelled-form.bin and the stored cases' output to crates/replay/stdout.
# The examples are built by pkg-config from a moved installation too, outside the repository, as C and as C++. Its products are in
# target/c.
set -u
cd "$(dirname "$0")/.." || exit 2

# step NAME COMMAND..: runs the command, and ends where it fails
step() {
  local name=$1
  shift
  "$@"
  local status=$?
  if [ "$status" -ne 0 ]; then
    printf 'c.sh: FAILED at %s (status %d)\n' "$name" "$status" >&2
    exit "$status"
  fi
}

for tool in rt gcc g++ pkg-config; do
  command -v "$tool" >/dev/null || { printf 'c.sh: FAILED: %s is not on PATH\n' "$tool" >&2; exit 2; }
done

warnings='-pedantic -Wall -Wextra -Werror'

# header COMPILER..: the header alone
header() {
  "$@" $warnings -fsyntax-only -Itarget/dist/include target/c/header.c
}

# compile FILE PRODUCT: a host, with the sanitizers
compile() {
  gcc -std=c99 -O1 -g $warnings -fsanitize=address,undefined -fno-sanitize-recover=all \
    -Itarget/dist/include "$1" target/dist/lib/libhnho.a -o "$2"
}

# links_alone: the archive, whole, needs nothing that tests/c_library.c hasn't
links_alone() {
  gcc -std=c99 -O1 $warnings -ffreestanding -fPIC -shared -nostdlib -Wl,--no-undefined tests/c_library.c \
    -Wl,--whole-archive target/dist/lib/libhnho.a -o target/c/alone.so
}

# page EXPECTED EXAMPLE ARGUMENT..: the example prints what is stored
page() {
  local expected=$1
  shift
  "$@" >target/c/example.out && diff -u "$expected" target/c/example.out
}

# packs EXAMPLE: the example writes the job of its name
packs() {
  "$1" >target/c/example.out && cmp target/c/example.out "examples/${1##*/}-job.bin"
}

# writes FORM EXAMPLE JOB: the example writes a job's form as it is stored
writes() {
  rm -f target/c/form.bin && "$2" "$3" target/c/form.bin >target/c/example.out && cmp target/c/form.bin "$1"
}

# written_twice EXAMPLE JOB FORM: the example writes a job's form, and the form's is the same
written_twice() {
  "$@" >target/c/example.out && [ "$(tail -n 1 target/c/example.out)" = 'written again: the same' ]
}

# same_but_records HOST JOB FORM: the pages of a job and its form are the same but for the records walked
same_but_records() {
  "$1" "$2" >target/c/job.out && "$1" "$3" >target/c/example.out &&
    diff <(grep -v '^records walked' target/c/job.out) <(grep -v '^records walked' target/c/example.out) &&
    [ "$(grep -c '^records walked' target/c/example.out)" -eq 1 ]
}

# fails STATUS TEXT EXAMPLE ARGUMENT..: the example prints nothing, says this and has this status
fails() {
  local status=$1 text=$2
  shift 2
  "$@" >target/c/example.out 2>target/c/example.err
  [ $? -eq "$status" ] && [ ! -s target/c/example.out ] && printf '%s\n' "$text" | diff -u - target/c/example.err
}

# another_layout EXAMPLE: the example with a header of layout 2
another_layout() {
  mkdir -p target/c/other && sed 's/^#define HNHO_LAYOUT .*/#define HNHO_LAYOUT 2/' include/hnho.h >target/c/other/hnho.h &&
    gcc -std=c99 $warnings -Itarget/c/other "examples/$1.c" target/dist/lib/libhnho.a -o "target/c/other/$1"
}

# the archive answers the stored cases as is due for them
stored() {
  target/c/stored_calls crates/replay/data/jobs >target/c/stored_calls.out && cmp target/c/stored_calls.out crates/replay/stdout
}

# install_in FOLDER PREFIX: an installation, PREFIX being a path from FOLDER
install_in() {
  local top=$PWD
  (cd "$1" && "$top/tools/package" "$2")
}

# outside FOLDER EXAMPLE COMPILER..: FOLDER/EXAMPLE.c by pkg-config, with FOLDER/moved as the installation and no file of the
# repository
outside() (
  cd "$1" && export PKG_CONFIG_PATH=$1/moved/lib/pkgconfig && example=$2 && shift 2 &&
    flags=$(pkg-config --cflags hnho) && libraries=$(pkg-config --libs hnho) &&
    "$@" $warnings $flags "$example.c" $libraries -o "$example"
)

step 'the package' tools/package
step 'the folder target/c' mkdir -p target/c
step 'what the archive needs of a C library' links_alone
printf '#include "hnho.h"\n' >target/c/header.c
for standard in c99 c11; do
  step "the header as $standard" header gcc -std=$standard
done
for standard in c++98 c++11 c++17 c++20; do
  step "the header as $standard" header g++ -x c++ -std=$standard
done

# the arguments of each example's page
host=()
truck=(2 1 examples/truck-line.bin 60@0 120@36 120@48)
form=(examples/spelled-job.bin)

for example in host truck form; do
  declare -n arguments=$example
  step "compiling examples/$example.c" compile "examples/$example.c" "target/c/$example"
  step "the page of $example" page "examples/$example.expected" "target/c/$example" "${arguments[@]}"
  step "$example with a header of another layout" another_layout "$example"
  step "the message of $example about another layout" fails 1 "$example: hnho.h and libhnho.a are of different layouts" \
    "target/c/other/$example" "${arguments[@]}"
done

for job in farm arch deck motorway; do
  step "the page of the $job job" page "examples/$job-job.expected" target/c/host "examples/$job-job.bin"
done
for example in arch motorway; do
  step "compiling examples/$example.c" compile "examples/$example.c" "target/c/$example"
  step "the job that $example packs" packs "target/c/$example"
done

# the arch job with a 1 in word 11, and with the high half of its first effect past every limit
{ head -c 44 examples/arch-job.bin; printf '\1\0\0\0'; tail -c +49 examples/arch-job.bin; } >target/c/word-11.bin
step 'an arch job with a 1 in word 11' fails 1 "refused 2 at 11: a header word outside its limits; mended by whoever packs the job \
(at place 0 a short account or report buffer, or h, N, the section's length or the mode of a train's call outside its limits; mended \
by the host)" target/c/host target/c/word-11.bin
{ head -c 288 examples/arch-job.bin; printf '\0\0\0\1'; tail -c +293 examples/arch-job.bin; } >target/c/far.bin
step 'an effect of an arch job past its limits' fails 1 "refused 6 at 71: a word of an effect, a row or a record, or an effect's \
value of two words, outside its limits; mended by whoever keeps the factors" target/c/host target/c/far.bin

# the motorway job with 501 in its line, with a second width of 2080, and without the second carriageway's last ordinate
{ head -c 72 examples/motorway-job.bin; printf '\365\1\0\0'; tail -c +77 examples/motorway-job.bin; } >target/c/ordinate-501.bin
step 'an ordinate of 501 in a motorway job' fails 1 "refused 4 at 18: an ordinate of the influence line, -500 to 500 with two \
carriageways and else -5000 to 5000, or of a transverse line, -1000 to 1000, outside its limits; mended by whoever works out the lines" \
  target/c/host target/c/ordinate-501.bin
{ head -c 48 examples/motorway-job.bin; printf '\40\10\0\0'; tail -c +53 examples/motorway-job.bin; } >target/c/second-width.bin
step 'a second width of 2080' fails 1 "refused 2 at 12: a header word outside its limits; mended by whoever packs the job (at place 0 a \
short account or report buffer, or h, N, the section's length or the mode of a train's call outside its limits; mended by the host)" \
  target/c/host target/c/second-width.bin
{ head -c 356 examples/motorway-job.bin; tail -c +361 examples/motorway-job.bin; } >target/c/second-section.bin
step 'an ordinate too few on the second carriageway' fails 1 "refused 3 at 116: not the number of words that the header calls for; \
mended by whoever packs the job" target/c/host target/c/second-section.bin

# the farm job with W 369, too narrow for traffic barriers
{ head -c 16 examples/farm-job.bin; printf '\161\1\0\0'; tail -c +21 examples/farm-job.bin; } >target/c/narrow.bin
step 'a farm job too narrow' fails 1 "refused 11 at 4: a farm bridge's clear width outside its barriers' band; mended by whoever packs \
the job" target/c/host target/c/narrow.bin
head -c 336 examples/job-a.bin >target/c/short.bin
step 'a refused job' fails 1 'refused 3 at 85: not the number of words that the header calls for; mended by whoever packs the job' \
  target/c/host target/c/short.bin

train="the number of axles, or an axle's load or distance, outside its limits; mended by whoever gives the train"
step 'a refused truck' fails 1 "refused 10 at 2: $train" target/c/truck "${truck[@]:0:4}" 120@35
step 'a truck of no axles' fails 1 "refused 10 at 0: $train" target/c/truck "${truck[@]:0:3}"
step 'a truck of 13 axles' fails 1 "refused 10 at 0: $train" \
  target/c/truck "${truck[@]:0:3}" 1@0 1@0 1@0 1@0 1@0 1@0 1@0 1@0 1@0 1@0 1@0 1@0 1@0
head -c 9000 /dev/zero >target/c/long.bin
step 'a line too long' fails 1 "refused 2 at 0: a header word outside its limits; mended by whoever packs the job (at place 0 a short \
account or report buffer, or h, N, the section's length or the mode of a train's call outside its limits; mended by the host)" \
  target/c/truck 1 1 target/c/long.bin 1@0
step 'a line that is not there' fails 1 'truck: target/c/none.bin cannot be read' target/c/truck 2 1 target/c/none.bin 60@0
usage='usage: truck H MODE LINE LOAD@AT..'
for axle in '' 60 60@ @0 60@x 60@0x 60@0@0 x60@0 -60@0 60@-1 +60@0 ' 60@0' '60@ 0' '60 @0' 4294967296@0 60@4294967296 \
  18446744073709551676@0; do
  step "the axle '$axle'" fails 2 "$usage" target/c/truck "${truck[@]}" "$axle"
done
for number in '' x 2x -2 +2 ' 2' 2.0 18446744073709551618; do
  step "H '$number'" fails 2 "$usage" target/c/truck "$number" "${truck[@]:1}"
  step "the mode '$number'" fails 2 "$usage" target/c/truck 2 "$number" "${truck[@]:2}"
done
for count in 0 1 2; do
  step "$count arguments" fails 2 "$usage" target/c/truck "${truck[@]:0:count}"
done

step 'the form of the spelled job' writes examples/spelled-form.bin target/c/form examples/spelled-job.bin
step 'the form of a form' writes examples/spelled-form.bin target/c/form examples/spelled-form.bin
for job in spelled arch deck motorway; do
  step "the form of the $job job" written_twice target/c/form "examples/$job-job.bin" "target/c/$job-form.bin"
  step "the page of the $job job's form" same_but_records target/c/host "examples/$job-job.bin" "target/c/$job-form.bin"
done
step 'the form of a farm job' fails 1 "refused 1 at 0: under 10 words, in edition 4 under 11, in edition 2 under 12, in edition 3 under \
13, a byte count that 4 does not divide, or word 0 is none of 1 to 4; mended by whoever packs the job" \
  target/c/form examples/farm-job.bin
step 'the form of a refused job' fails 1 \
  'refused 3 at 85: not the number of words that the header calls for; mended by whoever packs the job' target/c/form target/c/short.bin
step 'a job that is not there' fails 1 'form: target/c/none.bin cannot be read' target/c/form target/c/none.bin
step 'a file for the form that cannot be' fails 1 'form: target/c/none/form.bin cannot be written' \
  target/c/form examples/spelled-job.bin target/c/none/form.bin
step 'a form that does not fit its file' fails 1 'form: /dev/full cannot be written' target/c/form examples/spelled-job.bin /dev/full
step 'no job' fails 2 'usage: form JOB [FORM]' target/c/form
step 'an argument too many' fails 2 'usage: form JOB [FORM]' target/c/form examples/spelled-job.bin target/c/form.bin more

step 'compiling tests/host_edges.c' compile tests/host_edges.c target/c/host_edges
step 'tests/host_edges.c' target/c/host_edges examples/job-a.bin
step 'compiling tests/lane_edges.c' compile tests/lane_edges.c target/c/lane_edges
step 'tests/lane_edges.c' target/c/lane_edges
step 'compiling tests/chain_edges.c' compile tests/chain_edges.c target/c/chain_edges
step 'tests/chain_edges.c' target/c/chain_edges
step 'compiling tests/train_edges.c' compile tests/train_edges.c target/c/train_edges
step 'tests/train_edges.c' target/c/train_edges
step 'compiling tests/form_edges.c' compile tests/form_edges.c target/c/form_edges
step 'tests/form_edges.c' target/c/form_edges
step 'compiling tests/stored_calls.c' compile tests/stored_calls.c target/c/stored_calls
step 'the stored cases' stored

away=$(mktemp -d) || exit 2
trap 'rm -rf "$away"' EXIT
step 'an installation' install_in "$away" first
step 'moving the installation' mv "$away/first" "$away/moved"
step 'the release that the tests were written for' env PKG_CONFIG_PATH="$away/moved/lib/pkgconfig" pkg-config --atleast-version=1.6 hnho
step 'the release that HOST.md names' env PKG_CONFIG_PATH="$away/moved/lib/pkgconfig" pkg-config --atleast-version=1.7 hnho
step 'a copy of the examples' cp examples/host.c examples/truck.c examples/form.c examples/arch.c examples/motorway.c "$away"
for compiler in 'gcc -std=c99' 'g++ -x c++ -std=c++98' 'g++ -x c++ -std=c++20'; do
  for example in host truck form; do
    declare -n arguments=$example
    step "$example by $compiler and pkg-config" outside "$away" "$example" $compiler
    step "the page of $example by $compiler and pkg-config" page "examples/$example.expected" "$away/$example" "${arguments[@]}"
  done
  for job in farm arch deck motorway; do
    step "the page of the $job job by $compiler and pkg-config" page "examples/$job-job.expected" "$away/host" "examples/$job-job.bin"
  done
  for example in arch motorway; do
    step "$example by $compiler and pkg-config" outside "$away" "$example" $compiler
    step "the job that $example packs by $compiler and pkg-config" packs "$away/$example"
  done
done
printf 'c.sh: the header, the example hosts, the edges, the stored cases and the installation are as due\n'
