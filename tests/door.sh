#!/usr/bin/env bash
# Tests ./ix_export, tools/build, tools/dist, .ci/compare and .ci/passed in a small tree with a toolchain that only pretends:
# which program is taken, when one is built, what is rejected, that no failure costs the program that is there, and what CI
# notes. It proves nothing, and takes half a minute. Ends with status 1 at the first that is wrong.
set -Eeuo pipefail
export LC_ALL=C

top=$(cd "$(dirname "${BASH_SOURCE[0]}")/.." && pwd)
scratch=$(mktemp -d)
title='before the first case'
trap 'cd / && rm -rf "$scratch"' EXIT
trap 'exit 1' HUP INT TERM PIPE
trap 'echo "tests/door.sh: $title: the command failed: $BASH_COMMAND" >&2' ERR
source "$top/tests/program/cases.sh"

fail() {
  {
    printf 'tests/door.sh: FAILED: %s: wrong %s\n' "$title" "$1"
    printf 'wanted:\n%s\ncame:\n%s\nstandard error was:\n%s\n' "$(shown "$2")" "$(shown "$3")" "$(shown "$scratch/stderr")"
  } >&2
  exit 1
}

name=ix_export-x86_64-linux
kit='kit-1 logic 0'

# The tools that the scripts need, and no rt.
mkdir "$scratch/tools"
for tool in awk bash cat chmod cmp cp date dirname find flock git grep ls mkdir mkfifo mktemp mv readlink rm sed sh sha256sum sleep sort \
  tail tar tee tsort uname wc xargs; do
  ln -s "$(command -v "$tool")" "$scratch/tools/$tool"
done

# A toolchain that notes what it is asked for. Where the file fails names a crate, that one isn't proved; where the file
# during is there, it is obeyed while a library is built; `made` is what is built.
mkdir -p "$scratch/kit/bin" "$scratch/kit/toolchain/bin"
cat >"$scratch/kit/bin/rt" <<'RT'
#!/usr/bin/env bash
state=$(dirname "$0")/../state
[ "$1" != version ] || { cat "$state/kit"; exit; }
echo "$1 ${PWD#"$(cat "$state/tree")/"}" >>"$state/calls"
echo "fn ${PWD##*/}: proved"
[ "${PWD##*/}" != "$(cat "$state/fails" 2>/dev/null)" ] || { echo "fn ${PWD##*/}: not proved"; exit 1; }
[ ! -e "$state/during" ] || . "$state/during"
mkdir -p out
[ -e out/library ] || echo "${PWD#"$(cat "$state/tree")/"}" >out/library
if [ "$1" = run ]; then
  cp "$state/made" out/ix_export
  ./out/ix_export "${@:3}"
fi
RT
# It strips by copying: clang as llvm-strip --strip-all -o TO FROM.
printf '#!/bin/sh\ncp "$4" "$3"\n' >"$scratch/kit/toolchain/bin/clang"
chmod +x "$scratch/kit/bin/rt" "$scratch/kit/toolchain/bin/clang"
state=$scratch/kit/state

# program FILE WORD: a program that begins each answer with the word.
program() {
  printf '#!/bin/sh\necho "%s: $*"\n' "$2" >"$1"
  chmod +x "$1"
}

# pack WORD: puts a program of the sources as they are into dist/.
pack_dist() {
  mkdir -p dist
  program "dist/$name" "$1"
  tools/sources >dist/sources
  echo "$kit" >dist/KIT
  (cd dist && sha256sum "$name" sources KIT >SHA256SUMS)
}

# Begins a case in a small tree: a chain of two crates below the program, one beside it, and one that it doesn't depend on.
tree() {
  begin "$1"
  rm -rf "$scratch/tree" "$state"
  mkdir -p "$scratch/tree" "$state"
  cd "$scratch/tree"
  cp -r "$top/ix_export" "$top/.ci" "$top/tools" .
  printf '%s\n' 'ix_low: hex' 'ix_side: ix_low hex' 'ix_high: ix_low' 'ix_export: ix_high ix_side' 'ix_other: ix_high' >crates.txt
  echo 'Handles allowed: none.' >HANDLES
  for crate in low side high other; do
    mkdir -p "crates/ix_$crate/src"
    echo "$crate" >"crates/ix_$crate/src/lib.rt"
  done
  mkdir -p crates/ix_export/src
  echo program >crates/ix_export/src/main.rt
  git init -q .
  pwd >"$state/tree"
  echo "$kit" >"$state/kit"
  : >"$state/calls"
  program "$state/made" built
  pack_dist dist
  jobs=1
  path=$scratch/kit/bin:$scratch/tools
}

without_rt() {
  path=$scratch/tools
}

# Runs a command of the tree as on a machine that has nothing but the tools.
here() {
  RT_JOBS=$jobs PATH=$path "$@"
}

run_bare() {
  status=0
  here ./ix_export "$@" || status=$?
}

# what WHAT WORD..: what the words wanted are of standard output, standard error and rt's calls.
answers() {
  expect_text 'exit status' "$1" "$status"
  expect_lines 'standard output' "$2" "$scratch/stdout"
}

silent() {
  expect_lines 'standard error' '' "$scratch/stderr"
}

# says TEXT: standard error has a line with the text.
says() {
  grep -qF -e "$1" "$scratch/stderr" || fail "standard error, without '$1'" /dev/null "$scratch/stderr"
}

# says_not TEXT
says_not() {
  ! grep -qF -e "$1" "$scratch/stderr" || fail "standard error, with '$1'" /dev/null "$scratch/stderr"
}

# called LINE..: what rt was called for.
called() {
  expect_lines 'calls of rt' "$(printf '%s\n' "$@")" "$state/calls"
}

never_called() {
  expect_lines 'calls of rt' '' "$state/calls"
}

# built_files FILE..: what is in build/, but for what ./ix_export notes there.
built_files() {
  rm -f build/compared
  expect_folder build "$@"
}

# Runs the program until what was found is noted anew, which waits until no file is younger than two seconds.
noted() {
  local tries=0
  rm -f build/compared
  until [ -e build/compared ]; do
    tries=$((tries + 1))
    [ "$tries" -lt 40 ] || fail 'build/compared, which is never there' /dev/null /dev/null
    sleep 0.3
    run a
  done
}

# sums_by COMMAND: from here on files are hashed by this command, until sums_as_before.
sums_by() {
  mkdir -p "$scratch/sums"
  printf '#!/bin/sh\n%s\n' "$1" >"$scratch/sums/sha256sum"
  chmod +x "$scratch/sums/sha256sum"
  path=$scratch/sums:$path
}

sums_as_before() {
  path=${path#"$scratch/sums:"}
}

# compares: where no file can be hashed, the program isn't taken.
compares() {
  run a
  [ "$status" -ne 0 ] || fail 'status: the files are not compared' /dev/null "$scratch/stdout"
}

# change FILE TEXT: changes a file under its old mtime.
change() {
  cp -p "$1" before
  printf '%s\n' "$2" >"$1"
  touch -r before "$1"
  expect_text "bytes and mtime of $1" "$(find before -printf '%s %t')" "$(find "$1" -printf '%s %t')"
}

# What a build asks of rt in order, where no crate is checked beside others.
all_of=('lib crates/ix_low' 'lib crates/ix_side' 'lib crates/ix_high' 'run crates/ix_export')

tree 'the program in dist/ is taken without a word'
run jobs --out x
answers 0 'dist: jobs --out x'
silent
never_called

tree 'it takes memory in huge pages, unless the user says otherwise'
printf '#!/bin/sh\necho "$GLIBC_TUNABLES"\n' >"dist/$name"
(cd dist && sha256sum "$name" sources KIT >SHA256SUMS)
GLIBC_TUNABLES= run jobs
answers 0 'glibc.malloc.hugetlb=1'
GLIBC_TUNABLES=glibc.malloc.arena_max=2 run jobs
answers 0 'glibc.malloc.arena_max=2:glibc.malloc.hugetlb=1'
GLIBC_TUNABLES=glibc.malloc.hugetlb=0 run jobs
answers 0 'glibc.malloc.hugetlb=0'
silent

tree 'it is taken without a toolchain, and by a link from elsewhere'
without_rt
mkdir elsewhere
ln -s ../ix_export elsewhere/export
status=0
(cd elsewhere && here ./export a) >"$scratch/stdout" 2>"$scratch/stderr" || status=$?
answers 0 'dist: a'
silent

tree 'the version tells which program it is'
run --version
answers 0 "dist: --version
taken from dist/, made with $kit"
silent
run -V
answers 0 "dist: -V
taken from dist/, made with $kit"

tree 'the path of the program'
run --where
answers 0 "$scratch/tree/dist/$name"
silent

tree 'words of the script that stand behind others are the program'"'"'s'
run jobs --where
answers 0 'dist: jobs --where'
run jobs --version
answers 0 'dist: jobs --version'
run --where more
answers 0 'dist: --where more'
run ''
answers 0 'dist: '

tree 'a source with a byte changed: the program is built'
printf x >>crates/ix_low/src/lib.rt
run a
answers 0 'built: a'
says 'ix_export: proving and building the program and the 3 crates'
says 'ix_export: 0 of 4 crates, '
says ' more (ix_low)'
says 'ix_export: 3 of 4 crates, '
says ' more (ix_export)'
says 'ix_export: 4 of 4 crates, '
says ': the program is proved and built'
says_not 'fn ix_low'
called "${all_of[@]}"
run b
answers 0 'built: b'
silent
called "${all_of[@]}"
run --version
answers 0 "built: --version
taken from build/, made with $kit"
title='the source as it was: the program in dist/ again, and the one that was built stays'
echo low >crates/ix_low/src/lib.rt
run c
answers 0 'dist: c'
silent
expect_same "build/$name" "$state/made" "build/$name"

# of_the_program FILE: a change there has the program built anew.
for file in HANDLES crates/ix_export/src/main.rt crates/ix_side/src/lib.rt; do
  tree "a byte changed in $file: the program is built"
  printf x >>"$file"
  run a
  answers 0 'built: a'
done
tree 'another line of a crate below: the program is built'
sed -i 's/^ix_side: .*/& smallvec/' crates.txt
run a
answers 0 'built: a'
tree 'a source of a crate above, and its line: the program in dist/'
printf x >>crates/ix_other/src/lib.rt
sed -i 's/^ix_other: .*/& smallvec/' crates.txt
run a
answers 0 'dist: a'
silent

tree 'a byte changed in the program in dist/: it is refused, and one is built'
printf '#' >>"dist/$name"
run a
answers 0 'built: a'
says "ix_export: dist/$name isn't the program whose sum dist/SHA256SUMS has; it isn't run"
run b
answers 0 'built: b'
silent

tree 'a program in dist/ whose sum is nowhere: it is refused'
sed -i "/$name/d" dist/SHA256SUMS
run a
answers 0 'built: a'
says "it isn't run"
rm -r build
rm dist/SHA256SUMS
run a
answers 0 'built: a'
says "it isn't run"

tree 'a program in dist/ with another sum, and no toolchain'
printf '#' >>"dist/$name"
without_rt
run a
answers 2 ''
says "isn't the program whose sum dist/SHA256SUMS has; it isn't run"
says "isn't the program whose sum dist/SHA256SUMS has, and \`rt\`, the command of the toolchain that proves and builds the program, isn't on the PATH"

tree 'other sources, and no toolchain'
printf x >>crates/ix_low/src/lib.rt
without_rt
run --help
answers 2 ''
says "ix_export: dist/$name is of other sources"
says "isn't on the PATH"

tree 'no program in dist/, and no toolchain'
rm "dist/$name"
without_rt
run a
answers 2 ''
says 'there is none in dist/'
says "isn't on the PATH"

tree 'a program in dist/ that cannot be run here: one is built, and nothing is refused'
printf '\177ELF of another processor' >"dist/$name"
(cd dist && sha256sum "$name" sources KIT >SHA256SUMS)
run a
answers 0 'built: a'
says_not "it isn't run"
rm -r build
without_rt
run a
answers 2 ''
says "can't be run here: it needs Linux on x86-64 with glibc 2.34 or later (Debian 12, "

tree 'a program in dist/ that the loader rejects: its own line, and what is needed'
printf '#!/bin/sh\necho "$0: libc.so.6: version GLIBC_2.34 not found" >&2\nexit 1\n' >"dist/$name"
(cd dist && sha256sum "$name" sources KIT >SHA256SUMS)
without_rt
run a
answers 2 ''
says "dist/$name: libc.so.6: version GLIBC_2.34 not found"
says "can't be run here: it needs Linux on x86-64 with glibc 2.34 or later (Debian 12, "
path=$scratch/kit/bin:$scratch/tools
run a
answers 0 'built: a'
says "dist/$name: libc.so.6: version GLIBC_2.34 not found"
says "can't be run here: it needs Linux on x86-64 with glibc 2.34 or later (Debian 12, "

tree 'a build that fails costs nothing'
printf x >>crates/ix_low/src/lib.rt
run a
answers 0 'built: a'
cp -r build before
printf x >>crates/ix_low/src/lib.rt
program "$state/made" newer
echo ix_high >"$state/fails"
for word in a --help --version --where; do
  run "$word"
  answers 2 ''
  says 'fn ix_high: not proved'
  says "ix_export: ix_high wasn't built"
done
for file in "$name" sources KIT SHA256SUMS; do
  expect_same "build/$file" "before/$file" "build/$file"
done
built_files KIT SHA256SUMS "$name" lock log sources
title='and the next one that passes replaces it'
rm "$state/fails"
run a
answers 0 'newer: a'
title='the program itself is not proved'
printf x >>crates/ix_low/src/lib.rt
echo ix_export >"$state/fails"
run a
answers 2 ''
expect_same "build/$name" "$state/made" "build/$name"

tree 'a source that is changed while the program is built'
printf x >>crates/ix_low/src/lib.rt
echo 'echo more >>"$(cat "$state/tree")/crates/ix_low/src/lib.rt"' >"$state/during"
run a
answers 2 ''
says 'a source was changed while the program was built'
built_files lock log

tree 'to prove and build here, whatever dist/ has'
run --prove a
answers 0 'built: a'
called "${all_of[@]}"
run --prove
answers 0 ''
says "build/$name is proved and built here"
called "${all_of[@]}"
run --prove --where
answers 0 "$scratch/tree/build/$name"
run a
answers 0 'built: a'
silent

tree 'what was found is noted: the next run reads no file'
noted
sums_by 'exit 1'
run b
answers 0 'dist: b'
silent
title='a source that is added, and a folder of sources: they are compared'
echo more >crates/ix_low/src/more.rt
compares
rm crates/ix_low/src/more.rt
run b
answers 0 'dist: b'
mkdir crates/ix_low/specs
echo more >crates/ix_low/specs/more.antt
compares
rm -r crates/ix_low/specs
run b
answers 0 'dist: b'
title='to prove here: the program in dist/ is not taken'
run --prove a
[ "$status" -ne 0 ] || fail 'status' /dev/null "$scratch/stdout"
title='a source that is moved away'
mv crates/ix_side/src/lib.rt .
compares

tree 'a source that is changed under its old mtime: the program is built'
noted
change crates/ix_low/src/lib.rt wol
run a
answers 0 'built: a'
title='a program that is changed under its old mtime: it is built anew'
noted
sums_by 'exit 1'
run b
answers 0 'built: b'
sums_as_before
change "build/$name" "$(tr b B <"build/$name")"
run a
answers 0 'built: a'
called "${all_of[@]}" "${all_of[@]}"

tree 'a source that is changed after it was hashed: nothing is noted'
noted
rm build/compared
sums_by "'$scratch/tools/sha256sum' \"\$@\" && echo wol >'$PWD/crates/ix_low/src/lib.rt'"
run a
answers 0 'dist: a'
sums_as_before
run a
answers 0 'built: a'

tree 'where nothing can be noted, the files are compared each time'
: >build
run a
answers 0 'dist: a'
silent
printf x >>crates/ix_low/src/lib.rt
without_rt
run a
answers 2 ''
says "dist/$name is of other sources"

tree 'the program in build/ with a byte changed: it is built anew'
run --prove
printf '#' >>"build/$name"
run --prove a
answers 0 'built: a'
called "${all_of[@]}" "${all_of[@]}"

tree 'a crate beside the chain is checked in a copy, and taken from there'
jobs=4
run --prove a
answers 0 'built: a'
expect_text 'calls of rt for it' $'lib .git/checked-beside/crates/ix_side\nlib crates/ix_side' "$(grep ix_side "$state/calls")"
expect_text 'what the program was built behind' 'run crates/ix_export' "$(tail -n 1 "$state/calls")"
expect_text 'its library' .git/checked-beside/crates/ix_side "$(cat crates/ix_side/out/library)"
expect_text 'the library of a crate of the chain' crates/ix_low "$(cat crates/ix_low/out/library)"
[ ! -e .git/checked-beside ] || fail 'copy, which is left' /dev/null /dev/null
title='once it was checked, it is checked in turn'
: >"$state/calls"
printf x >>crates/ix_low/src/lib.rt
run a
answers 0 'built: a'
called "${all_of[@]}"
title='it is not proved there, nor here'
printf x >>crates/ix_low/src/lib.rt
rm -r crates/ix_side/out
echo ix_side >"$state/fails"
run a
answers 2 ''
says "ix_export: ix_side wasn't built"
[ ! -e .git/checked-beside ] || fail 'copy, which is left' /dev/null /dev/null

tree 'two builds at once: the second takes what the first built'
jobs=1
echo 'sleep 0.1' >"$state/during"
(run --prove a; answers 0 'built: a') &
other=$!
here ./ix_export --prove b >"$scratch/second" 2>/dev/null
expect_text 'answer of the second' 'built: b' "$(cat "$scratch/second")"
wait "$other"
called "${all_of[@]}"

tree 'a build that is ended leaves nothing behind'
jobs=4
echo 'echo $$ >>"$state/begun"; exec sleep 600' >"$state/during"
RT_JOBS=$jobs PATH=$path tools/build 2>/dev/null &
building=$!
until [ -e "$state/begun" ]; do sleep 0.05; done
kill "$building"
since=$SECONDS
wait "$building" || true
expect_text 'seconds until it ended' 'few' "$([ $((SECONDS - since)) -lt 300 ] && echo few || echo many)"
built_files lock log
[ ! -e .git/checked-beside ] || fail 'copy, which is left' /dev/null /dev/null
[ ! -d "/proc/$(head -n 1 "$state/begun")" ] || fail 'rt, which goes on' /dev/null /dev/null

# compared STATUS LINE
compared() {
  status=0
  here .ci/compare >"$scratch/stdout" 2>"$scratch/stderr" || status=$?
  expect_text 'exit status' "$1" "$status"
  grep -qF -e "$2" "$scratch/stdout" "$scratch/stderr" || fail "line, without '$2'" /dev/null "$scratch/stdout"
}

tree 'the gate compares its program with the one in dist/'
run --prove
program "dist/$name" built
(cd dist && sha256sum "$name" sources KIT >SHA256SUMS)
compared 0 'make the same program'
title='it makes another program'
program "dist/$name" other
(cd dist && sha256sum "$name" sources KIT >SHA256SUMS)
compared 1 'FAILED: these sources and this kit make another program'
title='the program in dist/ is not that of its sum'
program "dist/$name" built
compared 1 'FAILED: the files are not those'
title='dist/ is of another kit'
echo 'kit-2 logic 0' >"$state/kit"
compared 0 "made with $kit, so not compared"
title='dist/ is of other sources'
printf x >>crates/ix_low/src/lib.rt
compared 0 'of other sources, so not compared'
title='there is no program in dist/'
rm "dist/$name"
compared 0 'no program to compare'
title='which glibc the program needs is not known without objdump'
compared 0 "glibc: objdump isn't installed, so what the program needs isn't checked"
title='it needs no newer one than ./ix_export names'
# needs VERSION..: an objdump by which the program needs these.
needs() {
  { echo '#!/bin/sh' && printf 'echo "00000000      DF *UND*  00000000 (%s) it"\n' "$@"; } >"$scratch/kit/bin/objdump"
  chmod +x "$scratch/kit/bin/objdump"
}
needs GLIBC_2.9 GLIBC_2.34 GCC_3.0
compared 0 'glibc: the program needs GLIBC_2.34, and 2.34 is what ./ix_export and the package name'
title='it needs a newer one'
needs GLIBC_2.34 GLIBC_2.38 GLIBC_2.9
compared 1 'glibc: FAILED: the program needs GLIBC_2.38, and ./ix_export and the package name 2.34'
title='objdump shows none'
needs GCC_3.0
compared 1 'glibc: FAILED: objdump shows no version'
rm "$scratch/kit/bin/objdump"

# dist_refused: the gate hasn't built what is to go into dist/, and one line says what to do.
dist_refused() {
  status=0
  here tools/dist >"$scratch/stdout" 2>"$scratch/stderr" || status=$?
  answers 1 ''
  expect_lines 'standard error' "tools/dist: build/ hasn't the program that the gate built of these sources: run .ci/run first" \
    "$scratch/stderr"
}

tree 'dist/ is made of the gate'"'"'s own build alone'
rm -r dist
dist_refused
run --prove
dist_refused
cp build/SHA256SUMS build/gate
here tools/dist >"$scratch/stdout" 2>"$scratch/stderr"
expect_folder dist KIT SHA256SUMS "$name" sources
compared 0 'make the same program'
rm -r build
run a
answers 0 'built: a'
silent

# passed TREE: what the gate has noted of the commit, the files, the kit and the time.
passed() {
  here .ci/passed end
  expect_lines 'note of the gate' "commit $(git rev-parse HEAD)
tree $1
kit $kit
time a time" <(sed 's/^time [0-9-]*T[0-9:]*Z$/time a time/' build/passed)
}

tree 'the gate notes which commit it has passed'
mkdir build
echo build/ >.git/info/exclude
git add . && git -c user.name=a -c user.email=a commit -q -m a
here .ci/passed begin
passed clean
title='a file was changed while the gate ran'
printf x >>crates/ix_low/src/lib.rt
passed changed
title='a file was changed before it'
here .ci/passed begin
[ ! -e build/passed ] || fail 'note, which is of an earlier run' /dev/null build/passed
passed changed
title='another commit came while it ran'
git -c user.name=a -c user.email=a commit -q -a -m b
before=$(git rev-parse HEAD)
here .ci/passed begin
git -c user.name=a -c user.email=a commit -q --allow-empty -m c
here .ci/passed end
grep -q -e "^commit $before$" build/passed && grep -q '^tree changed$' build/passed || fail 'note' /dev/null build/passed

echo "tests/door.sh: $cases cases passed"
