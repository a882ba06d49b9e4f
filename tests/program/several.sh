# Several block files: their sections, put end to end, are one store. And how large an input may be.

# a.car has the list of one link, b.car has `abc`, and damaged.car has other bytes under the CID of `abc`.
two_files() {
  begin "several block files: $1"
  bytes "$no_roots" "$(section "$one_cid" "$one")" >a.car
  bytes "$no_roots" "$(section "$abc_cid" "$abc")" >b.car
  bytes "$no_roots" "$(section "$abc_cid" 616264)" >damaged.car
}
get_of=(get --root "$one_text")

two_files 'what a file links to is in another, in either order, for get and jobs'
run "${get_of[@]}" --blocks a.car --blocks b.car
got 0 "$get_report" "$one_archive"
run "${get_of[@]}" --blocks b.car --blocks a.car
got 0 "$get_report" "$one_archive"
run "${get_of[@]}" --blocks a.car
got 3 "get done visits=2 kept=2 sections=1 bytes=138
  1 missing $abc_text
total jobs=1 done=1 skips=1" "$(header "$one_cid")" "$(section "$one_cid" "$one")"
write_jobs "a $one_job"
run jobs --blocks a.car --blocks b.car --jobs jobs.txt --out out
expect 0 "a $one_line
total jobs=1 done=1 skips=0" ''
expect_bytes out/a.car "$one_archive"

two_files 'of the copies of a CID, the first in all files counts'
run "${get_of[@]}" --blocks a.car --blocks b.car --blocks damaged.car
got 0 "$get_report" "$one_archive"
run "${get_of[@]}" --blocks damaged.car --blocks a.car --blocks b.car
got 3 "get done visits=2 kept=2 sections=1 bytes=138
  1 damaged $abc_text
total jobs=1 done=1 skips=1" "$(header "$one_cid")" "$(section "$one_cid" "$one")"

two_files 'one file twice, and a pipe among files'
run "${get_of[@]}" --blocks a.car --blocks b.car --blocks a.car
got 0 "$get_report" "$one_archive"
run "${get_of[@]}" --blocks a.car --blocks - < <(cat b.car)
got 0 "$get_report" "$one_archive"
run "${get_of[@]}" --blocks - --blocks b.car <a.car
got 0 "$get_report" "$one_archive"

two_files 'an error names its file, and with one file it is as it was'
bytes "$no_roots" 2701551220ba7816bf8f >cut.car
write_jobs "a $one_job"
run jobs --blocks a.car --blocks cut.car --jobs jobs.txt --out out
refused 'blocks: truncated at 18 in cut.car'
run jobs --blocks cut.car --jobs jobs.txt --out out
refused 'blocks: truncated at 18'
run "${get_of[@]}" --blocks a.car --blocks cut.car
refused 'cut.car: truncated at 18: ix_export inspect says how to keep the sections before it'
: >empty.car
run "${get_of[@]}" --blocks empty.car --blocks a.car
expect_text 'exit status' 2 "$status"
refused 'empty.car: truncated at 0: an empty file'
run jobs --blocks a.car --blocks none.car --jobs jobs.txt --out out
refused 'cannot read none.car'
mkdir folder.car
run jobs --blocks folder.car --blocks b.car --jobs jobs.txt --out out
refused 'cannot read folder.car'
expect_folder out

two_files 'no file of them is an output'
write_jobs "a $one_job"
mv b.car out/a.car
cp out/a.car kept.car
run jobs --blocks a.car --blocks out/a.car --jobs jobs.txt --out out
refused 'cannot write out/a.car'
run "${get_of[@]}" --blocks a.car --blocks out/a.car --out out/a.car
refused 'cannot write out/a.car: it is an input: give another output'
ln out/a.car again.car
run "${get_of[@]}" --blocks again.car --blocks a.car --out out/a.car
refused 'cannot write out/a.car: it is an input: give another output'
expect_same out/a.car kept.car out/a.car
expect_folder out a.car

two_files 'standard input is one of them once'
for words in "${get_of[*]} --blocks - --blocks -" "jobs --blocks - --blocks a.car --blocks - --jobs jobs.txt --out out"; do
  run $words </dev/null
  expect_text 'exit status' 2 "$status"
  expect_text 'the first line' "error: standard input is given twice for '--blocks <FILE>'" "$(head -n 1 "$scratch/stderr")"
done
run jobs --blocks a.car --blocks - --jobs - --out out </dev/null
expect_text 'exit status' 2 "$status"
expect_text 'the first line' "error: standard input is given for '--blocks <FILE>' and for '--jobs <FILE>'" "$(head -n 1 "$scratch/stderr")"

two_files 'more files than may be open at once'
words=()
for number in $(seq 40); do
  cp b.car "$number.car"
  words+=(--blocks "$number.car")
done
(ulimit -n 16 && run_bare "${get_of[@]}" "${words[@]}" --blocks a.car >"$scratch/stdout" 2>"$scratch/stderr" && exit "$status") && status=0 || status=$?
got 0 "$get_report" "$one_archive"

begin 'how large an input may be'
write_blocks "$one_blocks"
write_jobs "a $one_job"
size=$(wc -c <blocks.car)
sized=(jobs --blocks blocks.car --jobs jobs.txt --out out)
for most in "$size" 1k 1K 1KiB 1kiB 1M 2MiB 1g 1T 18446744073709551615; do
  run "${sized[@]}" --max-input "$most"
  expect 0 "a $one_line
total jobs=1 done=1 skips=0" ''
done
run "${sized[@]}" --max-input $((size - 1)) --verbose
refused "too large blocks.car
an input has at most $((size - 1)) bytes: --max-input allows more"
run jobs --blocks - --jobs jobs.txt --out out --max-input $((size - 1)) <blocks.car
refused 'too large -'
for words in "inspect blocks.car" "verify blocks.car" "get --blocks blocks.car --root $one_text"; do
  run $words --max-input $((size - 1))
  refused "too large blocks.car: an input has at most $((size - 1)) bytes: --max-input allows more"
done
run check-jobs jobs.txt --max-input 10
refused 'too large jobs.txt: an input has at most 10 bytes: --max-input allows more'
printf 616263 >hex
run root --cid "$abc_text" --max-input 5 <hex
refused 'too large -'

begin 'what is no size'
write_blocks "$one_blocks"
for most in 0 0G "" K G 1.5G 1KB 1B 1iB 1KIB '1 K' 18446744073709551616 16777216T 1P x; do
  run get --blocks blocks.car --root "$one_text" --max-input "$most"
  expect_text "exit status of $most" 2 "$status"
  expect_text "the first line of $most" "error: invalid value '$most' for '--max-input <SIZE>': SIZE is a number of bytes from 1 to 18446744073709551615, or of K, M, G or T, as in 4G or 4GiB" "$(head -n 1 "$scratch/stderr")"
done

begin 'a file that is larger than the memory that is available'
truncate -s 1T blocks.car
run get --blocks blocks.car --root "$one_text" --out out/a.car
expect_text 'exit status' 2 "$status"
expect_text 'the line' 'too large blocks.car: it has 1099511627776 bytes, and N bytes of memory are available: free some, or use a machine with more' \
  "$(sed 's/and [0-9]* bytes/and N bytes/' "$scratch/stderr")"
expect_folder out
bytes "$one_archive" >first.car
run get --blocks first.car --blocks blocks.car --root "$one_text" --out out/a.car
expect_text 'the line for two files' "too large blocks.car: it and the files before it have $(((1 << 40) + $(wc -c <first.car))) bytes, and N bytes of memory are available: free some, or use a machine with more" \
  "$(sed 's/and [0-9]* bytes of/and N bytes of/' "$scratch/stderr")"

# A block of 2^32 + 5 bytes, which take no room on the disk, and a block after it. It takes some 4.3 GB of memory.
if (($(awk '/^MemAvailable:/ { print $2 }' /proc/meminfo) > 6000000)); then
  begin 'a section of more than 4 GiB, and one after it'
  large=$(((1 << 32) + 5))
  bytes "$no_roots" "$(varint $((36 + large)))" "$empty_cid" >blocks.car
  truncate -s "+$large" blocks.car
  at=$(wc -c <blocks.car)
  bytes "$(section "$abc_cid" "$abc")" >>blocks.car
  run get --blocks blocks.car --root "$abc_text"
  got 0 "get done visits=1 kept=1 sections=1 bytes=$((1 + 58 + 40))
total jobs=1 done=1 skips=0
$nothing_below" "$(header "$abc_cid")" "$(section "$abc_cid" "$abc")"
  run inspect --list blocks.car
  expect 0 "18 $large $(text "$empty_cid")
$at 3 $abc_text" ''
  write_jobs "a $abc_text 1 $matcher"
  run_jobs
  refused 'too large blocks.car'
  run jobs --blocks blocks.car --jobs jobs.txt --out out --max-input 5G
  expect 0 "a done visits=1 kept=1 sections=1 bytes=$((1 + 58 + 40))
total jobs=1 done=1 skips=0" ''
fi
