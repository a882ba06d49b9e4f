# What the command `jobs` rejects: files, the CAR file, the job file, and in which order.

# The greatest size of an input.
greatest=1073741824
good_job="a $abc_text 1 $matcher"

# A file of blocks and a job file, for the case to change.
good_files() {
  write_blocks "$(section "$abc_cid" "$abc")"
  write_jobs "$good_job"
}

# files_refused LINE TITLE COMMAND: what the command makes of good files is rejected with the line.
files_refused() {
  begin "$2"
  good_files
  eval "$3"
  run_jobs
  refused "$1"
}

files_refused 'cannot read blocks.car' 'no file of blocks' 'rm blocks.car'
files_refused 'cannot read blocks.car' 'a folder in place of the blocks' 'rm blocks.car; mkdir blocks.car'
files_refused 'too large blocks.car' 'too many blocks' "truncate -s $((greatest + 1)) blocks.car"
files_refused 'cannot read jobs.txt' 'no job file' 'rm jobs.txt'
files_refused 'cannot read jobs.txt' 'a folder in place of the job file' 'rm jobs.txt; mkdir jobs.txt'
files_refused 'too large jobs.txt' 'too large a job file' "truncate -s $((greatest + 1)) jobs.txt"
files_refused 'cannot write out/a.car' 'no output folder' 'rmdir out'
files_refused 'cannot write out/a.car' 'a file in place of the output folder' 'rmdir out; : >out'
files_refused 'cannot write out/a.car' 'a folder in place of an archive' 'mkdir out/a.car'
files_refused 'cannot write out/b.car' 'a folder in place of the second archive' \
  'echo "b ${good_job#a }" >>jobs.txt; mkdir out/b.car'

# car_refused LINE HEX..: the CAR file of these bytes is rejected with the line.
car_refused() {
  local line=$1
  shift
  begin "$line, for a CAR file"
  good_files
  bytes "$@" >blocks.car
  run_jobs
  refused "$line"
}

car_refused 'blocks: truncated at 0' ''
car_refused 'blocks: truncated at 0' 80
car_refused 'blocks: truncated at 0' "${no_roots%??}"
car_refused 'blocks: truncated at 18' "$no_roots" 2701551220ba7816bf8f
car_refused 'blocks: truncated at 58' "$no_roots" "$(section "$abc_cid" "$abc")" ff
car_refused 'blocks: varint at 0' 8100
car_refused 'blocks: varint at 0' "$(repeated 9 ff)" 01
car_refused 'blocks: varint at 18' "$no_roots" 8000
car_refused 'blocks: header at 0' 00
car_refused 'blocks: header at 0' "$(with_length 80)"
car_refused 'blocks: header at 0' "$(with_length a165726f6f747380)"
car_refused 'blocks: header at 0' "$(with_length a16776657273696f6e01)"
car_refused 'blocks: header at 0' "$(with_length a265726f6f7473806776657273696f6ef5)"
car_refused 'blocks: header at 0' "$(with_length a265726f6f747381006776657273696f6e01)"
car_refused 'blocks: version 2 at 0' 0aa16776657273696f6e02
car_refused 'blocks: version -1 at 0' "$(with_length a16776657273696f6e20)"
car_refused 'blocks: version 18446744073709551615 at 0' "$(with_length a16776657273696f6e1b "$(repeated 8 ff)")"
car_refused 'blocks: cid at 18' "$no_roots" 00
car_refused 'blocks: cid at 18' "$no_roots" "$(with_length "${abc_cid%??}")" "$(section "$abc_cid" "$abc")"
car_refused 'blocks: cid at 58' "$no_roots" "$(section "$abc_cid" "$abc")" 0102

# line_refused KIND LINE: the line is rejected, after a comment, an empty line and a good job.
line_refused() {
  begin "$1, for the job line '$2'"
  good_files
  printf '# comment\n\n%s\n%s\n' "$good_job" "$2" >jobs.txt
  run_jobs
  refused "jobs: $1 at line 4"
}

line_refused text "b $abc_text"$'\t'"1 $matcher"
line_refused text $'caf\xc3\xa9'
line_refused text "b $abc_text 1 $matcher"$'\r\r'
line_refused fields b
line_refused fields ' '
line_refused fields ' # no comment'
line_refused fields "b $abc_text 1"
line_refused fields "b  $abc_text 1 $matcher"
line_refused fields " b $abc_text 1 $matcher"
line_refused fields "b $abc_text 1 $matcher "
line_refused fields "b $abc_text 1 $matcher $matcher"
line_refused name "B $abc_text 1 $matcher"
line_refused name "b.c $abc_text 1 $matcher"
line_refused name "../b $abc_text 1 $matcher"
line_refused name "$(repeated 65 b) $abc_text 1 $matcher"
line_refused root "b x 1 $matcher"
line_refused root "b ${abc_text}aaaa 1 $matcher"
line_refused root "b $abc_text, 1 $matcher"
line_refused root "b $abc_text,,$abc_text 1 $matcher"
line_refused root "b $abc_text,x 1 $matcher"
line_refused root "b $abc_text$(repeated 64 ",$abc_text") 1 $matcher"
line_refused fields "b $abc_text, $abc_text 1 $matcher"
for limit in 0 01 +1 1x 1000001 4294967297 18446744073709551617; do
  line_refused limit "b $abc_text $limit $matcher"
done
line_refused hex "b $abc_text 1 a1612ea"
line_refused hex "b $abc_text 1 a1612eag"
line_refused selector "b $abc_text 1 ${matcher}00"
line_refused selector "b $abc_text 1 80"
line_refused selector "b $abc_text 1 a1617ea0"
line_refused selector "b $abc_text 1 a16161a1613ea16140a0"
line_refused repeated "a $abc_text 1 $matcher"
# The first check that fails is reported: those on the fields come before the one on the name that is taken.
line_refused text $'B\t'
line_refused name 'B x 0 g'
line_refused root 'b x 0 g'
line_refused limit "b $abc_text 0 g"
line_refused selector "a $abc_text 1 80"

# behind_a_thousand KIND LINE: the line is rejected after a thousand jobs.
behind_a_thousand() {
  begin "$1, for a job line behind a thousand"
  good_files
  { seq -f "j%g ${good_job#a }" 1000; echo "$2"; } >jobs.txt
  run_jobs
  refused "jobs: $1 at line 1001"
}

behind_a_thousand 'too many' "$good_job"
behind_a_thousand repeated "j7 ${good_job#a }"
behind_a_thousand hex "${good_job}0"

# The first fault is reported: files that can't be read before what they hold, blocks before jobs, inputs
# before outputs.
files_refused 'cannot read blocks.car' 'blocks that are missing, before the job file' 'rm blocks.car jobs.txt'
files_refused 'too large blocks.car' 'blocks that are too large, before the job file' \
  "truncate -s $((greatest + 1)) blocks.car jobs.txt"
files_refused 'cannot read jobs.txt' 'a job file that is missing, before the blocks are refused' \
  'bytes 00 >blocks.car; rm jobs.txt'
files_refused 'too large jobs.txt' 'a job file that is too large, before the blocks are refused' \
  "bytes 00 >blocks.car; truncate -s $((greatest + 1)) jobs.txt"
files_refused 'blocks: header at 0' 'blocks that are refused, before the job file' 'bytes 00 >blocks.car; echo b >jobs.txt'
files_refused 'jobs: fields at line 1' 'a job file that is refused, before the outputs' 'echo b >jobs.txt; rmdir out'

# outputs_stay LINE COMMAND: a fault of an input leaves the output folder as it was.
outputs_stay() {
  begin "$1, and the output folder is untouched"
  good_files
  bytes "$(repeated 300 ff)" >out/a.car
  eval "$2"
  run_jobs
  refused "$1"
  expect_folder out a.car
  expect_bytes out/a.car "$(repeated 300 ff)"
}

outputs_stay 'cannot read jobs.txt' 'rm jobs.txt'
outputs_stay 'blocks: header at 0' 'bytes 00 >blocks.car'
outputs_stay 'jobs: repeated at line 2' 'echo "$good_job" >>jobs.txt'

# input_refused TITLE LINE INPUT OUTPUT COMMAND: an output that the command makes of an input, by whatever name, is
# rejected with the line before anything is made, and the input stays.
input_refused() {
  begin "$1"
  good_files
  echo "b ${good_job#a }" >>jobs.txt
  bytes "$(repeated 300 ff)" >out/a.car
  cp "$3" "$scratch/input"
  eval "$5"
  run_jobs
  refused "$2"
  expect_same "$3" "$scratch/input" "$3"
  expect_folder out a.car "$4"
  expect_bytes out/a.car "$(repeated 300 ff)"
}

input_refused 'an output that is the file of blocks by a symbolic link' 'cannot write out/b.car' blocks.car b.car \
  'ln -s ../blocks.car out/b.car'
input_refused 'an output that is the file of blocks by a hard link' 'cannot write out/b.car' blocks.car b.car \
  'ln blocks.car out/b.car'
input_refused 'an output that is the job file' 'cannot write out/b.car' jobs.txt b.car 'ln jobs.txt out/b.car'
input_refused 'an output that is written where the file of blocks is' 'cannot write out/b.car' blocks.car b.car.part \
  'ln -s ../blocks.car out/b.car.part'
input_refused 'a folder in place of the second archive, and the first stays' 'cannot write out/b.car' blocks.car b.car \
  'mkdir out/b.car'
input_refused 'a folder in place of what is written of the second archive' 'cannot write out/b.car' blocks.car \
  b.car.part 'mkdir out/b.car.part'

begin 'an output that is the file of blocks by its name'
bytes "$no_roots" "$(section "$empty_cid" '')" "$one_blocks" >out/a.car
cp out/a.car blocks.car
write_jobs "a $one_job"
run jobs --blocks out/a.car --jobs jobs.txt --out out
refused 'cannot write out/a.car'
expect_folder out a.car
expect_same out/a.car blocks.car out/a.car

# The run before left good archives; this one may open fewer files than it has jobs.
begin 'more jobs than files that may be open: the archives of the run before stay'
write_blocks "$one_blocks"
seq -f "j%g $one_job" 100 >jobs.txt
for number in $(seq 100); do bytes "$one_archive" >"out/j$number.car"; done
(ulimit -n 64 && run_jobs && exit "$status") && status=0 || status=$?
expect_text 'exit status' 2 "$status"
expect_lines 'standard output' '' "$scratch/stdout"
grep -qxE 'cannot write out/j[0-9]+\.car' "$scratch/stderr" || fail 'standard error' /dev/null "$scratch/stderr"
expect_folder out $(seq -f 'j%g.car' 100 | sort)
expect_text 'digests of the archives' "$(digest "$one_archive")" "$(sha256sum out/* | cut -c 1-64 | uniq)"

# verbose LINE CAUSE COMMAND: the run over good files that the command changed is rejected with the line, and with --verbose
# with the cause on a second line.
verbose() {
  begin "the cause of '$1'"
  good_files
  eval "$3"
  run_jobs
  refused "$1"
  run jobs --blocks blocks.car --jobs jobs.txt --out out --verbose
  refused "$1
$2"
}

verbose 'cannot read blocks.car' 'Is a directory (os error 21)' 'rm blocks.car; mkdir blocks.car'
verbose 'cannot read jobs.txt' 'No such file or directory (os error 2)' 'rm jobs.txt'
verbose 'too large blocks.car' 'an input has at most 1073741824 bytes: --max-input allows more' "truncate -s $((greatest + 1)) blocks.car"
verbose 'blocks: truncated at 0' 'blocks.car: compressed by gzip' 'bytes 1f8b0800 >blocks.car'
advice='ix_export check-jobs reports each faulty line'
verbose 'jobs: fields at line 1' "jobs.txt: 1 field, expected the four NAME ROOTS LIMIT SELECTOR; $advice" 'echo b >jobs.txt'
verbose 'jobs: root at line 2' "jobs.txt: hex, expected base32 beginning with b: $abc_text; $advice" 'write_jobs "a $one_job" "b f$abc_cid 1 $matcher"'
verbose 'jobs: repeated at line 2' "jobs.txt: also in line 1; $advice" 'write_jobs "a $one_job" "a $one_job"'
verbose 'cannot write out/a.car' 'No such file or directory (os error 2); its directory must exist' 'rmdir out'
verbose 'cannot write out/a.car' 'it is an input: give another output' 'ln blocks.car out/a.car'
verbose 'cannot write out/a.car' 'is a directory' 'mkdir out/a.car'
exec {held}>"$scratch/held"
verbose 'cannot write out/a.car' 'another run is writing it' 'flock "$held"; ln "$scratch/held" out/a.car.part'
exec {held}>&-

begin 'the cause of too many files that are open'
write_blocks "$one_blocks"
seq -f "j%g $one_job" 100 >jobs.txt
(ulimit -n 64 && run jobs --blocks blocks.car --jobs jobs.txt --out out --verbose && exit "$status") && status=0 || status=$?
expect_text 'exit status' 2 "$status"
expect_text 'the second line' 'Too many open files (os error 24); ulimit -n says how many files may be open at once' \
  "$(sed -n 2p "$scratch/stderr")"

begin 'root: the cause of an input that is no hexadecimal'
printf x >input
run root --cid "$abc_text" --verbose <input
refused 'input: hex
odd number of digits, or a character that is not a hex digit'

begin 'root: the form that a CID has instead of base32, and its base32'
run root --cid "f$abc_cid" --verbose </dev/null
refused "root: multibase
--cid: hex, expected base32 beginning with b: $abc_text"
run root --cid "${abc_text%?}" --verbose </dev/null
refused "root: base32
--cid: a CID that ends early"
