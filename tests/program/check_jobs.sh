# The commands `check-jobs` and `job`: what is wrong with a job file, line by line, and the line of a job out of its words.

json='{"R":{"l":{"none":{}},":>":{"a":{">":{"@":{}}}}}}'
json_hex=$(run_bare selector "$json")

# checked FILE LINE..: the answer of `check-jobs` for the file: its first line is that of the command `jobs`.
checked() {
  run check-jobs "$1"
  expect 2 "$(printf '%s\n' "${@:2}")" ''
  run jobs --blocks blocks.car --jobs "$1" --out out
  refused "$2"
}

begin 'check-jobs: a good file, with comments and empty lines'
printf '# photos\r\n\r\na %s\r\n\nb %s' "$one_job" "$one_job" >jobs.txt
run check-jobs jobs.txt
expect 0 '' ''
run check-jobs - <jobs.txt
expect 0 '' ''
title='check-jobs: a file without lines'
run check-jobs /dev/null
expect 0 '' ''

begin 'check-jobs: each faulty line, its field, what is wrong and what is right'
write_blocks
write_jobs "a $one_job" "b zQ3sh 1 $matcher" "c $abc_text 1 $json" "d $abc_text 1 ${matcher}0" "a $one_job" "B $abc_text 1 $matcher" \
  "e $abc_text 01 $matcher" "f $abc_text 1 a1612e80" "# c" "g  $abc_text 1 $matcher" "h $abc_text 1 $matcher " "i $abc_text 1" \
  "j $abc_text, $abc_text 1 $matcher" "k $abc_text 1 {\".\": {}}" $'l\t'"$one_job" "m $abc_text 1 0xa1612ea0" "n $abc_text x $matcher"
checked jobs.txt 'jobs: root at line 2' \
  'line 2, ROOT: base58, expected base32 beginning with b' \
  'line 3, SELECTOR: JSON, converted to hex by ix_export selector' \
  'line 4, SELECTOR: an odd number of hex digits, expected two for each byte' \
  'line 5, NAME: also in line 1' \
  'line 6, NAME: upper case, expected a to z, 0 to 9, - and _' \
  'line 7, LIMIT: a leading zero, expected 1 to 1000000 without one' \
  'line 8, SELECTOR: no selector: a value of another kind at /.' \
  'line 10: two spaces after NAME, expected one' \
  'line 11: trailing space' \
  'line 12: 3 fields, expected the four NAME ROOTS LIMIT SELECTOR' \
  'line 13, ROOT: a space after a comma, expected none' \
  'line 14, SELECTOR: JSON, converted to hex by ix_export selector' \
  'line 15: a tab and not a space after NAME' \
  'line 16, SELECTOR: 0x, expected hex digits alone' \
  'line 17, LIMIT: not a number in decimal digits, expected 1 to 1000000'

begin 'check-jobs: limits up to the N of --max-limit'
write_blocks
write_jobs "a $abc_text 1000001 $matcher" "b $abc_text 2000001 $matcher"
checked jobs.txt 'jobs: limit at line 1' \
  'line 1, LIMIT: greater than 1000000, expected 1 to 1000000' \
  'line 2, LIMIT: greater than 1000000, expected 1 to 1000000'
run check-jobs jobs.txt --max-limit 2000000
expect 2 'jobs: limit at line 2
line 2, LIMIT: greater than 2000000, expected 1 to 2000000' ''
run check-jobs jobs.txt --max-limit 2000001
expect 0 '' ''

# Texts of the raw block `abc` in the bases of the multibase table, and a CIDv0 and addresses.
begin 'check-jobs: roots in other forms'
write_blocks
upper=B$(tr a-z A-Z <<<"${abc_text#b}")
write_jobs "a QmYwAPJzv5CZsnA625s3Xf2nemtYgPpHdWEz79ojWKPbdG 1 $matcher" "b F$abc_cid 1 $matcher" "c $upper 1 $matcher" \
  "d ipfs://$abc_text 1 $matcher" "e /ipfs/$abc_text/x 1 $matcher" "f $abc_text,f$abc_cid 1 $matcher" "g ${abc_text%?} 1 $matcher" \
  "h $abc_text,$abc_text, 1 $matcher" "i $(repeated 65 "$abc_text,")$abc_text 1 $matcher" "j k2jmtxw8 1 $matcher" "k mAVUSILp4 1 $matcher" \
  "l hello 1 $matcher" "m https://ipfs.io/ipfs/$abc_text 1 $matcher" "n v0-1220$(digest "$abc") 1 $matcher"
checked jobs.txt 'jobs: root at line 1' \
  'line 1, ROOT: base58 of a CIDv0, which names UnixFS, expected a CIDv1 in base32 beginning with b' \
  "line 2, ROOT: hex, expected base32 beginning with b: $abc_text" \
  "line 3, ROOT: base32 in upper case, expected lower case, beginning with b: $abc_text" \
  "line 4, ROOT: an ipfs:// address, expected the CID alone: $abc_text" \
  "line 5, ROOT: a path of /ipfs/, expected the CID alone: $abc_text" \
  "line 6, ROOT: f$abc_cid is hex, expected base32 beginning with b: $abc_text" \
  'line 7, ROOT: a CID that ends early' \
  'line 8, ROOT: no text beside a comma, expected comma-separated CIDs' \
  'line 9, ROOT: 66 texts, expected 1 to 64' \
  'line 10, ROOT: base36, expected base32 beginning with b' \
  'line 11, ROOT: base64, expected base32 beginning with b' \
  'line 12, ROOT: not a CID, expected a CIDv1 in base32, beginning with b' \
  "line 13, ROOT: a URL, expected the CID alone: $abc_text" \
  'line 14, ROOT: hex of a CIDv0, which names UnixFS, expected a CIDv1 in base32 beginning with b'

begin 'check-jobs: all faulty fields of a line, and bytes that are no text'
write_blocks
printf '%s\n' "A zabc 0 x" $'\xef\xbb\xbf'"a $one_job" $'a\xc2\xa0'"$one_job" "a $abc_text 1 $matcher"$'\t' >jobs.txt
checked jobs.txt 'jobs: name at line 1' \
  'line 1, NAME: upper case, expected a to z, 0 to 9, - and _' \
  'line 1, ROOT: base58, expected base32 beginning with b' \
  'line 1, LIMIT: 0, expected 1 to 1000000' \
  'line 1, SELECTOR: not hex, expected the line of ix_export selector' \
  'line 2: a byte order mark, expected none' \
  'line 3: a no-break space, expected a space' \
  'line 4: a trailing tab'

begin 'check-jobs: a job too many, and a faulty line behind it'
write_blocks
seq -f "j%g $one_job" 1002 >jobs.txt
echo 'x' >>jobs.txt
checked jobs.txt 'jobs: too many at line 1001' \
  'line 1001: after 1000 jobs, the most that a run takes; jobs --part runs a part of more' \
  'line 1003: 1 field, expected the four NAME ROOTS LIMIT SELECTOR'

begin 'check-jobs: a file that is not there, and none'
run check-jobs none
refused 'cannot read none: No such file or directory (os error 2)'
run check-jobs
expect_text 'exit status' 2 "$status"

begin 'job: the line, from words and from standard input; jobs takes it'
write_blocks "$one_blocks"
run job a "$(text "$one_cid")" 100 "$json"
expect 0 "a $(text "$one_cid") 100 $json_hex" ''
cp "$scratch/stdout" jobs.txt
run job -- -_ "$abc_text,$(text "$one_cid")" 1000000 - <<<" $json "
expect 0 "-_ $abc_text,$(text "$one_cid") 1000000 $json_hex" ''
cat "$scratch/stdout" >>jobs.txt
run check-jobs jobs.txt
expect 0 '' ''
run_jobs
expect_text 'exit status' 0 "$status"
expect_folder out -_.car a.car

title='job: a limit up to the N of --max-limit'
run job --max-limit 2000000 a "$(text "$one_cid")" 2000000 "$json"
expect 0 "a $(text "$one_cid") 2000000 $json_hex" ''
run job --max-limit 10 a "$(text "$one_cid")" 11 "$json"
refused 'LIMIT: greater than 10, expected 1 to 10'

begin 'check-jobs: a part of a file of more jobs, and a CAR file'
write_blocks "$one_blocks"
seq -f "j%g $one_job" 1001 >jobs.txt
run check-jobs jobs.txt --part 1/2
expect 0 '' ''
run jobs --blocks blocks.car --jobs jobs.txt --out out --part 1/2 --quiet
expect 0 '' ''
echo b >>jobs.txt
run check-jobs jobs.txt --part 1/2
expect_text 'exit status' 2 "$status"
expect_text 'the first line' 'jobs: fields at line 1002' "$(head -n 1 "$scratch/stdout")"
run check-jobs jobs.txt --part 3/2
expect_text 'exit status' 2 "$status"
run check-jobs blocks.car
refused 'blocks.car: a CAR file and no job file; ix_export inspect describes it'

# job_refused LINE WORD..
job_refused() {
  local line=$1
  shift
  begin "$line, for the job of '$*'"
  run job "$@"
  refused "$line"
}

job_refused 'NAME: upper case, expected a to z, 0 to 9, - and _' A "$abc_text" 1 '{".":{}}'
job_refused 'NAME: empty, expected 1 to 64 of a to z, 0 to 9, - and _' '' "$abc_text" 1 '{".":{}}'
job_refused 'NAME: longer than 64 bytes, expected 1 to 64' "$(repeated 65 a)" "$abc_text" 1 '{".":{}}'
job_refused 'LIMIT: greater than 1000000, expected 1 to 1000000' a "$abc_text" 1000001 '{".":{}}'
job_refused 'LIMIT: not a number in decimal digits, expected 1 to 1000000' a "$abc_text" '1 1' '{".":{}}'
job_refused 'selector: unknown key "x"' a "$abc_text" 1 '{"x":{}}'
job_refused "ROOT: v0-1220$(digest "$abc") is a CIDv0, and a job file has CIDv1s alone: the CIDv1 of the same hash is $(text "01701220$(digest "$abc")")" \
  a QmatYkNGZnELf8cAGdyJpUca2PyY4szai3RHyyWofNY1pY 1 '{".":{}}'

# no_root WORDS ROOT: a root that the command line itself rejects.
no_root() {
  begin "$1, for the root '$2'"
  run job a "$2" 1 '{".":{}}'
  expect_text 'exit status' 2 "$status"
  expect_text 'the first line' "error: invalid value for '<ROOT>': '$2': not a CID: $1" "$(head -n 1 "$scratch/stderr")"
}

no_root 'a CID that ends early' zabc
no_root 'neither a multibase prefix nor the 46 characters of a CIDv0' ' '
no_root 'a digit of base32 too many, or another one at its end' "${abc_text}a"
no_root 'no digit of base32 at byte 58' "${abc_text%?}0"

# The root of a line is in base32, however it is given: the raw block `abc` in the other bases.
begin 'job: roots as they are pasted'
for root in "${abc_text^^}" "f$abc_cid" "F${abc_cid^^}" k2cwuedaprl9o36qe0a3p667a837sh0n447c46bmq1d6bg6z8tgmmqi5 \
  K2CWUEDAPRL9O36QE0A3P667A837SH0N447C46BMQ1D6BG6Z8TGMMQI5 zb2rhjCBERUodVMcKTiFjjbWP12nfh2nNKKcpDNHeQPReWC2G \
  uAVUSILp4Fr-PAc_qQUFA3l2uIiOwA2Gjlhd6nLQQ_2HyABWt \
  "https://ipfs.io/ipfs/$abc_text?x=1#y" "https://$abc_text.ipfs.dweb.link/?download=true" "ipfs://f$abc_cid#y"; do
  run job a "$root,$abc_text" 1 '{".":{}}'
  expect 0 "a $abc_text,$abc_text 1 $matcher" ''
done
