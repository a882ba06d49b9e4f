# Verification beside other files: a CID that the file lacks is looked up in them, in their order.

# a.car has the list of one link under its root, b.car has `abc`, and damaged.car has other bytes under the CID of `abc`.
beside() {
  begin "verify --with: $1"
  bytes "$(header "$one_cid")$(section "$one_cid" "$one")" >a.car
  bytes "$no_roots$(section "$abc_cid" "$abc")" >b.car
  bytes "$no_roots$(section "$abc_cid" 616264)" >damaged.car
}
a_sound='a.car sound sections=1 bytes=138'
a_missing="a.car incomplete sections=1 bytes=138 unsound=0 skips=1
  link missing $abc_text"
a_damaged="a.car broken sections=1 bytes=138 unsound=0 skips=1
  link damaged $abc_text"

beside 'what a file links to is in another'
run verify a.car --with b.car
expect 0 "$a_sound" ''
run verify --with b.car a.car b.car
expect 0 "$a_sound
b.car sound sections=1 bytes=58" ''
run verify a.car
expect 3 "$a_missing" ''
run verify a.car --with a.car
expect 3 "$a_missing" ''

# The other file's own root has no block.
beside 'the roots are those of the file, and their blocks may be in another'
bytes "$(header "$one_cid")" >roots.car
bytes "$(header "$with_zero_cid")$one_blocks" >library.car
run verify roots.car --with library.car
expect 0 'roots.car sound sections=0 bytes=59' ''
run verify library.car
expect 3 "library.car incomplete sections=2 bytes=178 unsound=0 skips=1
  link missing $(text "$with_zero_cid")" ''

beside 'a block of another file is checked where a link leads to it'
run verify a.car --with damaged.car
expect 3 "$a_damaged" ''
bytes "$one_archive" >whole.car
run verify whole.car --with damaged.car
expect 0 'whole.car sound sections=2 bytes=178' ''
bytes "$no_roots$(section "$empty_cid" "$abc")$(section "$abc_cid" "$abc")$(section "$abc_cid" 616264)" >b.car
run verify a.car --with b.car
expect 0 "$a_sound" ''

beside 'the copy in the file counts first, also if it is damaged'
bytes "$(header "$one_cid")$(section "$one_cid" "$one")$(section "$abc_cid" 616264)" >own.car
run verify own.car --with b.car
expect 3 "own.car broken sections=2 bytes=178 unsound=1 skips=1
  section 138 damaged $abc_text
  link damaged $abc_text" ''

beside 'several files, in their order'
run verify a.car --with b.car --with damaged.car
expect 0 "$a_sound" ''
run verify a.car --with damaged.car --with b.car
expect 3 "$a_damaged" ''
bytes "$(header "$fork_cid")$(section "$fork_cid" "$fork")" >fork.car
bytes "$no_roots$(section "$with_zero_cid" "$with_zero")" >zero.car
bytes "$no_roots$(section "$one_cid" "$one")" >one.car
run verify fork.car --with zero.car --with one.car --with b.car
expect 0 "fork.car sound sections=1 bytes=$(wc -c <fork.car)" ''
run verify fork.car --with zero.car --with b.car
expect 3 "fork.car incomplete sections=1 bytes=$(wc -c <fork.car) unsound=0 skips=1
  link missing $(text "$one_cid")" ''
run verify --all a.car fork.car --with b.car --with zero.car
expect 3 "$a_sound
  link missing $(text "$one_cid")
fork.car incomplete sections=1 bytes=$(wc -c <fork.car) unsound=0 skips=1" ''

beside 'if one of them is rejected, no file is verified'
bytes "$no_roots" 2701551220ba7816bf8f >cut.car
: >empty.car
mkdir folder.car
run verify a.car --with b.car --with cut.car --with none.car
refused 'cut.car: truncated at 18: ix_export inspect says how to keep the sections before it'
run verify cut.car --with none.car --with cut.car
refused 'cannot read none.car: No such file or directory (os error 2)'
run verify a.car --with folder.car
refused 'cannot read folder.car: Is a directory (os error 21)'
run verify a.car --with empty.car
refused 'empty.car: truncated at 0: an empty file'
run verify b.car --with a.car --max-input 137
refused 'too large a.car: an input has at most 137 bytes: --max-input allows more'
run verify cut.car a.car --with b.car
expect 2 "$a_sound" 'cut.car: truncated at 18: ix_export inspect says how to keep the sections before it'

beside 'CARv2 files, with places from their beginning'
of_a=$(header "$one_cid")$(section "$one_cid" "$one")
of_b=$no_roots$(section "$abc_cid" "$abc")
bytes "$(carv2 57 138 0 "$(repeated 6 00)" "$of_a" ff)" >a2.car
bytes "$(carv2 51 58 109 "$of_b" 0401ffffff)" >b2.car
run verify a2.car --with b2.car
expect 0 'a2.car sound sections=1 bytes=196' ''
run verify a.car --with b2.car
expect 0 "$a_sound" ''
run verify a2.car --with b.car --carv2
expect 0 'a2.car sound sections=1 bytes=196' ''
bytes "$(carv2 57 178 0 "$(repeated 6 00)" "$of_a$(section "$abc_cid" 616264)" ff)" >own2.car
run verify own2.car --with b2.car
expect 3 "own2.car broken sections=2 bytes=236 unsound=1 skips=1
  section 195 damaged $abc_text
  link damaged $abc_text" ''
bytes "$(carv2 51 57 0 "$of_b")" >cut2.car
run verify a.car --with cut2.car
refused 'cut2.car: truncated at 69: ix_export inspect says how to keep the sections before it'
bytes "$(carv2 50 58 0 "$of_b")" >cut2.car
run verify a.car --with cut2.car
refused 'cut2.car: header at 11: the payload that the header of a CARv2 file names is not whole in it'

beside 'standard input is one of all files once'
run verify a.car --with - <b.car
expect 0 "$a_sound" ''
run verify - --with b.car <a.car
expect 0 '- sound sections=1 bytes=138' ''
# twice_refused LINE WORD..: status 2, and the first line on standard error.
twice_refused() {
  local line=$1
  shift
  run "$@" </dev/null
  expect_text 'exit status' 2 "$status"
  expect_lines 'standard output' '' "$scratch/stdout"
  expect_text 'the first line' "error: $line" "$(head -n 1 "$scratch/stderr")"
}
twice_refused "standard input is given twice for '--with <FILE>'" verify a.car --with - --with -
twice_refused "standard input is given twice for '<FILE>...'" verify - a.car - --with b.car
twice_refused "standard input is given for '<FILE>...' and for '--with <FILE>'" verify - --with -

# `abc` is missing from a.car, and what is in another file isn't absent.
beside 'what may be missing is absent only if no file has it'
run verify a.car --allow-missing raw
expect 0 "$a_sound absent=1" ''
run verify a.car --with b.car --allow-missing raw
expect 0 "$a_sound absent=0" ''
run verify a.car --with damaged.car --allow-missing all
expect 3 "${a_damaged/skips=1/skips=1 absent=0}" ''

beside 'a quiet run tells of the files that are not sound'
run verify a.car --with b.car --quiet
expect 0 '' ''
run verify b.car a.car -q
expect 3 "$a_missing" ''
run verify a.car -q --with damaged.car --with b.car --prefer-sound
expect 0 '' 'a.car: 1 block from a later copy'

beside 'not with --blocks-only'
twice_refused "the argument '--allow-missing <WHICH>' cannot be used with '--blocks-only'" verify a.car --allow-missing raw --blocks-only
twice_refused "the argument '--with <FILE>' cannot be used with '--blocks-only'" verify a.car --with b.car --blocks-only
twice_refused "the argument '--prefer-sound' cannot be used with '--blocks-only'" verify a.car --prefer-sound --blocks-only

# own.car has a damaged copy of `abc` itself, and twice.car a sound one after it.
preferred() {
  beside "sound copies: $1"
  bytes "$(header "$one_cid")$(section "$one_cid" "$one")$(section "$abc_cid" 616264)" >own.car
  bytes "$(header "$one_cid")$(section "$one_cid" "$one")$(section "$abc_cid" 616264)$(section "$abc_cid" "$abc")" >twice.car
}
own_mended="own.car broken sections=2 bytes=178 unsound=1 skips=0
  section 138 damaged $abc_text"
own_damaged="own.car broken sections=2 bytes=178 unsound=1 skips=1
  section 138 damaged $abc_text
  link damaged $abc_text"

preferred 'a link leads to the sound copy in another file, and the damaged section is still told'
run verify own.car --with b.car --prefer-sound
expect 3 "$own_mended" 'own.car: 1 block from a later copy'
run verify own.car --with b.car
expect 3 "$own_damaged" ''
run verify a.car --with damaged.car --with b.car --prefer-sound
expect 0 "$a_sound" 'a.car: 1 block from a later copy'

preferred 'a link leads to a later section of the same file'
run verify twice.car --prefer-sound
expect 3 "twice.car broken sections=3 bytes=218 unsound=1 skips=0
  section 138 damaged $abc_text" 'twice.car: 1 block from a later copy'
run verify twice.car
expect 3 "twice.car broken sections=3 bytes=218 unsound=1 skips=1
  section 138 damaged $abc_text
  link damaged $abc_text" ''

preferred 'the first copy counts if none is sound'
run verify own.car --with damaged.car --prefer-sound
expect 3 "$own_damaged" ''
run verify own.car --prefer-sound
expect 3 "$own_damaged" ''
run verify a.car --with damaged.car --prefer-sound
expect 3 "$a_damaged" ''

preferred 'nothing changes if all copies are sound'
bytes "$one_archive" >whole.car
for more in '' --prefer-sound; do
  run verify whole.car a.car --with b.car --with whole.car $more
  expect 0 "whole.car sound sections=2 bytes=178
$a_sound" ''
done
run verify a.car --prefer-sound
expect 3 "$a_missing" ''

preferred 'each file has its own line, and each block counts once'
bytes "$(header "$one_cid")$(section "$one_cid" "${one%??}00")$(section "$abc_cid" 616264)$(section "$abc_cid" 616265)" >both.car
bytes "$no_roots$(section "$abc_cid" "$abc")$(section "$one_cid" "$one")" >library.car
run verify both.car a.car own.car --with library.car --prefer-sound
expect 3 "both.car broken sections=3 bytes=218 unsound=3 skips=0
  section 59 damaged $(text "$one_cid")
  section 138 damaged $abc_text
  section 178 damaged $abc_text
$a_sound
$own_mended" 'both.car: 2 blocks from a later copy
own.car: 1 block from a later copy'
