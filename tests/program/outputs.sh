# Outputs that lead to a stream of the process, standard output that is an input, and the permission bits of an output.

write_to_stream() {
  for words in "get --root $one_text" "block $one_text" "receive --root $one_text"; do
    blocks='--blocks blocks.car'
    [[ $words != receive* ]] || blocks=blocks.car
    run $words $blocks --out "$1"
    refused "cannot write $1: it is a link to a stream: give --out - for standard output"
  done
}

begin 'an output that is a link to a stream'
write_blocks "$one_blocks"
bytes "$one_archive" >blocks.car
ln -s /proc/self/fd/1 one
ln -s one two
ln -s "$PWD/two" out/three
for link in one two out/three /dev/stdout /dev/fd/1; do write_to_stream "$link"; done
expect_text 'the link' /proc/self/fd/1 "$(readlink one)"
title='other links are replaced'
ln -s gone dangling
ln -s loop loop
for link in dangling loop; do
  run get --quiet --blocks blocks.car --root "$one_text" --out $link
  expect 0 '' ''
  expect_bytes $link "$one_archive"
done

# runs_onto FILE WORD..: standard output is added to a file.
runs_onto() {
  local file=$1
  shift
  run_bare "$@" >>"$file" 2>"$scratch/stderr"
}
begin 'standard output that is an input'
bytes "$one_archive" >blocks.car
for words in "get --blocks blocks.car --root $one_text" "block --blocks blocks.car $one_text" "show --blocks blocks.car $one_text" \
  "receive --root $one_text --out - blocks.car"; do
  : >"$scratch/stdout"
  runs_onto blocks.car $words
  refused 'cannot write -: it is an input: give another output'
  expect_bytes blocks.car "$one_archive"
done
runs_onto blocks.car get --blocks - --root "$one_text" <blocks.car
refused 'cannot write -: it is an input: give another output'
: >jobs.txt
runs_onto blocks.car jobs --blocks blocks.car --jobs jobs.txt --out out
expect_text 'a report goes to an input' 0 "$status"

begin 'an output has the bits of the file that it replaces from the start'
write_blocks "$one_blocks"
bytes ff >out/a.car
chmod 600 out/a.car
(umask 022 && exec "$top/ix_export" get --quiet --blocks blocks.car --root "$one_text" --partial --limit 1 --complete --out out/a.car) 2>/dev/null || true
expect_text 'the bits of the part' 600 "$(stat -c %a out/a.car.part)"
rm -f out/a.car.part out/a.car
(umask 027 && exec "$top/ix_export" get --quiet --blocks blocks.car --root "$one_text" --out out/a.car)
expect_text 'the bits of a new file' 640 "$(stat -c %a out/a.car)"
