# The command `selector`, and the recipes of docs/SELECTORS.md over the example directory: of each, the JSON gives the
# hex, that gives the JSON, and a job with it has the result that the document says. Each is a `get` command, of which the JSON
# is taken here; get.sh has the commands.

library_root=bafyreigiavswv62tcfji62na4ecatawlzg33sy6uezl5lj3g56mxdhbnmq
recipe_words='./ix_export get --blocks examples/library.car --root $root --out out.car --selector '
mapfile -t recipes < <(sed -n "/^### /,\$s/^    //p" "$top/docs/SELECTORS.md" | sed "s|^$recipe_words'\(.*\)'\$|\1|")

begin 'the number of recipes'
expect_text 'lines of recipes' 45 "${#recipes[@]}"

begin 'the recipes, one by one'
: >jobs.txt
: >lines
for ((at = 0; at < ${#recipes[@]}; at += 3)); do
  run selector "${recipes[at]}"
  expect 0 "${recipes[at + 1]}" ''
  run selector --hex "${recipes[at + 1]}"
  expect 0 "${recipes[at]}" ''
  run selector <<<"  ${recipes[at]}"
  expect 0 "${recipes[at + 1]}" ''
  echo "r$at $library_root 1000 ${recipes[at + 1]}" >>jobs.txt
  echo "r$at ${recipes[at + 2]}" >>lines
done
title='the recipes as jobs'
run jobs --blocks "$top/examples/library.car" --jobs jobs.txt --out out
expect_text 'exit status' 3 "$status"
grep '^r' "$scratch/stdout" >came
expect_same 'lines of the report' lines came

begin 'a selector as deep as can be, and one deeper'
deep=$(repeated 127 '{"a":{">":')
deep_hex=$(repeated 127 a16161a1613e)$matcher
run selector "$deep{\".\":{}}$(repeated 127 '}}')"
expect 0 "$deep_hex" ''
run selector --hex "$deep_hex"
expect 0 "$deep{\".\":{}}$(repeated 127 '}}')" ''
run selector "{\"a\":{\">\":$deep{\".\":{}}$(repeated 128 '}}')"
refused 'selector: nested too deep'
run selector "{\"|\":[$deep{\"a\":{\">\":{\".\":{}}}}$(repeated 127 '}}'),{\"x\":{}}]}"
refused 'selector: nested too deep'

# selector_refused LINE WORD..
selector_refused() {
  local line=$1
  shift
  begin "$line, for the selector '$*'"
  run selector "$@"
  refused "$line"
}

selector_refused 'selector: edge outside a recursion at /a/>' '{"a":{">":{"@":{}}}}'
selector_refused 'selector: edge outside a recursion at /a/>' --hex a16161a1613ea16140a0
selector_refused 'selector: interpret-as is not supported' '{"~":{}}'
selector_refused 'selector: repeated key' '{".":{},".":{}}'
selector_refused 'selector: unknown key "x"' '{"x":{}}'
selector_refused 'selector: no JSON at 0' ''
selector_refused 'selector: hex' --hex a1612e0


# The part of a selector that is rejected first, whatever the order of the keys, by its JSON Pointer (RFC 6901).
while read -r selector line; do
  selector_refused "selector: $line" "$selector"
done <<'END'
[] no map where a selector should stand
{} wrong keys (no key)
{"i":{},"a":{}} wrong keys ("i" beside "a")
{"a":{">":{".":{}},"x":0}} wrong keys ("x") at /a
{"R":{"l":{"none":{}}}} wrong keys (no ":>") at /R
{"R":{":>":{"x":{}},"l":{"deep":3}}} unknown key "deep" at /R/l
{"R":{":>":{"x":{}},"l":{"none":{"y":1}}}} wrong keys ("y") at /R/l/none
{"R":{":>":{"x":{}},"l":{"depth":"3"}}} a value of another kind at /R/l/depth
{"R":{":>":{"x":{}},"l":{"depth":4294967296}}} depth out of range at /R/l/depth
{"R":{"!":{},"l":0}} stop-at is not supported at /R/!
{"R":{"l":{"none":{}},":>":{"|":[{"a":{">":{"@":{}}}},{"@":{}}]}}} edge without a step in its recursion at /R/:>/|/1
{"f":{"f>":{"b":{"x":{}},"album":{"y":{}}}}} unknown key "x" at /f/f>/b
{"f":{"f>":{"a/b~":{"i":{">":{".":{}},"i":"0"}}}}} a value of another kind at /f/f>/a~1b~0/i/i
{"r":{"^":"1",">":{"x":{}},"$":"2"}} a value of another kind at /r/^
{"f":{"f>":[]}} a value of another kind at /f/f>
{".":{"label":1}} a value of another kind at /./label
{".":{"subset":{}}} a matcher has no field but label at /./subset
{"selector":{"|":{}}} a value of another kind at /selector/|
{"selector":{"a":{">":{"~":{}}}}} interpret-as is not supported at /selector/a/>
{"\u001b[2J\"\u202e":{}} unknown key "\u001b[2J\"\u202e"
{"0123456789012345678901234567890123456789x":{}} unknown key "0123456789012345678901234567890123456789.."
END

begin 'selector: standard input is closed'
run selector <&-
refused 'cannot read -: Bad file descriptor (os error 9)'

begin 'selector: standard output is full'
run_bare selector '{".":{}}' >/dev/full 2>"$scratch/stderr"
refused 'cannot write -: No space left on device (os error 28)'
