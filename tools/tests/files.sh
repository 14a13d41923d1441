#!/usr/bin/env bash
# The program over real files: none, folders, pipes, texts around the bytes of one read and as many as are allowed, names
# that look like options; and standard output that takes nothing, or is closed.
. "$(dirname "$0")/points.bash"

block='block B Boolean s (init = true); event e; transition e: s -> s := false; observer Boolean o = not s; end'
cd "$work" || exit 1
printf '%s' "$block" >model
printf 'fire e\n' >script
printf '{e}\n' >list
mkdir folder
ok='ok units 1 variables 1 events 1 observers 1'
trace='start|  s = true|  observer o = false|fire e|  s = false|  observer o = true|end 1'
size_of() { wc -c <"$1" | tr -d ' '; }

# answer WORDS..: the status, and what the program writes to standard output, with a bar between lines.
answer() {
  local said status
  said=$("$ALTARICA" "$@" </dev/null)
  status=$?
  echo "$status $(tr '\n' '|' <<<"$said" | sed 's/|$//')"
}

equal "a model is read" "0 $ok" "$(answer check model)"
equal "a script is read" "0 $trace" "$(answer replay model script)"
equal "a list is read" "0 line 1 good|yes" "$(answer checkcuts model list --observer o)"

for name in none none/model model/inside folder ''; do
  equal "no model: '$name'" "7 read: model" "$(answer check "$name")"
  equal "no script: '$name'" "7 read: script" "$(answer replay model "$name")"
  equal "no list: '$name'" "7 read: script" "$(answer checkcuts model "$name" --observer o)"
  equal "neither model nor script: '$name'" "7 read: model" "$(answer replay "$name" "$name")"
done

# padded FILE BYTES: the file with blanks behind, so that it has so many bytes.
padded() {
  cat "$1"
  head -c $(($2 - $(size_of "$1"))) /dev/zero | tr '\0' ' '
}
# shellcheck disable=SC2238
padded model 4194304 >at
padded model 4194305 >past
equal "the model at its limit has 4194304 bytes" 4194304 "$(size_of at)"
equal "a model of 4194304 bytes" "0 $ok" "$(answer check at)"
equal "a model of 4194305 bytes" "10 size: model bytes 4194304" "$(answer check past)"
for file in script list; do
  padded $file 1048576 >$file.at
  padded $file 1048577 >$file.past
done
equal "a script of 1048576 bytes" "0 $trace" "$(answer replay model script.at)"
equal "a script of 1048577 bytes" "10 size: script bytes 1048576" "$(answer replay model script.past)"
equal "a list of 1048576 bytes" "0 line 1 good|yes" "$(answer checkcuts model list.at --observer o)"
equal "a list of 1048577 bytes" "10 size: script bytes 1048576" "$(answer checkcuts model list.past --observer o)"
equal "a model past its limit before no script" "10 size: model bytes 4194304" "$(answer replay past none)"
: >empty
equal "a model of no bytes" "2 syntax: 1:1" "$(answer check empty)"
equal "a script of no bytes" "0 start|  s = true|  observer o = false|end 0" "$(answer replay model empty)"

# Files of so many bytes: blanks, and at the very end what the answer rests on. One read asks for 8192 bytes at most.
# blanks_before FILE BYTES: the file behind blanks, so that it has so many bytes.
blanks_before() {
  head -c $(($2 - $(size_of "$1"))) /dev/zero | tr '\0' ' '
  cat "$1"
}
printf ' ' >one
equal "a model of 1 byte" "2 syntax: 1:2" "$(answer check one)"
equal "a script of 1 byte" "0 start|  s = true|  observer o = false|end 0" "$(answer replay model one)"
head -c $(($(size_of model) - 1)) model >lacking
for size in 8191 8192 8193 4194304; do
  blanks_before model $size >of_size
  equal "a model of $size bytes, the last of which is needed" "$size 0 $ok" "$(size_of of_size) $(answer check of_size)"
  blanks_before lacking $((size - 1)) >of_size
  equal "a model of $((size - 1)) bytes that lacks its last" "2 syntax: 1:$((size - 2))" "$(answer check of_size)"
done
blanks_before model 4194305 >of_size
equal "a model of 4194305 bytes with its last" "10 size: model bytes 4194304" "$(answer check of_size)"
for size in 8191 8192 8193 1048576; do
  { head -c $((size - 7)) /dev/zero | tr '\0' '\n'; printf 'fire e\n'; } >of_size
  equal "a script of $size bytes, the last line of which counts" "$size 0 $trace" "$(size_of of_size) $(answer replay model of_size)"
done

# Pipes, and files that may not be read.
equal "a model from a pipe" "0 $ok" "$(answer check <(cat model))"
equal "a model of 4194305 bytes from a pipe" "10 size: model bytes 4194304" "$(answer check <(cat past))"
mkfifo pipe
cat model >pipe &
equal "a model from a named pipe" "0 $ok" "$(answer check pipe)"
wait
cp model secret
chmod a= secret
if [ -r secret ]; then
  passed "a file without read permission is read all the same by this user"
else
  equal "a model that may not be read" "7 read: model" "$(answer check secret)"
  equal "a script that may not be read" "7 read: script" "$(answer replay model secret)"
fi
equal "a file that is the model and the script" "11 script: line 1 is no command" "$(answer replay model model)"

# Names that look like options, and others: the file of that very name is read.
mkdir names
i=1
while IFS= read -r name; do
  { printf 'block B Boolean s0'; for k in $(seq 2 $i); do printf ', s%s' "$k"; done; printf ' (init = true); end'; } >"names/$name"
  i=$((i + 1))
done <<'END'
-
-x
--main
модель
two words
END
cd names || exit 1
equal "a file with the name -" "0 ok units 1 variables 1 events 0 observers 0" "$(answer check - --main=B)"
equal "a file with the name -x, behind --" "0 ok units 1 variables 2 events 0 observers 0" "$(answer check -- -x)"
equal "a file with the name --main, behind --" "0 ok units 1 variables 3 events 0 observers 0" "$(answer -- check --main)"
equal "a file with a name beyond ASCII" "0 ok units 1 variables 4 events 0 observers 0" "$(answer check модель)"
equal "a file with a blank in its name" "0 ok units 1 variables 5 events 0 observers 0" "$(answer check 'two words')"
equal "a name beyond ASCII is no block" "3 rule: L5 at 1:$(($(size_of модель) + 1))" "$(answer check модель --main=Б)"
cd ..

# Standard output: a pipe, a file, and one that takes nothing.
"$ALTARICA" check model >written
status=$?
equal "a file as standard output" "0 $ok" "$status $(cat written)"
if [ -c /dev/full ]; then
  for words in "check model" "check none" "check" "replay model script"; do
    # shellcheck disable=SC2086
    "$ALTARICA" $words >/dev/full 2>err
    status=$?
    equal "standard output that takes nothing: $words" 8 "$status"
  done
fi
for words in "check model" "check none" "check" "replay model script" "make 3"; do
  # shellcheck disable=SC2086
  "$ALTARICA" $words >&- 2>err
  status=$?
  equal "standard output that is closed: $words" 8 "$status"
done
