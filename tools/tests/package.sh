#!/usr/bin/env bash
# What `package` makes: a folder that works where it is unpacked, and a Debian package, which is installed, used and removed in a
# small system made of this machine's own packages, without the kit.
. "$(dirname "$0")/points.bash"

version=$(cat VERSION)
real=$(readlink -f -- "$(type -P -- "$ALTARICA")")
# A program without its proofs takes many minutes for the limits.
parts=''
[ ! -f "$real.loader" ] || parts='program cases texts listing files'
made() { ALTARICA=$real tools/package "$@" 2>"$work/said"; }
equal "package says its use" '0 2 2' "$(tools/package --help | grep -c '^Status: 0 ' | sed 's/^1$/0/') $(made --nosuch >/dev/null; echo $?) $(made --out >/dev/null; echo $?)"
echo '12 passed, 1 failed' >"$work/bad.log"
equal "a gate that failed makes no package" 4 "$(made --gate "$work/bad.log" --out "$work/none" >/dev/null; echo $?)"
equal "the script is no program to pack" 4 "$(ALTARICA=./altarica tools/package --out "$work/none" >/dev/null 2>&1; echo $?)"
printf 'rt: proved\n12 passed, 0 failed\n' >"$work/gate.log"
files=$(made --gate "$work/gate.log" --out "$work/first")
status=$?
equal "package makes its files" 0 "$status"
made --gate "$work/gate.log" --out "$work/second" >"$work/names"
for file in $files; do
  equal "the same program and sources make the same bytes: ${file##*/}" "$(sha256sum <"$file")" "$(sha256sum <"$work/second/${file##*/}")"
done

# The folder, from another one, with nothing of this repository and of the kit on the path.
tar -xzf "$work"/first/altarica-*.tar.gz -C "$work"
tree=$work/altarica-$version
cp examples/brake.alt "$work/model.alt"
cp tests/mistakes/path.alt "$work/wrong.alt"
there() { (cd "$work" && env -u ALTARICA PATH="$(printf %s "$PATH" | tr : '\n' | grep -v rattle | paste -sd:)" "$@" 2>"$work/said"); }
equal "the note has what the package was made of" "version: $version|program: $(sha256sum <"$real" | cut -d' ' -f1)|gate: 12 passed, 0 failed" \
  "$(grep -E '^(version|program|gate): ' "$tree/MADE_OF" | paste -sd'|')"
equal "the note has the commit and the sum of the sources" "$(./altarica --version | sed -n '1s/.*, commit /commit: /p;s/^sum of the sources and proofs: /sources and proofs: /p')" \
  "$(grep -E '^(commit|sources and proofs): ' "$tree/MADE_OF")"
equal "the unpacked script lists cuts" "$(grep '^{' examples/brake.cuts)" "$(there "$tree/altarica" cuts model.alt --observer too_weak | grep '^{')"
equal "it shows the version and the commit" "altarica $version, commit $(sed -n 's/^commit: //p' "$tree/MADE_OF"), installed in $tree" "$(there "$tree/altarica" --version | head -n 1)"
equal "it compiles nothing, and says so" '12 1' "$(there "$tree/altarica" --unproved check model.alt >/dev/null; echo $?) $(grep -c 'leave it out' "$work/said")"
equal "--why names the command of the path" 1 "$(there "$tree/altarica" --why check wrong.alt | grep -c '^  more: altarica --explain L10$')"
equal "a helper takes the program that is beside it" 0 "$(there "$tree/tools/lint" model.alt >/dev/null; echo $?)"
equal "accept sees that the files are those that were packed" '0 failed' "$(there "$tree/altarica-accept" program | tail -n 1 | sed 's/.*, //')"
echo more >>"$tree/tools/lib/lists.py"
printf x >>"$tree/out/altarica"
equal "and that they are not" '2 failed 1' "$(there "$tree/altarica-accept" program | tail -n 1 | sed 's/.*, //') $(there "$tree/altarica-accept" program >/dev/null; echo $?)"
equal "a program that was changed is not called proved" 1 "$(there "$tree/altarica" --version | grep -c 'is not the one that was packed')"
rm "$tree/out/altarica"
equal "a program that is gone is said" '12 1' "$(there "$tree/altarica" check model.alt; echo $?) $(grep -c 'install the package again' "$work/said")"

# Without ALTARICA the program is the one that is proved of the sources, by the notes of the script; here a stand-in has such a note.
copy=$work/copy
mkdir -p "$copy/out"
cp -r altarica altarica.1 tools completions editors ./*.md VERSION "$copy/"
for it in crates crates.txt docs examples tests; do ln -s "$top/$it" "$copy/$it"; done
equal "without a proved program there is no package" '4 1' \
  "$(env -u ALTARICA "$copy/tools/package" --out "$work/none" >/dev/null 2>"$work/said"; echo $?) $(grep -c 'no program is proved of these sources' "$work/said")"
cp "$real" "$copy/out/altarica"
{
  "$copy/altarica" --version | sed -n 's/^sum of the sources and proofs: \(.*\)/\1  -/p'
  sha256sum <"$copy/out/altarica"
  echo stand-in
  find "$copy/out/altarica" -printf '%s %T@ %C@ %i\n'
} >"$copy/out/altarica.made_of"
env -u ALTARICA "$copy/tools/package" --out "$work/third" >"$work/names" 2>"$work/said"
equal "the program that is proved of the sources is packed" '0 0' "$? $(wc -c <"$work/said")"
tar -xzf "$work"/third/altarica-*.tar.gz -C "$work/third"
equal "and the note says so" "proved: yes|kit: stand-in|gate: not given" "$(grep -E '^(proved|kit|gate): ' "$work/third/altarica-$version/MADE_OF" | paste -sd'|')"
equal "the unpacked script names it as proved" "proved program: $work/third/altarica-$version/out/altarica" "$(there "$work/third/altarica-$version/altarica" --version | grep '^proved program: ')"
equal "a helper beside it has nothing to say of it" '0 0' "$(there "$work/third/altarica-$version/tools/lint" model.alt >/dev/null; echo "$? $(grep -c 'proved' "$work/said")")"

# The Debian package, in a system of its own.
if ! have dpkg-deb || ! have unshare || ! have chroot; then
  skipped "the installation of the Debian package" 'dpkg util-linux'
  exit
fi
alone=(unshare --mount --pid --fork)
[ "$(id -u)" -eq 0 ] || alone+=(--map-root-user)
if ! "${alone[@]}" true 2>/dev/null || [ ! -d /var/lib/dpkg/info ]; then
  skipped "the installation of the Debian package: no system of its own can be made here" 'dpkg util-linux, with the right to unshare,'
  exit
fi
packages=(dpkg bash coreutils sed gawk mawk python3 gzip)
for package in man-db bash-completion libgcc-s1 libc6; do [ ! -e "/usr/share/doc/$package" ] || packages+=("$package"); done
mkdir "$work/root"
cat >"$work/inside.sh" <<'INSIDE'
export ALTARICA=/usr/bin/altarica PATH=/usr/sbin:/usr/bin:/sbin:/bin HOME=/root LC_ALL=C.UTF-8 TERM=dumb DEBIAN_FRONTEND=noninteractive
equal() { if [ "$2" = "$3" ]; then echo "passed: $1"; else echo "failed: $1 ($(diff <(printf '%s\n' "$2") <(printf '%s\n' "$3") | head -n 4 | tr '\n' ' '))"; fi; }
find / -xdev -path /proc -prune -o -path /tmp -prune -o -print | LC_ALL=C sort >/tmp/before
said=$(dpkg -i /tmp/altarica.deb 2>&1)
equal "dpkg installs the package" 0 $?
echo "$said" >/tmp/said
unset ALTARICA
equal "the kit is not there" '' "$(type -P rt; ls -d /opt/rattle 2>/dev/null)"
cd /tmp || exit 1
cp /usr/share/doc/altarica/examples/brake.alt model.alt
equal "altarica lists cuts from any folder" "$(grep '^{' /usr/lib/altarica/examples/brake.cuts)" "$(altarica cuts model.alt --observer too_weak | grep '^{')"
equal "it says which version is installed" "altarica $(cat /usr/lib/altarica/VERSION)" "$(altarica --version | sed -n '1s/,.*//p')"
printf 'class C end\nblock B Boolean s (init = nothing); end\n' >wrong.alt
equal "--why shows the place of a refusal" 'wrong.alt:2:27' "$(altarica --why check wrong.alt | sed -n '1s/: .*//p')"
equal "--explain prints a section" '## L10: nothing with this name' "$(altarica --explain L10 | head -n 1)"
equal "each helper is on the path" '' "$(for it in /usr/lib/altarica/tools/*; do
  [ -f "$it" ] && [ -x "$it" ] || continue
  name=altarica-$(basename "$it" | tr _ -)
  [ "$("$name" --version 2>&1)" = "$name of altarica $(cat /usr/lib/altarica/VERSION)" ] || echo "$name"
done)"
altarica-report model.alt --observer too_weak --out page.html 2>/tmp/said
equal "a report is written" '0 yes' "$? $(grep -q too_weak page.html && echo yes)"
altarica cuts model.alt --observer too_weak >list
equal "a helper reads a list from any folder" 0 "$(altarica-compare list list >/dev/null; echo $?)"
equal "an example is found by its path" 'ok units' "$(altarica check /usr/share/doc/altarica/examples/ring.alt | cut -d' ' -f1,2)"
if type man >/dev/null 2>&1; then
  equal "man altarica shows the page" 1 "$(MANPAGER=cat man altarica 2>/dev/null | grep -c '^NAME')"
else
  echo "skipped: man altarica (apt-get install man-db)"
fi
offers() {
  bash -c '
    if [ -f /usr/share/bash-completion/bash_completion ]; then
      . /usr/share/bash-completion/bash_completion
      _completion_loader altarica
    else
      . /usr/share/bash-completion/completions/altarica
    fi
    COMP_WORDS=("$@") COMP_CWORD=$(($# - 1)) COMPREPLY=()
    $(complete -p altarica | sed "s/.*-F \([^ ]*\).*/\1/") altarica 2>/dev/null
    printf "%s\n" "${COMPREPLY[@]}"' bash "$@" | LC_ALL=C sort | paste -sd' '
}
equal "bash completes the commands" 'check checkcuts cuts' "$(offers altarica c)"
equal "bash completes the observers of a model" 'too_weak wheels' "$(offers altarica cuts model.alt --observer '')"
# shellcheck disable=SC2046
altarica-accept $(cat /tmp/parts) >/tmp/accepted 2>&1
equal "altarica-accept ends with 0 failed" '0 0 failed' "$? $(tail -n 1 /tmp/accepted | sed 's/.*, //')"
grep '^failed: ' /tmp/accepted
equal "it runs more than 1000 points" yes "$([ "$(tail -n 1 /tmp/accepted | cut -d' ' -f1)" -gt 1000 ] && echo yes)"
said=$(dpkg -P altarica 2>&1)
equal "dpkg removes the package" 0 $?
find / -xdev -path /proc -prune -o -path /tmp -prune -o -print | LC_ALL=C sort >/tmp/after
equal "nothing of it is left" '' "$(LC_ALL=C comm -13 /tmp/before /tmp/after | grep -v -e '^/var/cache/' -e '^/var/lib/dpkg/' -e '^/var/log/' -e /__pycache__)"
INSIDE
cat >"$work/outside.sh" <<'OUTSIDE'
set -e
root=$1
shift
python3 tools/tests/root_of_packages.py "$root" "$@" >/dev/null
mount --rbind /dev "$root/dev"
mount -t proc proc "$root/proc" 2>/dev/null || mount --rbind /proc "$root/proc"
exec chroot "$root" /bin/bash /tmp/inside.sh
OUTSIDE
mkdir "$work/root/tmp"
cp "$work/inside.sh" "$work/root/tmp/"
echo "$parts" >"$work/root/tmp/parts"
cp "$work"/first/altarica_*.deb "$work/root/tmp/altarica.deb"
"${alone[@]}" bash "$work/outside.sh" "$work/root" "${packages[@]}" 2>"$work/said" || failed "the small system" "$(tail -n 3 "$work/said")"
