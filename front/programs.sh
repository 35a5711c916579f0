# shellcheck shell=bash
# Which program runs: the one that was built here from exactly the sources of this checkout, or else the
# shipped one, program/, if it is of exactly these sources, or else one that is built first. A build that
# fails runs nothing. Without sources, as where bank is installed, it is the one of program/. bank reads
# this file, with its folder in `top`.

is_checkout() { [ -e "$top/crates.txt" ]; }

# The program that is meant, and where it stands.
choose() {
  name=$1
  out=$top/crates/$name/out
  built=$out/$name
  shipped=$top/program/$name
  log=$out/build.log
  copy=$out/build
  find_notes
}

# Where it is noted which program belongs to the sources: beside the program, by whoever may write there,
# in the user's own cache, or in a folder that is the user's alone.
find_notes() {
  local cache=${XDG_CACHE_HOME:-${HOME:+$HOME/.cache}} own=${XDG_RUNTIME_DIR:-${TMPDIR:-/tmp}}/zarbulex-$UID
  local place=${out//\//%}%checked
  notes=("$out/checked")
  [ -z "$cache" ] || notes+=("$cache/zarbulex/$place")
  if [ -O "$own" ] && ! [ -L "$own" ] || ! [ -e "$own" ]; then notes+=("$own/$place"); fi
}

# The crates that the program is built from, as crates.txt has them, with their lines.
lines_of_program() {
  awk -F: -v wanted="$name" '
    /^[a-z]/ { split($1, name, " "); below[name[1]] = $2; line[name[1]] = $0 }
    function visit(crate, words, n, i) {
      if (!(crate in below) || crate in met) return
      met[crate]
      n = split(below[crate], words, " ")
      for (i = 1; i <= n; i++) visit(words[i])
      print line[crate]
    }
    END { visit(wanted) }' "$top/crates.txt"
}
crates_of_program() { lines_of_program | sed 's/[ :].*//'; }

# The files that the program is built from, each with its checksum. What else stands in these folders,
# as an editor's own files, is none of them.
sums_of_files() {
  local crate
  for crate in $(crates_of_program); do
    find "crates/$crate/src" "crates/$crate/specs" "crates/$crate/proofs" \
      -type f \( -name '*.rt' -o -name '*.antt' \) ! -name '.*' 2>/dev/null
  done | LC_ALL=C sort | tr '\n' '\0' | xargs -0 -r sha256sum
}

# One checksum of all that the program is built from: a changed, a new and a deleted file change it.
sources() { (cd "$top" && { lines_of_program && sums_of_files; } | sha256sum | cut -d ' ' -f 1); }

# A line for each file of all programs, with the first 8 digits of its checksum.
short_sums() { sed 's/^\(.\{8\}\)[0-9a-f]*/\1/'; }
list_files() { (cd "$top" && each_program sums_of_files | short_sums | LC_ALL=C sort -k 2 -u); }

# The first file of the program that is not as program/files has it.
first_difference() {
  (
    cd "$top" && sums_of_files | short_sums | awk -v crates="$(crates_of_program | tr '\n' ' ')" '
      BEGIN { n = split(crates, names, " "); for (i = 1; i <= n; i++) wanted[names[i]] }
      { split($2, parts, "/") }
      FILENAME == "program/files" { if (parts[2] in wanted) shipped[$2] = $1; next }
      !($2 in shipped) { print $2 " is new"; found = 1; exit }
      shipped[$2] != $1 { print $2; found = 1; exit }
      { delete shipped[$2] }
      END {
        if (found) exit
        for (name in shipped) if (first == "" || name < first) first = name
        print first == "" ? "crates.txt" : first " is missing"
      }' program/files -
  ) 2>/dev/null
}

# Why the shipped program is not the one to run.
why_not_shipped() {
  local file
  if ! [ -x "$shipped" ]; then
    echo "there is no program/$name"
  elif [ "$(shipped_from)" = "$1" ]; then
    echo "program/$name is not that of program/$name.sha256"
  else
    file=$(first_difference)
    echo "sources differ from the shipped program's${file:+ ($file)}"
  fi
}

# The checksum of the sources of the shipped program.
shipped_from() { sed -n "s/^$name //p" "$top/program/sources" 2>/dev/null; }

# The program that belongs to the sources of this checksum, if there is one.
program_of() {
  if [ -x "$built" ] && [ "$(cat "$out/sources" 2>/dev/null)" = "$1" ]; then
    echo "$built"
  elif [ -x "$shipped" ] && [ "$(shipped_from)" = "$1" ] &&
    (cd "$top/program" && sha256sum --check --status "$name.sha256" 2>/dev/null); then
    echo "$shipped"
  else
    return 1
  fi
}

# The newest of the notes.
find_last_note() {
  local note
  checked=
  for note in "${notes[@]}"; do
    if [ -f "$note" ] && [ -r "$note" ] && { [ -z "$checked" ] || [ "$note" -nt "$checked" ]; }; then checked=$note; fi
  done
  [ -n "$checked" ]
}

# Whether something that the checksums are taken of may have changed after the note: a file, or a folder,
# which is newer if a file came or went.
is_changed_since() {
  local folder newer
  for folder in "$top/crates" "$top"/crates/*/; do
    ! [ "$folder" -nt "$1" ] || return 0
  done
  newer=$(cd "$top" && LC_ALL=C exec find crates.txt program "$program" crates/*/[sp]*/ -cnewer "$1" \
    \( -type d -o -name '*.rt' -o -name '*.antt' -o ! -path 'crates/*' \) -print -quit 2>&1) || return 0
  [ -n "$newer" ]
}

# The program that the last checksums named, if nothing changed since.
find_program_of_last_time() {
  local checked
  find_last_note && program=$(< "$checked") && [ -x "$program" ] || return
  [ "$program" = "$built" ] || [ "$program" = "$shipped" ] || return
  ! is_changed_since "$checked"
}

# write_note FILE PROGRAM SECOND: the note has the time of the second before the checksums were taken.
write_note() {
  { mkdir -p "${1%/*}" && printf '%s\n' "$2" > "$1.$$" && touch -d "@$3" "$1.$$" && mv -f "$1.$$" "$1"; } 2>/dev/null
}

# Notes which program the checksums named, in the first place that can be written.
note_program() {
  local note
  for note in "${notes[@]}"; do
    ! write_note "$note" "$@" || return 0
  done
}

# Finds the program that stands here of these sources.
find_standing_program() {
  is_checkout || { program=$shipped; return; }
  find_program_of_last_time || program=$(program_of "$(sources)")
}

# Finds the program to run, which is built if there is none of these sources.
find_program() {
  local before
  is_checkout || { program=$shipped; return; }
  find_program_of_last_time && return
  before=$(($(date +%s) - 1))
  program=$(program_of "$(sources)") || { build && program=$built; } || return
  note_program "$program" "$before"
}

minutes() { printf '%d:%02d' $(($1 / 60)) $(($1 % 60)); }

# One line for each crate out of the toolchain's many, with the minutes since the start.
progress() {
  local all=$1 begun=$2 count=0 line
  while IFS= read -r line; do
    case $line in
      '== summary') break ;;
      '== '*)
        count=$((count + 1))
        say "$(minutes $(($(date +%s) - begun))) $count of $all crates: ${line#== }"
        ;;
    esac
  done
  cat > /dev/null
}

# How many crates are proved side by side: one a processor, with 3 GiB of memory each.
side_by_side() {
  local cores free
  cores=$(nproc)
  free=$(($(awk '/^MemAvailable/ { print $2 }' /proc/meminfo) / 3145728))
  echo $((free < 1 ? 1 : free < cores ? free : cores))
}

# A copy of what the program is built from, in which its crates are proved side by side.
copy_sources() {
  local crate part
  mkdir -p "$copy/crates" "$copy/.git"
  lines_of_program > "$copy/crates.txt"
  cp "$top/HANDLES" "$copy/HANDLES"
  for crate in $(crates_of_program); do
    mkdir -p "$copy/crates/$crate"
    for part in src specs proofs; do
      rm -rf "${copy:?}/crates/$crate/$part"
      [ ! -d "$top/crates/$crate/$part" ] || cp -R "$top/crates/$crate/$part" "$copy/crates/$crate/$part" || return
    done
  done
}

# Proves all crates in the copy, then the program here, which takes over what was proved there. The
# toolchain runs what it built, with no words; that it then refuses them is in the log alone.
prove_and_build() {
  copy_sources && (cd "$copy" && rt all check --jobs "$(side_by_side)") </dev/null &&
    (cd "$top/crates/$name" && rt run -- </dev/null)
}

# The old program goes first, so what stands there afterwards is what this build made. A copy is left
# where a build is cut off, and the next one goes on with it.
build() {
  local from begun why
  from=$(sources)
  why=$(why_not_shipped "$from")
  command -v rt >/dev/null || { say "$why; building needs the command rt"; return 1; }
  mkdir -p "$out" 2>/dev/null && [ -w "$out" ] || { say "$why; building needs to write into crates/$name/out"; return 1; }
  begun=$(date +%s)
  rm -f "$built" "$out/sources" "$out/checked"
  [ "${asked_to_build-no}" = yes ] || say "$why"
  say "building $name: its crates are proved first, which takes some minutes where nothing is kept"
  say "the log is crates/$name/out/build.log"
  prove_and_build 2>&1 | tee "$log" | progress "$(crates_of_program | wc -l)" "$begun"
  if ! [ -x "$built" ] || ! grep -q "^rt: running out/$name" "$log"; then
    rm -f "$built"
    say "$name was not built: a proof or the build failed. From the log:"
    { grep -m 6 -E 'error' "$log" || tail -n 6 "$log"; } | cut -c 1-160 >&2
    return 1
  fi
  printf '%s\n' "$from" > "$out/sources"
  rm -rf "$copy"
  say "$(minutes $(($(date +%s) - begun))) built"
}

# What would run, and what it is built from.
checksums() {
  local from found
  if is_checkout; then
    from=$(sources)
    found=$(program_of "$from") || found=
  else
    from=$(shipped_from)
    found=$shipped
  fi
  printf '%s %s\n' "$name" "$([ -n "$found" ] || echo 'not built yet'; [ -z "$found" ] || sha256sum < "$found" | cut -d ' ' -f 1)"
  printf 'sources %s\n' "$from"
}

says_sources() { printf '%s %s\n' "$name" "$(sources)"; }

# Does the same with each program, up to the first that fails.
each_program() {
  local each
  for each in bank_program bank_text bank_ledger bank_trace; do
    choose "$each"
    "$@" || return
  done
}

# The files of the programs that run, of all or of those that are named.
list_programs() {
  local each
  [ "$#" -gt 0 ] || set -- bank_program bank_text bank_ledger bank_trace
  for each; do
    case $each in
      bank_program | bank_text | bank_ledger | bank_trace) choose "$each" ;;
      *) refuse "there is no program $each" ;;
    esac
    find_program || return
    printf '%s\n' "$program"
  done
}
