# shellcheck shell=bash
# What bank says of its commands: help, usage, and what is wrong with arguments. The texts stand in
# front/commands, a page a command, whose lines are `KEY: TEXT`. That of an option, of an argument, and of
# a file that may be named in place of standard input is `TERM | VALUES | TEXT`. bank and front/pages read
# this file, with the folder of bank in `top`.

readonly WIDTH=100

# The pages in the order of front/groups.
pages() { sed 's/^[a-z]*: //; s/ /\n/g' "$top/front/groups"; }

# read_page PAGE: its lines as variables, those that may come several times as lists.
read_page() {
  local line key text
  purpose='' use='' reads='' writes='' binary=''
  options=() arguments=() files=() statuses=() examples=()
  while IFS= read -r line; do
    key=${line%%: *}
    text=${line#*: }
    case $key in
      purpose | use | reads | writes | binary) printf -v "$key" %s "$text" ;;
      option) options+=("$text") ;;
      argument) arguments+=("$text") ;;
      file) files+=("$text") ;;
      status) statuses+=("$text") ;;
      example) examples+=("$text") ;;
    esac
  done < "$top/front/commands/$1"
}

# part LINE: the three parts of a line for an option, an argument or a file.
part() {
  local rest=${1#*' | '}
  term=${1%%' | '*}
  values=${rest%%'| '*}
  values=${values% }
  text=${rest#*'| '}
}

# hanging COLUMNS HEAD TEXT: the text in lines of its own columns, the head before the first.
hanging() {
  local columns=$1 line word words
  printf -v line "%-${columns}s" "$2"
  read -r -a words <<< "$3"
  for word in "${words[@]}"; do
    if [ $((${#line} + 1 + ${#word})) -gt "$WIDTH" ]; then
      printf '%s\n' "$line"
      printf -v line '%*s' "$columns" ''
    fi
    line+=" $word"
  done
  printf '%s\n' "$line"
}

# What the terms of a page mean, each with the values that it takes.
meanings() {
  local line
  for line in "${arguments[@]}" "${files[@]}" "${options[@]}"; do
    part "$line"
    values=${values/18446744073709551615/2^64 - 1}
    hanging 16 "  $term" "${values:+$values: }$text"
  done
}

# The statuses that all commands share, and in their place those that a page says itself.
all_statuses() {
  printf '%s\n' "${statuses[@]}" | cat - "$top/front/statuses" | grep . | sort -n -s -k 1,1 -u
}

# explain PAGE: all that is said of a command.
explain() {
  local line
  read_page "$1"
  printf 'bank %s: %s\n\nusage: bank %s\n\n' "${1/-/ }" "$purpose" "$use"
  meanings
  [ "${#options[@]}" = 0 ] || hanging 1 '' 'Options are written --name VALUE or --name=VALUE, in any order.'
  echo
  hanging 16 '  reads' "$reads"
  hanging 16 '  writes' "$writes"
  echo
  while IFS= read -r line; do
    hanging 16 "  status ${line%%' | '*}" "${line#*' | '}"
  done < <(all_statuses)
  printf '\nexample:\n'
  printf '  %s\n' "${examples[@]}"
}

# A line for each page that is named.
list_pages() {
  local page
  for page; do
    read_page "$page"
    hanging 15 "  ${page/-/ }" "$purpose"
  done
}

# A line for each command, by groups.
list_commands() {
  local group names
  while IFS=: read -r group names; do
    printf '%s\n' "$group"
    read -r -a names <<< "$names"
    list_pages "${names[@]}"
  done < "$top/front/groups"
}

# All commands in short.
overview() {
  printf 'usage: bank COMMAND [ARGUMENTS..]\n\n'
  list_commands
  cat << 'TEXT'

  bank help COMMAND    its arguments, their values, the statuses and an example
  bank --version, -V   the version, and checksums of the programs and of what they are built from
  bank --sdk           the folder of the header and tools for programs in C
TEXT
  ! is_checkout || cat << 'TEXT'
  bank --build         proves every crate of the programs and builds them, whatever is there
  bank --programs [NAME..]
                       the files of the programs that run, which are built first if need be
  bank --sources       a line for each program, with one checksum of all that it is built from
  bank --files         a line for each file that the programs are built from, with part of its checksum
  ./test               proves and tests everything
TEXT
  printf '\nIf BANK_PLAIN is set, bank adds nothing to the notes of the programs, and looks at no terminal.\n'
}

# The commands for chains in short.
overview_of_chains() {
  local names
  mapfile -t names < <(pages | grep '^chain-')
  printf 'usage: bank chain COMMAND DIR [ARGUMENTS..]\n\n'
  list_pages "${names[@]}"
  printf '\n  bank help chain COMMAND    its arguments, their values, the statuses and an example\n'
}

# distance A B: how many letters are to be changed, added, left out or exchanged with the next.
distance() {
  local a=$1 b=$2 i j least
  local -A row
  for ((i = 0; i <= ${#a}; i++)); do row[$i,0]=$i; done
  for ((j = 0; j <= ${#b}; j++)); do row[0,$j]=$j; done
  for ((i = 1; i <= ${#a}; i++)); do
    for ((j = 1; j <= ${#b}; j++)); do
      least=$((row[$((i - 1)),$((j - 1))] + 1))
      [ "${a:i-1:1}" != "${b:j-1:1}" ] || least=$((least - 1))
      ((row[$((i - 1)),$j] + 1 < least)) && least=$((row[$((i - 1)),$j] + 1))
      ((row[$i,$((j - 1))] + 1 < least)) && least=$((row[$i,$((j - 1))] + 1))
      if ((i > 1 && j > 1)) && [ "${a:i-2:2}" = "${b:j-1:1}${b:j-2:1}" ]; then
        ((row[$((i - 2)),$((j - 2))] + 1 < least)) && least=$((row[$((i - 2)),$((j - 2))] + 1))
      fi
      row[$i,$j]=$least
    done
  done
  echo "${row[${#a},${#b}]}"
}

# nearest WORD NAME..: the name that is meant by a mistyped word, if one is near.
nearest() {
  local word=$1 name away best='' least=3
  shift
  [ "${#word}" -le 32 ] || return
  for name; do
    away=$(distance "$word" "$name")
    if [ "$away" -lt "$least" ] && [ "$away" -lt "${#word}" ]; then
      least=$away
      best=$name
    fi
  done
  printf %s "$best"
}

# meant WORD NAME..: a question with the nearest name in brackets, or nothing.
meant() {
  local name
  name=$(nearest "$@")
  printf %s "${name:+ (did you mean $name?)}"
}

# printable WORD: the word, as one that a terminal may show.
printable() { if [[ $1 =~ ^[[:graph:]]*$ ]]; then printf %s "$1"; else printf %q "$1"; fi; }

# is_number TEXT LEAST MOST: decimal digits for a number in this range, which may need 64 bits.
is_number() {
  [[ $1 =~ ^0*([0-9]+)$ ]] && is_at_most "$2" "${BASH_REMATCH[1]}" && is_at_most "${BASH_REMATCH[1]}" "$3"
}
is_at_most() { [ "${#1}" -lt "${#2}" ] || { [ "${#1}" = "${#2}" ] && [[ ! $1 > $2 ]]; }; }

# is_one_of VALUES TEXT: whether the text is what a line says of values.
is_one_of() {
  case $1 in
    '') return 0 ;;
    *' to '*) is_number "$2" "${1% to *}" "${1#* to }" ;;
    *'hexadecimal digits') [[ $2 =~ ^([0-9a-fA-F]{64}|[0-9a-fA-F]{128})$ ]] ;;
    *) [[ " ${1//,/} " = *" $2 "* ]] ;;
  esac
}

# fault_of_value LINE TEXT: what is wrong with a value, if something is.
fault_of_value() {
  part "$1"
  is_one_of "$values" "$2" || printf '%s is %s, and not %s\n' "${term% [A-Z]}" "$values" "$(printable "$2")"
}

# find_option NAME: the line of an option, as `option`.
find_option() {
  for option in "${options[@]}"; do
    [ "${option%% *}" != "$1" ] || return 0
  done
  return 1
}

# The options that have to be given: those that stand in no brackets.
needed_options() {
  local rest=$use
  while [[ $rest = *'['*']'* ]]; do rest=${rest%%'['*}${rest#*']'}; done
  grep -o -- '--[a-z]*' <<< "$rest"
}

# sort_arguments WORDS..: the arguments of the page that was read, as two lists: `given_options`, each with
# its value as NAME=VALUE, and `given`, which are all others.
sort_arguments() {
  local option
  given=() given_options=()
  while [ "$#" -gt 0 ]; do
    case $1 in
      -?*)
        given_options+=("$1")
        if find_option "$1" && part "$option" && [ "$term" != "$1" ] && [ "$#" -gt 1 ]; then
          given_options[-1]+="=$2"
          shift
        fi
        ;;
      *) given+=("$1") ;;
    esac
    shift
  done
}

# fault_of_option OPTION: what is wrong with an option as sort_arguments has it, if something is.
fault_of_option() {
  local name=${1%%=*} option
  find_option "$name" || { echo "there is no option $(printable "$name")$(meant "$name" "${options[@]%% *}")"; return; }
  part "$option"
  if [ "$term" = "$name" ]; then
    [ "$1" = "$name" ] || echo "$name takes no value"
  elif [ "$1" = "$name" ]; then
    echo "$name wants a value${values:+, $values}"
  else
    fault_of_value "$option" "${1#*=}"
  fi
}

# What is wrong with the options: with one of them, or that one is given twice or is missing.
faults_of_options() {
  local one name met=' '
  for one in "${given_options[@]}"; do
    name=${one%%=*}
    fault_of_option "$one"
    [[ $met != *" $name "* ]] || echo "$(printable "$name") is given twice"
    met+="$name "
  done
  for name in $(needed_options); do
    [[ $met = *" $name "* ]] || echo "$name is missing"
  done
}

# What is wrong with the other arguments, of which there are as many as the page has.
faults_of_others() {
  local line most=$((${#arguments[@]} + ${#files[@]}))
  for line in "${arguments[@]}"; do
    part "$line"
    [ "$#" -gt 0 ] || { echo "$term is missing"; return; }
    fault_of_value "$line" "$1"
    shift
    most=$((most - 1))
  done
  shift "$(($# < most ? $# : most))"
  [ "$#" = 0 ] || echo "there is one argument too many: $(printable "$1")"
}

# fault_of_arguments WORDS..: the first thing that is wrong with the arguments of the page that was read, in
# a line; nothing if all are in form.
fault_of_arguments() {
  sort_arguments "$@"
  { faults_of_options; faults_of_others "${given[@]}"; } | head -n 1
}
