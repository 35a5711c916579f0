# shellcheck shell=bash
# How bank runs a program: below itself, so that it can say more when the program has ended. It hands on
# signals, shows on a terminal how long the program runs, and ends as the program did. bank reads this
# file, with the file in `program`, its arguments in `words`, and the page of the command read.

readonly WIPE=$'\e[K'

# Large pages save most page faults, memory that grows by more at a time saves calls of the system for
# which all threads wait, and lists of up to 8 MiB are taken from what was given back before: glibc does
# these where it is told to.
tune() {
  local tunables
  [ -z "${GLIBC_TUNABLES+set}" ] || return 0
  tunables=glibc.malloc.hugetlb=1:glibc.malloc.top_pad=6291456:glibc.malloc.arena_max=$(exec nproc)
  tunables+=:glibc.malloc.mmap_threshold=8388608:glibc.malloc.trim_threshold=1073741824
  export GLIBC_TUNABLES=$tunables
}

# Becomes the program, in a process that bash started in the background and for which it ignored
# interrupts.
start() {
  trap - INT QUIT
  exec "$program" "${words[@]}"
}

# Waits for the program, and hands on to it the signals that bank is sent.
pass_on() {
  signals=$((signals + 1))
  kill -s "$1" "$running" 2>/dev/null
}
wait_for_program() {
  local before ended
  while :; do
    before=$signals
    wait "$running"
    ended=$?
    # Below 0 it ended while a signal was handed on, and the wait before has said how.
    [ "$ended" -lt 0 ] || status=$ended
    [ "$ended" -ge 0 ] && [ "$before" != "$signals" ] || return 0
  done
}

# Seconds on a terminal, once the program runs for longer than two.
tick() {
  local seconds=2
  sleep 2
  while kill -0 "$running" 2>/dev/null; do
    printf '%s%s: %d s\r' "$WIPE" "$command" "$seconds" >&2
    sleep 1
    seconds=$((seconds + 1))
  done
}
start_clock() {
  clock=''
  case $page in
    produce | make | replay | chain-new | chain-add | chain-state | chain-export) [ -t 2 ] || return 0 ;;
    *) return 0 ;;
  esac
  tick > /dev/null < /dev/null &
  clock=$!
  begun=$SECONDS
}
stop_clock() {
  [ -n "$clock" ] || return 0
  kill "$clock" 2>/dev/null
  wait "$clock" 2>/dev/null
  [ "$((SECONDS - begun))" -lt 2 ] || printf '\r%s' "$WIPE" >&2
}

# Whether bank reads the notes on their way: not the many that `produce` may write, nor those of a program
# that looks for a terminal.
reads_notes() {
  case $page in
    produce | make) return 1 ;;
    chain-check) ! [ -t 2 ] ;;
  esac
}

# Hands the notes on, and keeps the first and the last, and whether they say how the command is written.
hand_on_notes() {
  local line
  while IFS= read -r line || [ -n "$line" ]; do
    printf '%s%s\n' "${clock:+$WIPE}" "$line" >&2
    [ -n "$first" ] || first=$line
    last=$line
    [[ $line != "usage: bank $command"* ]] || usage_said=yes
  done <&"$notes"
}

# Runs the program below bank, which then says more.
run() {
  local signal notes='' output
  signals=0 running='' first='' last='' usage_said=no
  for signal in HUP INT QUIT TERM; do trap 'pass_on '"$signal" "$signal"; done
  if reads_notes; then
    exec {output}>&1 {notes}< <(start <&0 2>&1 >&"$output" {output}>&-)
    exec {output}>&-
  else
    start <&0 &
  fi
  running=$!
  start_clock
  [ -z "$notes" ] || hand_on_notes
  wait_for_program
  stop_clock
  say_more
  end
}

# What is said behind the program's own notes.
say_more() {
  case $status in
    0) [ "$page" != make ] || say_lanes_alone ;;
    "$REFUSED") say_refused ;;
    3) say_what_comes_next; say_what_is_wanted ;;
    "$READING_FAILED") say 'reading failed' ;;
    "$WRITING_FAILED") [ -p /dev/fd/1 ] || [[ $last = "$command: "* ]] || say 'writing failed' ;;
    "$OUT_OF_MEMORY") say 'out of memory' ;;
  esac
}

# Why the arguments are refused, unless the program said so, and how the command is written. A program that
# is given files says that of them, even where bank left them there because another argument is wrong.
say_refused() {
  local fault
  [[ $first != *' takes no further argument: '* ]] || [ "${#files[@]}" = 0 ] || first=''
  case $first in
    '' | 'words refused' | 'usage: '*)
      fault=$(fault_of_arguments "${asked[@]:depth}")
      [ -z "$fault" ] || say "$fault"
      ;;
  esac
  [ "$usage_said" = yes ] || printf 'usage: bank %s\n' "$use" >&2
  { meanings && printf 'bank help %s says more\n' "$command"; } >&2
}
say_lanes_alone() {
  sort_arguments "${asked[@]:depth}"
  case " ${given_options[*]} " in
    *' --run '*) ;;
    *' --lanes='*) say '--lanes goes with --run: without it nothing is run' ;;
  esac
}
# What to do about an input that is no snapshot, batch, record or image.
say_what_comes_next() {
  case $last in
    'record: Trailing at '* | 'record: bytes follow the block hash '*)
      say 'a record with a snapshot behind it, as produce writes them, is parted by: bank split RECORD SNAPSHOT'
      ;;
    'snapshot: Magic') say 'the input does not begin with a snapshot (SOLSNAP1 or SOLSNAP2)' ;;
    'batch: Truncated at 0') say 'nothing follows the snapshot: a batch (SOLBATC1) is wanted there' ;;
    'record: Truncated at 0' | 'record: BadField at 0') say 'a record (SOLBLCK1) is wanted there' ;;
    'list: BadImage') say 'a program image (SBPFIMG1), as asm writes it, is wanted' ;;
  esac
}

# What is wanted of a text that asm refuses, as why says it, where the text is a file, which can be read
# again, and where that is of the line that was refused.
say_what_is_wanted() {
  local wanted
  [ "$page" = asm ] && [ -f /dev/stdin ] || return 0
  wanted=$(choose bank_text; find_standing_program && exec "$program" why < /dev/stdin 2>&1 > /dev/null)
  case $last in
    'asm: TooLong' | 'asm: Unverified '*) [[ $wanted = 'asm: '* ]] || return 0 ;;
    *) [[ $wanted = "asm: line ${last##* }: "* ]] || return 0 ;;
  esac
  say "${wanted#asm: }"
}

# Ends as the program did.
end() {
  local signal
  if [ "$status" -gt 128 ]; then
    signal=$(kill -l "$status" 2>/dev/null)
    case $signal in
      HUP | INT | PIPE | QUIT | TERM)
        trap - "$signal"
        kill -s "$signal" $$
        ;;
    esac
  fi
  exit "$status"
}
