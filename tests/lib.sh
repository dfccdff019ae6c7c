# shellcheck shell=bash
# shellcheck disable=SC2034,SC2119 # names are used where this is sourced; a controller needs no words
# What the tests of the programs share. To be sourced by bash at the top of the checkout, with $test set to its name.
#
# Every wait is limited, and every process that is started is ended on the way out. BG_ARCHIVE and BG_CFLAGS are as in
# programs/build. BG_PROGRAMS, where set, is a folder with other programs to try in place of those that are built here.
#
#   $work       a folder for the test's files, removed at the end
#   $programs   the folder of the programs under test
#   $peer       the process of the controller or the fake; $port its port; $work/memory its memory
#   $problem    what is wrong in the case at hand; empty where nothing is
#   $line       the uploader's last words

work=$(mktemp -d)
programs=${BG_PROGRAMS:-target/programs}
peer=
port=
problem=
line=
passed=0
failed=0
begun=$SECONDS
children=()

# Ends a process that this script started.
end() {
  kill -9 "$1" 2>/dev/null
  wait "$1" 2>/dev/null
}

# Ends the processes and removes the temporary files, on every way out of the script itself, not of its subshells.
clean_up() {
  local child
  [[ $BASHPID -eq $$ ]] || return 0
  for child in "${children[@]}" $peer; do
    end "$child"
  done
  rm -rf "$work"
}
trap clean_up EXIT
trap 'exit 129' HUP
trap 'exit 130' INT
trap 'exit 143' TERM

# Counts a case and prints its line: its name, then nothing or what is wrong.
verdict() {
  if [[ -z $2 ]]; then
    passed=$((passed + 1))
    echo "${test:?}: passed: $1"
  else
    failed=$((failed + 1))
    echo "$test: FAILED: $1: $2"
  fi
}

# Ends the test: the counts, and success only where every case passed.
summary() {
  echo "$test: $passed passed, $failed failed, in $((SECONDS - begun)) seconds"
  [[ $failed -eq 0 && $passed -gt 0 ]]
}

# Builds the programs, unless others are to be tried, or ends the test.
build_programs() {
  [[ -z ${BG_PROGRAMS:-} ]] || return 0
  programs/build || { echo "$test: FAILED: the programs could not be built"; exit 1; }
}

# Builds a program of the tests for x86-64: its path in $work, then sources and archives; or ends the test.
build_test() {
  local made=$work/$1 more
  shift
  read -r -a more <<<"${BG_CFLAGS:-}"
  # shellcheck source=programs/machine
  source programs/machine
  need_cc
  if ! "$x86_cc" -std=gnu11 -O2 -Wall -Wextra -Werror "${more[@]}" -Iinclude -Iprograms -o "$made" "$@" ||
    ! startable "$made"; then
    echo "$test: FAILED: $made could not be built"
    exit 1
  fi
}

# Builds the controllers that misbehave.
build_fake() {
  build_test fake tests/upload/fake.c programs/incoming.c programs/line.c "${BG_ARCHIVE:-target/staticlib/libport.a}"
}

# Builds the line that brings every byte by itself.
build_relay() {
  build_test relay tests/upload/relay.c programs/line.c
}

# Builds the program that asks for the images.
build_ask() {
  build_test ask tests/upload/ask.c programs/incoming.c programs/line.c "${BG_ARCHIVE:-target/staticlib/libport.a}"
}

# Waits two seconds at most until a command holds.
await() {
  local i
  for ((i = 0; i < 100; i++)); do
    ! "$@" || return 0
    sleep 0.02
  done
  return 1
}

# Says whether a process has ended.
ended() {
  ! kill -0 "$1" 2>/dev/null
}

# Starts a controller or a fake in the background, its port in $port.
start() {
  rm -f "$work/port"
  "$@" >"$work/peer.log" 2>&1 &
  peer=$!
  await test -s "$work/port" || await test -s "$work/port"
  port=$(cat "$work/port" 2>/dev/null)
}

# Starts a controller on the memory that is there: 65536 bytes, slot 0 of 16384 from 0 on, the slot of 32768 from 16384, and
# the words given.
controller_again() {
  start "$programs/controller" --port-file "$work/port" --memory "$work/memory" --memory-size 65536 --slot-start 16384 \
    --slot-size 32768 --idle 15000 "$@"
}

# Starts a controller with a new memory.
controller() {
  rm -f "$work/memory"
  controller_again "$@"
}

# Starts a fake in a mode; its memory has 262144 bytes, the slot of 131072 from 65536.
fake() {
  rm -f "$work/memory"
  start "$work/fake" "$1" "$work/port" "$work/memory"
}

# Puts a relay before the port, which brings every byte by itself and prints console lines of so many bytes (0: none) among
# what goes to the controller; $port is then the relay's.
relay() {
  rm -f "$work/relayed"
  "$work/relay" "$work/relayed" "$port" "$1" &
  children+=("$!")
  await test -s "$work/relayed"
  port=$(cat "$work/relayed" 2>/dev/null)
}

# Waits two seconds at most until the controller or the fake has ended; adds to $problem where it ended badly.
await_end() {
  local code
  await ended "$peer"
  kill -9 "$peer" 2>/dev/null
  wait "$peer" 2>/dev/null
  code=$?
  peer=
  if [[ -z $problem && $code -ne 0 && $code -ne 143 ]]; then
    problem="the controller ended with $code: $(tail -n 3 "$work/peer.log")"
  fi
}

# Asks the controller or the fake to end, and awaits it.
stop() {
  kill "$peer" 2>/dev/null
  await_end
}

# Holds what the uploader said in $work/said to a code and one line with words; $problem is what differs.
judge() {
  local said=$1 code=$2 words=$3
  line=$(cat "$work/said")
  problem=
  if [[ $said -ne $code ]]; then
    problem="exit code $said instead of $code: $line"
  elif [[ $(wc -l <"$work/said") -ne 1 || $line != "upload: "*"$words"* ]]; then
    problem="not one line with '$words': $line"
  fi
}

# Runs the uploader, some seconds at most; $problem is empty where it ended with the code and one line with the words.
try() {
  local limit=$1 code=$2 words=$3
  shift 3
  timeout -k 1 "$limit" "$programs/upload" --quiet "$@" >"$work/said" 2>&1
  judge $? "$code" "$words"
}

# Adds to $problem where the memory is not all 255 but for the image from a place on.
compare() {
  local image=$1 size=$2 start=$3
  head -c "$size" /dev/zero | tr '\0' '\377' >"$work/wanted"
  dd if="$image" of="$work/wanted" bs="$start" seek=1 conv=notrunc status=none
  [[ -n $problem ]] || cmp -s "$work/wanted" "$work/memory" || problem="the memory is not as it has to be"
}

# The number before some words of the uploader's line.
number() {
  [[ $line =~ ([0-9]+)\ $1 ]] && echo "${BASH_REMATCH[1]}"
}

# Makes a file of so many bytes in $work, the same at each run.
make_image() {
  [[ -f $work/bytes ]] || seq 1 500000 | gzip -n >"$work/bytes"
  tail -c "+$((${3:-0} + 1))" "$work/bytes" | head -c "$2" >"$work/$1"
}

# Writes bytes that are given in hexadecimal.
bytes_of() {
  # shellcheck disable=SC2001 # each pair stands in what it becomes
  printf '%b' "$(sed 's/../\\x&/g' <<<"$1")"
}

# Makes an MCUboot image in $work: its version and its hash in hexadecimal, and how many bytes its body has.
make_mcuboot() {
  local name=$1 version=$2 hash=$3 size
  make_image body "$4"
  size=$(printf '%08x' "$4")
  {
    bytes_of "3db8f3960000000020000000${size:6:2}${size:4:2}${size:2:2}${size:0:2}00000000${version}0000000000000000"
    cat "$work/body"
    bytes_of "0769280010002000$hash"
  } >"$work/$name"
}

# Asks for the images with a sequence number; adds to $problem where the reply is not these bytes.
ask() {
  local said
  said=$(timeout -k 1 10 "$work/ask" "$port" "$1" 2>&1)
  [[ -n $problem || $said == "$2" ]] || problem="asked for the images: $said"
}
