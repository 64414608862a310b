# What the scripts of this folder share; each sources it first. It gives them `top`, the folder of the repository, `here`, this folder,
# `cerco`, the program, and `work`, an empty folder that is removed at the end.
# shellcheck shell=bash
set -eu
here=$(cd "$(dirname "${BASH_SOURCE[0]}")" && pwd)
top=$(dirname "$here")
cerco=$top/cerco
work=$(mktemp -d)
trap 'rm -rf "$work"' EXIT

# The seconds between two times in seconds.
seconds() { awk -v from="$1" -v to="$2" 'BEGIN { printf "%.3f", to - from }'; }

# The cycles a second of so many cycles in so many seconds.
rate() { awk -v cycles="$1" -v seconds="$2" 'BEGIN { printf "%.0f", cycles / seconds }'; }

# The seconds that s51 takes for the code of a HEX file whose last two bytes are a jump to itself, with its start; a dash where it isn't
# installed.
s51_seconds() {
  local last from to
  if ! command -v s51 >/dev/null; then
    echo -
    return
  fi
  last=$(printf '%x' $(($(code_of "$1" | wc -c) - 2)))
  from=$(date +%s.%N)
  # s51 reads the next command when its run has stopped, and takes a closed input for a stop.
  timeout 600 s51 -t 8052 "$1" < <(printf 'break 0x%s\nrun\nquit\n' "$last"; sleep 60) >/dev/null 2>&1 || true
  to=$(date +%s.%N)
  seconds "$from" "$to"
}

# Prints a line for a loop: its cycles, the seconds that cerco and s51 took, the cycles a second of each, and how many times those of s51
# cerco makes.
print_speeds() {
  local loop=$1 cycles=$2 ours=$3 theirs=$4 their_rate=- times=-
  if [ "$theirs" != - ]; then
    their_rate=$(rate "$cycles" "$theirs")
    times=$(awk -v ours="$ours" -v theirs="$theirs" 'BEGIN { printf "%.0f", theirs / ours }')
  fi
  printf '%-12s %12s %9s %12s %9s %12s %6s\n' "$loop" "$cycles" "$ours" "$(rate "$cycles" "$ours")" "$theirs" "$their_rate" "$times"
}

# Prints the head of the lines of `print_speeds`.
print_speeds_head() { printf '%-12s %12s %9s %12s %9s %12s %6s\n' loop cycles seconds cycles/s s51 cycles/s times; }

# Writes the data bytes of an Intel HEX file whose records are in order.
code_of() {
  python3 - "$1" <<'PY'
import sys
for line in open(sys.argv[1]):
    record = bytes.fromhex(line.strip()[1:])
    if record[3] == 0:
        sys.stdout.buffer.write(record[4:-1])
PY
}

# The same as numbers, separated by commas.
bytes_of() { code_of "$1" | od -An -v -tu1 -w1 | paste -sd,; }

# Prints the milliseconds that `build` takes for each of these sources in the folder, the least of five with the start of the program, and
# what it says.
time_builds() {
  local name least from to took
  for name in "$@"; do
    least=
    for _ in 1 2 3 4 5; do
      from=$(date +%s%N)
      "$cerco" build "$name" hex map ann >printed || true
      to=$(date +%s%N)
      took=$(((to - from) / 1000))
      if [ -z "$least" ] || [ $took -lt $least ]; then least=$took; fi
    done
    awk -v name="$name" -v least=$least -v said="$(cat printed)" 'BEGIN { printf "%-12s %8.1f ms  %s\n", name, least / 1000, said }'
  done
}

# The lines of crates.txt for these crates and for all that they stand on, without its comments.
crate_lines() {
  python3 - "$top/crates.txt" "$@" <<'PY'
import sys
lines = {}
for line in open(sys.argv[1]):
    line = line.split("#")[0].strip()
    if ":" in line:
        lines[line.split(":")[0].split()[0]] = line
wanted = sys.argv[2:]
for crate in wanted:
    wanted += [name for name in lines[crate].split(":")[1].split() if name in lines and name not in wanted]
print("\n".join(lines[crate] for crate in wanted))
PY
}

# Makes a scratch repository in the folder, with these crates, all that they stand on, and room for a program `bench` over them.
make_scratch() {
  local crate part
  mkdir -p "$work/crates/bench/src"
  crate_lines "$@" >"$work/crates.txt"
  cut -d: -f1 "$work/crates.txt" | while read -r crate; do
    mkdir "$work/crates/$crate"
    for part in src specs proofs; do
      if [ -d "$top/crates/$crate/$part" ]; then cp -r "$top/crates/$crate/$part" "$work/crates/$crate/"; fi
    done
  done
  echo "bench: $*" >>"$work/crates.txt"
}

# Proves and builds the program `bench`, whose text was put into crates/bench/src/main.rt, and leaves its path in `program`.
build_scratch() {
  program=$work/crates/bench/out/bench
  rm -f "$program"
  (cd "$work/crates/bench" && rt run) >"$work/build.log" 2>&1 || true
  if [ ! -x "$program" ]; then
    tail -n 20 "$work/build.log"
    exit 1
  fi
}
