# shellcheck shell=bash
# The programs that are kept in bin/, and whether they are of the sources that are there: for scripts that set `top`.
# Beside each program stands the checksum of what it was made of, so that a copy of it in a clone with the same sources
# counts as well, whatever the times of files are.

# The crate whose sources are looked at, with those below it: that of the program, save where tools/library says otherwise.
shipped=textmodel

# The lines of crates.txt for the program and the crates below it, of the repository in the current folder: not those of tests.
crates_of_program() { python3 -B "$top/tools/crates.py" --in . lines "$shipped"; }

# folders_of_program FOLDER..: the folders of each of these crates, a crate a line, with the crate's own first.
folders_of_program() {
  local crate
  crates_of_program | sed 's/[ :].*//' | while read -r crate; do
    echo "crates/$crate" "${@/#/crates/$crate/}"
  done
}

# The checksum of HANDLES and of these folders of the program's crates, of the repository in the current folder.
sources_sum() {
  {
    cat HANDLES
    crates_of_program
    folders_of_program "$@" | cut -d ' ' -f 2- | xargs sh -c 'find "$@" -type f 2> /dev/null' find | LC_ALL=C sort | xargs sha256sum
  } | sha256sum | cut -d ' ' -f 1
}

# ---- whether a program is of the sources of now

# The files that say what the sum is, and those and the folders that it is made of. A folder tells that a file came or went.
paths_that_count() {
  printf '%s\n' tools/programs.sh tools/crates.py HANDLES crates.txt
  folders_of_program "$@" | cut -d ' ' -f 1
  folders_of_program "$@" | cut -d ' ' -f 2- | xargs sh -c 'find "$@" 2> /dev/null' find
}

# The size of each path of standard input, and the time of its last change of whatever kind, which nobody can set.
# It is for a subshell, whose place it takes.
sizes_and_times() { cd "$top" && exec xargs -s 1000000 -d '\n' stat -c '%s %.Z' -- 2> /dev/null; }

# Puts lines into a file at once, so that no other run reads a part of them. Where bin/ cannot be written nothing is kept.
keep_lines() {
  local file=$1 new
  shift
  new=$(mktemp "$file.XXXXXX" 2> /dev/null) && printf '%s\n' "$@" > "$new" && chmod 644 "$new" && mv "$new" "$file"
}

# Sets `sum` to that of the sources of now. To make it takes some tenths of a second, which a start has not, so it is kept
# beside the program: NAME.paths has the paths that count, and NAME.stamp the sum and below it their sizes and times. They
# are looked at before the sources are read, so a change meanwhile shows at the next start.
set_sum() {
  local program=$1 paths now seen
  shift
  if [ -r "$program.stamp" ] && [ -r "$program.paths" ]; then
    { IFS= read -r sum; IFS= read -r -d '' seen; } < "$program.stamp"
    now=$(sizes_and_times < "$program.paths")
    [ "$now"$'\n' = "$seen" ] && return
  fi
  paths=$(cd "$top" && paths_that_count "$@")
  now=$(sizes_and_times <<< "$paths")
  sum=$(cd "$top" && sources_sum "$@")
  keep_lines "$program.paths" "$paths"
  keep_lines "$program.stamp" "$sum" "$now"
}

# Whether this program is there, and of the sources of now. The other words are the folders that it is made of. Beside an
# installed one there are no sources.
is_current() {
  local program=$1 sum
  [ -x "$program" ] || return
  [ -e "$top/crates.txt" ] || return 0
  [ -r "$program.sources" ] || return
  set_sum "$@"
  [ "$(< "$program.sources")" = "$sum" ]
}

proved=$top/bin/textmodel
unproved=$top/bin/unproved

is_proved_current() { is_current "$proved" src specs proofs; }
is_unproved_current() { is_current "$unproved" src; }

# The folder of the kit, which RATTLE_KIT may name, and what the kit calls itself.
kit_folder() { echo "${RATTLE_KIT:-$(dirname "$(dirname "$(readlink -f "$(command -v rt)")")")}"; }
kit_id() { cat "$(kit_folder)/KIT-ID" 2> /dev/null || echo "a kit that does not name itself"; }

# Puts a program in its place, with the checksum of its sources and the name of the kit. Two runs may do so at once.
keep_program() {
  local made=$1 program=$2 sum=$3 new
  mkdir -p "$top/bin" && new=$(mktemp "$program.XXXXXX") || return
  if cp "$made" "$new" && chmod 755 "$new" && rm -f "$program.sources" && mv "$new" "$program"; then
    kit_id > "$program.kit"
    echo "$sum" > "$program.sources"
  else
    rm -f "$new"
    return 1
  fi
}

# ---- signals

# Ends this shell by a signal. A shell ignores SIGQUIT, so a program takes its place for that.
end_by() {
  trap - "$1"
  ulimit -c 0
  [ "$1" = QUIT ] && exec env kill -s QUIT $$
  kill -s "$1" $$
}

# at_end FUNCTION: it is called before this shell ends, also by a signal.
at_end() {
  local signal
  # shellcheck disable=SC2064
  trap "$1" EXIT
  for signal in HUP INT TERM; do
    # shellcheck disable=SC2064
    trap "trap - EXIT; $1; end_by $signal" "$signal"
  done
}
