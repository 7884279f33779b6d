# shellcheck shell=bash
# Builds the program without proofs: for scripts that set `top`, source programs.sh, tell their users by `say`, and call
# `stop_building` before they end.

# How often a stage is told of again where standard error is no terminal, in seconds.
told_each=10
building="" building_room=""

children_of() { cat "/proc/$1"/task/*/children 2> /dev/null; }

is_named() { [ "$(cat "/proc/$1/comm" 2> /dev/null)" = "$2" ]; }

# The file below the folder that some process runs. The kit's loader may run it, so what tells it is the mapped code.
running_below() {
  sed -n "s|^[^ ]* r-xp .* \($1/.*\)|\1|p" /proc/[0-9]*/maps 2> /dev/null | head -n 1
}

# Whether a process of this name works for `rt try` now.
works() {
  local child below
  for child in $(children_of "$building"); do
    for below in $(children_of "$child"); do
      is_named "$below" "$1" && return
    done
  done
  return 1
}

# Beside the compilation `rt try` lets the prover look for hints on names, which takes as long again and is not wanted here.
end_hints() {
  local child
  for child in $(children_of "$building"); do
    is_named "$child" rattle && kill "$child" 2> /dev/null
  done
}

size_of_program() {
  local crates
  mapfile -t crates < <(cd "$top" && folders_of_program src | cut -d ' ' -f 2)
  echo "${#crates[@]} crates, $(cd "$top" && find "${crates[@]}" -name '*.rt' -exec cat {} + | wc -l) lines"
}

# tell_stage SECONDS STAGE: again and again in one line at a terminal, else a line each few seconds.
tell_stage() {
  if [ -t 2 ]; then
    printf '\r\033[K%s s: %s' "$1" "$2" >&2
  elif [ "$2" != "${told_stage-}" ] || [ "$1" -ge $((told_at + told_each)) ]; then
    say "$1 s: $2"
    told_stage=$2 told_at=$1
  fi
}

stop_building() {
  [ -n "$building" ] && kill "$building" 2> /dev/null && wait "$building"
  [ -n "$building_room" ] && rm -rf "$building_room"
  building="" building_room=""
}

# Waits until the program is built and runs, and sets `made` to it. A stage lasts until the next one is seen.
await_program() {
  local since=$SECONDS stage
  stage="lowering $(size_of_program), with checks in them (1 of 2)"
  while kill -0 "$building" 2> /dev/null; do
    end_hints
    works clang && stage="compiling with clang what they are lowered to (2 of 2)"
    tell_stage $((SECONDS - since)) "$stage"
    sleep 0.5
    made=$(running_below "$building_room")
    [ -n "$made" ] && break
  done
  [ -t 2 ] && printf '\r\033[K' >&2
  [ -n "$made" ] || return
  say "$((SECONDS - since)) s: the program is built, without proofs"
}

# Lets `rt try` build the program without proofs. It keeps nothing, so it is given a long script to play, and the program
# is copied meanwhile. Standard input is left alone: it is the user's.
build_unproved() {
  local sum made="" status=0
  building_room=$(mktemp -d) || return
  sum=$(cd "$top" && sources_sum src)
  (cd "$top/crates/textmodel" && TMPDIR=$building_room exec rt try --steps 1 -- play 10000000 1) \
    < /dev/null > "$building_room/log" 2>&1 &
  building=$!
  if ! await_program; then
    cat "$building_room/log" >&2
    status=1
  elif ! keep_program "$made" "$unproved" "$sum"; then
    say "the unproved program could not be put into $top/bin"
    status=1
  fi
  stop_building
  return $status
}
