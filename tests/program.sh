# To be sourced by a script of tests/: finds the program under test.
#
# `find_program FOLDER` leaves its path in `program`. It is the one that the gate built; where there is none, or a source is newer,
# it is built first, with what that prints in FOLDER/build. SECUREKEEPER names another program.
find_program() {
  local top crate
  top=$(cd "$(dirname "${BASH_SOURCE[0]}")/.." && pwd) || return 1
  crate=$top/crates/securekeeper
  program=$crate/out/securekeeper
  if [ -n "${SECUREKEEPER:-}" ]; then
    program=$(realpath "$SECUREKEEPER") && [ -x "$program" ]
    return
  fi
  is_current() {
    [ -x "$program" ] && [ -z "$(find "$top"/crates/*/src "$top/crates.txt" -newer "$program" -print -quit)" ]
  }
  is_current && return
  rm -f "$program"
  (cd "$crate" && rt run -- show data/script) >"$1/build" 2>&1 && is_current
}
