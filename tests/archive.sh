# shellcheck shell=bash
# For the scripts that link the library: each sources this at the top of the repository.
archive=target/staticlib/libduchrelin.a

give_up() { # give_up WHY: counts as one failure, and ends
  echo "$1"
  echo "0 passed, 1 failed"
  exit 1
}

need() { # need TOOL..
  local tool
  for tool; do
    command -v "$tool" >/dev/null 2>&1 || give_up "missing tool: $tool"
  done
}

# .ci/run builds the archive and the programs once, and says so by this variable.
built() { # built FILE
  [ "${DUCHRELIN_ARCHIVE_BUILT:-0}" = 1 ] && [ -f "$1" ]
}

build_archive() { # proves what the library needs, and writes the archive
  built "$archive" && return
  need rt
  rm -f "$archive"
  programs/archive || give_up "the library is not built"
  [ -f "$archive" ] || give_up "no archive $archive"
}

build_route() { # proves what the program route needs, and writes target/bin/route
  built target/bin/route && return
  need rt gcc
  rm -f target/bin/route
  CC=gcc programs/build || give_up "the program route is not built"
  [ -x target/bin/route ] || give_up "no program target/bin/route"
}

run_tests() { # run_tests COMMAND..: its last line is 'N passed, M failed'; ends with 0 only if all passed. A call that never ends fails.
  local log status last
  log=$(mktemp) || give_up "no temporary file"
  timeout 900 "$@" | tee "$log"
  status=${PIPESTATUS[0]}
  last=$(tail -n 1 "$log")
  rm -f "$log"
  case $last in
    *" passed, 0 failed") [ "$status" -eq 0 ] || give_up "the test ended with status $status" ;;
    *" passed, "*" failed") exit 1 ;;
    *) give_up "the test ended with status $status before its last line" ;;
  esac
  exit 0
}
