# SPDX-License-Identifier: MIT OR Apache-2.0
# For the scripts of tests/ and of bench/. Beforehand top is the repository's folder.

# needs COMMAND..: where one of them isn't here the script can't be tried, and ends with 77
needs() {
  local command
  for command in "$@"; do
    command -v "$command" >/dev/null && continue
    echo "$0: can't be tried without $command"
    exit 77
  done
}

# sets program to the path of the proved program, which is proved and built first where it isn't
prove_program() {
  program=$("$top/bsc" prove) && return
  echo "$0: there is no proved program"
  exit 1
}

# build_refusing_library FOLDER: FOLDER/refuse.so, which, preloaded, refuses one allocation
build_refusing_library() {
  gcc -shared -fPIC -O1 -o "$1/refuse.so" "$top/tests/lib/refuse.c" -ldl || exit 1
}
