#!/usr/bin/env bash
# convert.sh PROGRAM [ARGUMENT..]: gives every sheet numbered within parents (.old) beside this script to the program and compares what it
# prints, byte for byte, with the sheet of the same name or, where there is none, with the refusal's line in the table. The sheets that
# need no conversion have to come back as they are. Exits with 0 only if all agree.
set -u
shopt -s nullglob
here=$(cd "$(dirname "$0")" && pwd)
count=0
bad=0

# prints FILE EXPECTED PROGRAM..: the program makes one file of the other
prints() {
  count=$((count + 1))
  if ! "${@:3}" <"$1" | cmp -s - "$2"; then
    echo "examples: ${*:3}: $(basename "$1") is not converted to $(basename "$2")"
    bad=1
  fi
}

for old in "$here"/*.old; do
  expected=${old%.old}.sheet
  [ -e "$expected" ] || expected=${old%.old}.table
  prints "$old" "$expected" "$@"
done
for sheet in "$here"/*.sheet; do
  # The reader's refusals are those of the conversion too.
  case $(basename "$sheet") in
  refused-0[2-5].sheet) prints "$sheet" "${sheet%.sheet}.table" "$@" ;;
  *) prints "$sheet" "$sheet" "$@" ;;
  esac
done

[ $count -gt 0 ] || bad=1
[ $bad -eq 0 ] && echo "examples: $*: $count sheets converted as expected"
exit $bad
