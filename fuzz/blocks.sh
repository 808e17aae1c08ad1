#!/usr/bin/env bash
# The beginnings of the basic blocks of some functions of a linked program, or their conditional jumps, as addresses.
# Usage: blocks.sh blocks|jumps PROGRAM SYMBOL FILE... The functions are those that the files, archives or programs, define; the first
# line is the address of SYMBOL. A block begins where a function does, where a jump leads, and behind each jump or return.
set -eu
set -o pipefail
wish=$1 program=$2 symbol=$3
shift 3
names=$(mktemp)
trap 'rm -f "$names"' EXIT
nm "$@" 2>/dev/null | awk '$2 ~ /^[tT]$/ { print $3 }' >"$names"
nm "$program" | awk -v symbol="$symbol" '$3 == symbol { sub(/^0+/, "", $1); print $1; found = 1 } END { exit !found }'
objdump -d --no-show-raw-insn "$program" | awk -v names="$names" -v wish="$wish" '
  BEGIN { while ((getline name <names) > 0) wanted[name] = 1 }
  /^[0-9a-f]+ <.*>:$/ {
    name = $0
    sub(/^[0-9a-f]+ </, "", name)
    sub(/>:$/, "", name)
    inside = name in wanted
    begins = 1
    next
  }
  inside && /^ *[0-9a-f]+:\t/ {
    at = $1
    sub(/:$/, "", at)
    known[at] = 1
    filler = /\tnop|[ \t]nop[wl]|xchg +%ax,%ax|\tint3/
    if (begins && !filler) { block[at] = 1; begins = 0 }
    if ($2 ~ /^(j|ret|ud2|hlt)/ || $3 ~ /^(j|ret)/) begins = 1
    if ($2 ~ /^j/ && $3 ~ /^[0-9a-f]+$/) block[$3] = 1
    if (wish == "jumps" && $2 ~ /^j/ && $2 != "jmp") print at
  }
  END { if (wish == "blocks") for (at in block) if (at in known) print at }'
