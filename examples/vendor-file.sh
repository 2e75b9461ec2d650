#!/bin/sh
# A vendor's log comes as a file: is it right, and if not, where?
#
# What the pier sees: one command says "accepted" or names the first wrong record, with what it
# claims and what the rules say; its status goes into the scripts of the desk.
# What to look at: the state in service is saved as a sheet and the memory as an image by the
# console; then ./judge reads the three files. The vendor flags the eleventh transfer of a word
# count of 11 as the last: status 1. Without the flag the log stops early: status 0.
set -eu
cd "$(dirname "$0")/.."
here=$(pwd)
work=$(mktemp -d)
trap 'rm -rf "$work"' EXIT
cd "$work"
cat > save.rack <<TEXT
write 0xd 0          # master clear
write 0xb 0x85       # channel 1: block, device to memory, upward
write 2 0x00         # address 0200h
write 2 0x02
write 3 0x0b         # word count 11: twelve transfers
write 3 0x00
write 0xa 0x01       # unmask channel 1
pins 2
grant
f.sheet service.sheet
f.peek 0 65536 memory.image
TEXT
"$here/rack" save.rack > saved
# record CHANNEL KIND LOW HIGH BYTE FLAGS, in octal
record() { printf "\\$1\\$2\\$3\\$4\\000\\000\\$5\\$6"; }
for low in 000 001 002 003 004 005 006 007 010 011; do record 001 001 $low 002 132 000; done > ten
{ cat ten; record 001 001 012 002 132 005; } > flagged.log
{ cat ten; record 001 001 012 002 132 000; } > early.log
for log in flagged.log early.log; do
    echo "$log:"
    status=0
    "$here/judge" service.sheet memory.image "$log" || status=$?
    echo "status $status"
done
