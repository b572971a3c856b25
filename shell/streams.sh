# What every command begins with: a standard stream that is closed is opened on /dev/null, so that no file that a command opens gets its number.
# It is opened the wrong way round: what uses the stream fails, as it would have, and nothing is read or written in its place.
# shellcheck shell=sh
{ true 3>&2; } || exec 2</dev/null
{ true 3<&0; } 2>/dev/null || exec 0>/dev/null
{ true 3>&1; } 2>/dev/null || exec 1</dev/null
