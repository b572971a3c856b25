# How a program of the crates is started, in the repository and where it is installed: by its own loader, and elsewhere than on x86-64 under an emulator.
# Wants run, the folder of those, and program.
# shellcheck shell=sh disable=SC2154

# with_program WORD..: the words, then those that start the program. Programs are x86-64 code: on another machine an emulator runs it.
with_program() {
    if [ -x "$run/qemu-x86_64" ]; then set -- "$@" "$run/qemu-x86_64"; fi
    "$@" "$run/ld-linux-x86-64.so.2" --library-path "$run" "$program"
}
