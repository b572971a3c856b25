#!/bin/sh
# hosts/install.sh: puts what is built under PREFIX, /usr/local where it is not named, and DESTDIR before that: keeper and panel, the library with its
# header and pkg-config file, the manual pages, bash completion. It builds nothing: "make" does. What it installs needs neither the kit nor this repository.
# Exit status: 0, or 2 where something is not built or cannot be written.
set -eu
here=$(readlink -f -- "$0")
top=${here%/*/*}
# shellcheck source=shell/common.sh
. "$top/shell/common.sh"
prefix_given=${PREFIX:-/usr/local}
case $prefix_given in /*) ;; *) die "PREFIX is $prefix_given: a path from the root is wanted" ;; esac
to=${DESTDIR-}$prefix_given
version=$(cat "$top/VERSION")
built=$top/target/hosts/keeper
[ "$machine" = x86_64 ] || built=$built.x86_64
panels='panel keyed_panel passage_panel keyed_passage_panel'
set -- "$built" "$top/target/staticlib/libkeeper.a" "$top/target/run/ld-linux-x86-64.so.2"
for name in $panels; do set -- "$@" "$top/target/bin/$name"; done
for file; do
    [ -f "$file" ] || die "there is no $file: run make first"
done

# put MODE FILE PLACE: one file, under PREFIX
put() {
    mkdir -p "$to/${3%/*}" || die "cannot make $to/${3%/*}"
    install -m "$1" "$2" "$to/$3" || die "cannot write $to/$3"
}

# put_script PLACE: a command from standard input
put_script() {
    mkdir -p "$to/${1%/*}" || die "cannot make $to/${1%/*}"
    cat >"$to/$1.new" || die "cannot write $to/$1"
    chmod 755 "$to/$1.new"
    mv "$to/$1.new" "$to/$1"
}

for file in "$top"/target/run/*; do put 755 "$file" "lib/cinchcleat/${file##*/}"; done
if [ "$machine" = x86_64 ]; then
    put 755 "$built" bin/keeper
else
    put 755 "$built" lib/cinchcleat/keeper.x86_64
    {
        printf '#!/bin/sh\n# keeper, which is x86-64 code, under an emulator\n'
        grep -v '^#' "$top/shell/streams.sh"
        # shellcheck disable=SC2016
        printf 'here=$(readlink -f -- "$0")\nhome=${here%%/*/*}/lib/cinchcleat\nexec "$home/qemu-x86_64" "$home/keeper.x86_64" "$@"\n'
    } | put_script bin/keeper
fi
for name in $panels; do put 755 "$top/target/bin/$name" "lib/cinchcleat/$name"; done
for file in streams runs panel; do put 644 "$top/shell/$file.sh" "lib/cinchcleat/$file.sh"; done
{
    printf '#!/bin/sh\n# panel: the verdict number on standard input; panel(1) has the rest\nset -eu\n'
    # shellcheck disable=SC2016
    printf 'here=$(readlink -f -- "$0")\nrun=${here%%/*/*}/lib/cinchcleat\nbuild() { program=$run/$1; }\nversion=%s\n' "$version"
    # shellcheck disable=SC2016
    printf '. "$run/streams.sh"\n. "$run/runs.sh"\n. "$run/panel.sh"\npanel "$@"\n'
} | put_script bin/panel
put 644 "$top/target/staticlib/libkeeper.a" lib/libkeeper.a
put 644 "$top/include/keeper.h" include/keeper.h
mkdir -p "$to/lib/pkgconfig"
sed -e "s|@PREFIX@|$prefix_given|" -e "s|@VERSION@|$version|" "$top/hosts/keeper.pc.in" >"$to/lib/pkgconfig/keeper.pc" || die "cannot write keeper.pc"
for page in keeper.1 panel.1 keeper.3; do put 644 "$top/man/$page" "share/man/man${page##*.}/$page"; done
for name in keeper panel; do put 644 "$top/completion/keeper.bash" "share/bash-completion/completions/$name"; done
say "installed under $to"
