# shellcheck shell=bash
# What `./tn install`, tools/release/package, tools/c/build and tools/c/check share.

# Puts a program, its launcher, the ladder of a trace, the manual page, completions and units of systemd, which name PREFIX, into a folder.
# They run without this repository: bin/tn starts the launcher, with the program that lies next to it, and bin/tn-ladder is a link.
#
#   install_program PROGRAM PREFIX FOLDER
install_program() {
    local program=$1 prefix=$2 into=$3 top unit text
    top=$(dirname "$(dirname "$(dirname "$(readlink -f "${BASH_SOURCE[0]}")")")")
    install -D -m 755 "$program" "$into/libexec/tn/tn"
    install -D -m 755 "$top/libexec/launch" "$into/libexec/tn/launch"
    install -D -m 755 "$top/libexec/ladder" "$into/libexec/tn/ladder"
    install -D -m 644 -t "$into/libexec/tn/lib" "$top/tools/lib/basics.py" "$top/tools/lib/ladder.py"
    install -D -m 644 "$top/docs/tn.1" "$into/share/man/man1/tn.1"
    install -D -m 644 "$top/share/completions/tn.bash" "$into/share/bash-completion/completions/tn"
    install -D -m 644 "$top/share/completions/_tn" "$into/share/zsh/site-functions/_tn"
    for unit in "$top"/share/systemd/*; do
        text=$(<"$unit")
        install -D -m 644 /dev/stdin "$into/lib/systemd/system/${unit##*/}" <<<"${text//\/usr\/local/"$prefix"}"
    done
    install -D -m 755 /dev/stdin "$into/bin/tn" <<'SCRIPT'
#!/usr/bin/env bash
folder=$(dirname "$(dirname "$(readlink -f "$0")")")/libexec/tn
exec "$folder/launch" "$folder/tn" "$@"
SCRIPT
    ln -sf ../libexec/tn/ladder "$into/bin/tn-ladder"
}

# A text that is defined in a header, as TN_VERSION "1.2.0".
defined_in() {
    sed -n "s/^#define $2 \"\(.*\)\"\$/\1/p" "$1"
}

# Installs the library for C, from a folder of tools/c/build: into PREFIX, its libraries into LIBDIR, and all of it below DESTDIR.
install_library() {
    local folder=$1 prefix=$2 libdir=$3 root=${DESTDIR-} top shared soname
    top=$(dirname "$(dirname "$(dirname "$(readlink -f "${BASH_SOURCE[0]}")")")")
    shared=libtn-$(defined_in "$top/include/tn.h" TN_VERSION).so
    soname=$(defined_in "$top/include/tn.h" TN_SONAME)
    install -D -m 644 "$folder/libtn.a" "$root$libdir/libtn.a"
    install -m 644 "$folder/$shared" "$root$libdir/$shared"
    ln -sf "$shared" "$root$libdir/$soname"
    ln -sf "$soname" "$root$libdir/libtn.so"
    install -D -m 644 "$top/include/tn.h" "$root$prefix/include/tn.h"
    install -D -m 644 /dev/stdin "$root$libdir/pkgconfig/tn.pc" <<END
prefix=$prefix
libdir=${libdir/#"$prefix/"/'${prefix}/'}
includedir=\${prefix}/include

Name: tn
Description: Telnet with LINEMODE, proved
Version: $(defined_in "$top/include/tn.h" TN_VERSION)
Cflags: -I\${includedir}
Libs: -L\${libdir} -ltn
END
}
