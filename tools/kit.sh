# shellcheck shell=sh disable=SC2154
# The folders of the Rattle kit, RATTLE_HOME or the one that rt lies in, and its C compiler and linker. To be sourced; root is the
# repository's folder.
rt=$(command -v rt) || { echo 'there is no rt on the PATH: install the Rattle kit' >&2; exit 2; }
home=${RATTLE_HOME:-$(dirname "$(dirname "$(readlink -f "$rt")")")}
toolchain=$home/toolchain
target=x86_64-unknown-linux-gnu

compile() { # FILE.c FILE.o
    "$toolchain/bin/clang" -target $target -O2 -fPIE -Wall -Wextra -Wno-unused-function -ffreestanding -nostdinc \
        -isystem "$root/oracle/driver/freestanding" -I "$root/include" -c "$1" -o "$2"
}

join() { # PROGRAM FILE..
    "$home/bin/rattle-link" --target $target --toolchain "$toolchain" -o "$@"
}
