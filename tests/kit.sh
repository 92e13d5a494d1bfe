# Sourced by scripts that need more of the Rattle kit than its commands: sets kit to its folder.
guide=$(rt doc) || exit 2
kit=${guide%/*}

# make_keeping_kit FOLDER OUT: makes FOLDER/kit, the kit by links but for its commands and for a clang that keeps what it is told to
# compile at -O3: the module as OUT/module.bc, and the words of the command, one to a line, as OUT/words. Then it goes on as the
# kit's. FOLDER is outside the repository, since rt ci refuses links in it.
make_keeping_kit() {
    mkdir -p "$1/kit/bin" "$1/kit/toolchain/bin"
    for part in "$kit"/*; do
        case ${part##*/} in bin | toolchain) ;; *) ln -s "$part" "$1/kit/" ;; esac
    done
    # A command finds its kit by the folder that its file stands in.
    for part in "$kit"/bin/*; do
        case ${part##*/} in rt*) cp "$part" "$1/kit/bin/" ;; *) ln -s "$part" "$1/kit/bin/" ;; esac
    done
    ln -s "$kit/toolchain/lib" "$1/kit/toolchain/"
    for part in "$kit"/toolchain/bin/*; do
        ln -s "$part" "$1/kit/toolchain/bin/"
    done
    keeping=$1/kit/toolchain/bin/clang
    rm "$keeping"
    cat >"$keeping" <<END
#!/bin/sh
case " \$* " in *" -O3 "*)
    cp module.bc '$2/module.bc'
    printf '%s\n' "\$@" >'$2/words'
esac
exec '$kit/toolchain/bin/clang' "\$@"
END
    chmod +x "$keeping"
}
