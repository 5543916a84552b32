# Sourced by host/run.sh and host/search/run.sh: how code for x86-64 is built and run, and its instructions counted.
#
# The proved libraries are x86-64 code. On another machine all is built for x86-64 and run by an emulator, which counts
# the instructions, and no times are taken. Variables name the tools; in brackets what they are by default where the
# machine is not x86-64:
#
#     CC, CFLAGS, LDFLAGS    cc [x86_64-linux-gnu-gcc]; the flags name the folders of libosmocore for x86-64, if need be
#     RUSTC, RUSTFLAGS       rustc [--target x86_64-unknown-linux-gnu]
#     EMULATOR               not used [qemu-x86_64, of version 8.1 or later]
emulator=
if [ "$(uname -m)" != x86_64 ]; then
    emulator=${EMULATOR:-qemu-x86_64}
    CC=${CC:-x86_64-linux-gnu-gcc}
    RUSTFLAGS=${RUSTFLAGS:---target x86_64-unknown-linux-gnu}
fi

# The instructions of a program with its arguments.
counted() {
    if [ -n "$emulator" ]; then
        $emulator -one-insn-per-tb -d exec,nochain "$@" 2>&1 > /dev/null | grep -c ^Trace
    else
        valgrind --tool=callgrind --callgrind-out-file=/dev/null "$@" 2>&1 > /dev/null |
            sed -n 's/.*Collected : \([0-9]*\).*/\1/p'
    fi
}
