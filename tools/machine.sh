# shellcheck shell=bash disable=SC2034,SC2154
# What a machine that is not x86-64 needs besides: `rt` makes the library for x86-64 alone, so what links it is compiled
# for x86-64 there too, and an emulator runs it. Sourced by steps.sh; on an x86-64 machine nothing is changed.
x86_64='x86_64-unknown-linux-gnu'
binfmt=/proc/sys/fs/binfmt_misc
# the C compiler whose programs can be linked with the library
export HULL_GCC=gcc
emulated=
[ "$(uname -m)" = x86_64 ] || emulated=yes

# RUSTC: whether it has the standard library of x86-64 programs, where one of the machine's own does not serve.
has_library() {
    [ -z "$emulated" ] || [ -d "$("$1" --print target-libdir --target "$x86_64" 2>/dev/null)" ]
}

# CARGO_PACKAGE: the package with that library, of the same version as the compiler that comes with this cargo.
library_package() {
    case $emulated$1 in
    yescargo) echo libstd-rust-dev:amd64 ;;
    yescargo-web) echo libstd-rust-web-dev:amd64 ;;
    esac
}

# Lets packages of x86-64 be installed beside those of the machine; apt-get must read its lists after this.
add_architecture() {
    [ -z "$emulated" ] || dpkg --add-architecture amd64 || give_up "packages for amd64 cannot be had here"
}

# Whether an x86-64 program starts, with the two libraries that every program of host/ asks for.
starts() {
    local folder ended
    folder=$(mktemp -d) || return 1
    echo 'int main(void) { return 0; }' >"$folder/try.c"
    "$HULL_GCC" "$folder/try.c" -o "$folder/try" -Wl,--no-as-needed -lgcc_s && "$folder/try" 2>/dev/null
    ended=$?
    rm -rf "$folder"
    return "$ended"
}

install_emulator() {
    add_architecture
    install qemu-user libc6:amd64 libgcc-s1:amd64
}

# Tells the kernel that qemu runs x86-64 programs, so that tests can start them as children too. The name is our own: one
# that is taken may be of an emulator that is not there, and the last that was told comes first.
register_emulator() {
    local emulator magic mask
    emulator=$(command -v qemu-x86_64) || return 0
    [ -e "$binfmt/register" ] || mount -t binfmt_misc binfmt_misc "$binfmt" || return 0
    [ ! -e "$binfmt/hullplaiter" ] || return 0
    magic='\x7fELF\x02\x01\x01\x00\x00\x00\x00\x00\x00\x00\x00\x00\x02\x00\x3e\x00'
    mask='\xff\xff\xff\xff\xff\xfe\xfe\x00\xff\xff\xff\xff\xff\xff\xff\xff\xfe\xff\xff\xff'
    printf '%s\n' ":hullplaiter:M::$magic:$mask:$emulator:" >"$binfmt/register" || return 0
    echo "$me: from now on $emulator runs the x86-64 programs of this machine (binfmt_misc)"
}

# Makes x86-64 programs start, by the least that is missing, and lets cargo build such programs.
need_x86_64() {
    local step
    [ -n "$emulated" ] || return 0
    HULL_GCC='x86_64-linux-gnu-gcc'
    command -v "$HULL_GCC" >/dev/null || install gcc-x86-64-linux-gnu libc6-dev-amd64-cross
    export CARGO_BUILD_TARGET=$x86_64 CARGO_TARGET_X86_64_UNKNOWN_LINUX_GNU_LINKER=$HULL_GCC
    for step in true register_emulator install_emulator register_emulator; do
        "$step"
        if starts; then
            echo "$me: this is $(uname -m): x86-64 programs are emulated, and times say nothing about speed"
            return 0
        fi
    done
    give_up "x86-64 programs do not start on this $(uname -m), with qemu-user neither: root must be able to write $binfmt/register"
}
