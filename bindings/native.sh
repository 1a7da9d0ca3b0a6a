# shellcheck shell=bash
# The library for this machine's own processor, x86-64 or aarch64, both Linux: for bindings/run and outside/run, which source this file.
# cargo and a C compiler are needed; bindings/prepare installs them on Debian.
#
# BHROMILUN_LIB, if set, is a folder that holds libbhromilun.a already; nothing is built with rt then.
# CC compiles C; it is cc by default.

project=$(cd "$(dirname "${BASH_SOURCE[0]}")/.." && pwd)
if [[ -n ${BHROMILUN_LIB:-} ]]; then
    BHROMILUN_LIB=$(cd "$BHROMILUN_LIB" && pwd)
fi

# Where bindings/build writes the library for this machine. Is false where it has none.
native_folder() {
    case $(uname -sm) in
    "Linux x86_64") echo "$project/target/staticlib" ;;
    "Linux aarch64") echo "$project/target/staticlib/aarch64-unknown-linux-gnu" ;;
    *) return 1 ;;
    esac
}

# Says why, and is false, where this machine can not build and run programs over the library.
ready() {
    if ! native_folder >/dev/null; then
        echo "native: there is no library for this machine, $(uname -sm)" >&2
        return 1
    fi
    local tool
    for tool in cargo "${CC:-cc}"; do
        if ! command -v "$tool" >/dev/null; then
            echo "native: no $tool" >&2
            return 1
        fi
    done
}

# Builds the library, unless BHROMILUN_LIB says where it is; says so to what is run afterwards.
build_library() {
    if [[ -z ${BHROMILUN_LIB:-} ]]; then
        bash "$project/bindings/build" "$(uname -m)-unknown-linux-gnu"
        BHROMILUN_LIB=$(native_folder)
    fi
    export BHROMILUN_LIB
}
