# shellcheck shell=bash
# Sourced by test and bench: sees that a C compiler, rustc, python3 and what is named (c++, the C libraries crypto and
# tomcrypt, the published vectors, cargo, cmake, groff, pkg-config, valgrind) are there, and installs the Debian
# packages of those that are missing. Exits where that fails.
needed=("$@")

links() { # LIBRARY
    local folder status
    folder=$(mktemp -d) || return 1
    echo 'int main(void) { return 0; }' | cc -x c - "-l$1" -o "$folder/program" 2>"$folder/said"
    status=$?
    rm -rf "$folder"
    return "$status"
}

present() { # NAME
    case $1 in
        c++) command -v g++ >/dev/null ;;
        cargo) cargo --version >/dev/null 2>&1 ;;
        cmake) command -v cmake >/dev/null && command -v make >/dev/null ;;
        groff | pkg-config | valgrind) command -v "$1" >/dev/null ;;
        vectors) dpkg -s "$(package_of "$1")" 2>/dev/null | grep '^Status: .* installed$' >/dev/null ;;
        *) links "$1" ;;
    esac
}

package_of() { # NAME
    case $1 in
        c++) echo g++ ;;
        cargo | valgrind) echo "$1" ;;
        cmake) printf '%s\n' cmake make ;;
        crypto) echo libssl-dev ;;
        groff) echo groff-base ;;
        pkg-config) echo pkgconf ;;
        tomcrypt) echo libtomcrypt-dev ;;
        vectors) echo python3-cryptography-vectors ;;
    esac
}

# Prints them, one to a line.
missing_packages() {
    local name
    command -v cc >/dev/null || printf '%s\n' gcc libc6-dev
    rustc --version >/dev/null 2>&1 || echo rustc
    command -v python3 >/dev/null || echo python3
    for name in "${needed[@]}"; do
        present "$name" || package_of "$name"
    done
}

install_packages() {
    DEBIAN_FRONTEND=noninteractive apt-get install -y -q --no-install-recommends "${packages[@]}"
}

# Rust's own installer puts rustc into this folder, which not every PATH has.
export PATH="$PATH:${HOME:-/root}/.cargo/bin"

mapfile -t packages < <(missing_packages)
if [ "${#packages[@]}" -gt 0 ]; then
    echo "missing: ${packages[*]}"
    [ "$(id -u)" -eq 0 ] || { echo 'only root can install them'; exit 1; }
    install_packages || { apt-get update -q && install_packages; } || exit 1
    export PATH="/usr/bin:$PATH" # before a rustc, or a cargo, that does not run
    hash -r
    mapfile -t packages < <(missing_packages)
    [ "${#packages[@]}" -eq 0 ] || { echo "still missing: ${packages[*]}"; exit 1; }
fi
