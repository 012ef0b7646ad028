# shellcheck shell=bash
# Sourced by ./pahyndoi and .ci/run: `set_up tool` puts what building the tool takes in reach, `set_up gate` what the gate takes, from Debian's
# packages where it is missing. Debian 12's own cargo is too old; its packages named -web have a newer one, with compiler, linker and ar.

set_up() {
    look_for "$1"
    [ ${#missing[@]} -gt 0 ] || return 0
    install_packages
    look_for "$1"
    [ ${#missing[@]} -eq 0 ] || give_up 'the packages installed did not bring it'
}

need_rt() {
    command -v rt >/dev/null || {
        printf "pahyndoi: missing: Rattle's rt, which proves and builds the library\n" >&2
        exit 2
    }
}

# Sets `missing`, in words, and `packages`, which bring it.
look_for() {
    missing=() packages=()
    [[ $(<"$(dirname "${BASH_SOURCE[0]}")/../cli/Cargo.toml") =~ rust-version\ =\ \"1\.([0-9]+) ]]
    oldest=${BASH_REMATCH[1]}
    want has_c 'cc and ar' gcc libc6-dev
    if [ "$1" = tool ]; then
        want has_cargo "cargo 1.$oldest or newer" cargo-web
    else
        want has_all_of_cargo "cargo 1.$oldest or newer with clippy and rustfmt" cargo-web rust-web-clippy rustfmt-web
        want has_libcrypto "libcrypto's headers" libssl-dev
    fi
}

# want TEST WORDS PACKAGE..
want() {
    "$1" >/dev/null 2>&1 || { missing+=("$2"); packages+=("${@:3}"); }
}

# A compiler without the C library's files links nothing.
has_c() { command -v ar && [[ $(cc -print-file-name=crt1.o) == /* ]]; }
has_cargo() { in_some_path new_cargo; }
has_all_of_cargo() { in_some_path all_of_cargo; }
has_libcrypto() { [ -e /usr/include/openssl/sha.h ]; }

new_cargo() { is_new 'cargo 1' "$(cargo --version)"; }
# Run, for rustup has these commands in PATH even where its toolchain lacks them. rustfmt's version says nothing of Rust's.
all_of_cargo() { new_cargo && is_new 'clippy 0.1' "$(cargo clippy --version)" && cargo fmt --version && rustfmt --edition 2024 </dev/null; }
is_new() { [[ $2 =~ ^"$1."([0-9]+) ]] && ((BASH_REMATCH[1] >= oldest)); }

# Passes the test with PATH as it is, else with Debian's cargo before one that hides it, else with rustup's; PATH stays so.
in_some_path() {
    local folder
    for folder in '' /usr/bin: ~/.cargo/bin:; do
        if PATH=$folder$PATH "$1"; then
            PATH=$folder$PATH
            return 0
        fi
    done
    return 1
}

install_packages() {
    local apt=(apt-get install -y -qq --no-install-recommends "${packages[@]}") removed package reason
    ((EUID == 0)) || give_up 'only root can install it'
    command -v apt-get >/dev/null || give_up 'there is no apt-get'
    printf 'pahyndoi: installing %s\n' "${packages[*]}" >&2
    export DEBIAN_FRONTEND=noninteractive
    # A source out of reach may be one that is not needed.
    apt-get update -qq >/dev/null 2>&1 || true
    # Debian's older Rust gives way to its newer, and nothing else to anything.
    mapfile -t removed < <("${apt[@]}" --simulate 2>/dev/null | awk '$1 == "Remv" { print $2 }')
    for package in "${removed[@]}"; do
        [[ $package =~ ^(cargo|rustc|rustfmt|rust-clippy)$ ]] || give_up "apt-get would remove $package"
    done
    [ ${#removed[@]} -eq 0 ] || printf 'pahyndoi: they replace %s\n' "${removed[*]}" >&2
    reason=$("${apt[@]}" 2>&1 >/dev/null) || give_up "apt-get says ${reason##*$'\n'}"
}

give_up() {
    local words
    printf -v words '%s, ' "${missing[@]}"
    printf 'pahyndoi: missing: %s; %s (Debian 12 has it in: %s)\n' "${words%, }" "$1" "${packages[*]}" >&2
    exit 2
}
