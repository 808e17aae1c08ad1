# shellcheck shell=bash
# Sourced by `plan` and `test`: sees that the machine has the commands that they call.

# has COMMAND: it is there, and new enough
has() {
  command -v "$1" >/dev/null 2>&1 || return 1
  case $1 in
  # 1.78 is the first that reads the lock files here.
  cargo) cargo --version 2>/dev/null | awk '{ split($2, v, "."); exit !(v[1] > 1 || (v[1] == 1 && v[2] >= 78)) }' ;;
  # Debian's smallest Python has no ctypes.
  python3) python3 -c 'import ctypes' 2>/dev/null ;;
  esac
}

# missing COMMAND..: prints those that are not there
missing() {
  local command
  for command in "$@"; do
    has "$command" || echo "$command"
  done
}

# package_of COMMAND: the Debian package that has it
package_of() {
  case $1 in
  cc) echo gcc ;;
  # In Debian 12 `cargo` is too old, and `cargo-web` has a newer one.
  cargo | rustc) if apt-cache show cargo-web >/dev/null 2>&1; then echo cargo-web; else echo cargo; fi ;;
  *) echo "$1" ;;
  esac
}

# packages_of COMMAND..: those of all, each once
packages_of() {
  local command
  for command in "$@"; do
    package_of "$command"
  done | sort -u
}

# may_install: root may, where there is apt-get
may_install() {
  [[ $(id -u) == 0 ]] && command -v apt-get >/dev/null 2>&1
}

# apt_install PACKAGE..: the lists of packages may be old
apt_install() {
  export DEBIAN_FRONTEND=noninteractive
  apt-get install -y "$@" || { apt-get update && apt-get install -y "$@"; }
}

# needs CALLER COMMAND..: installs what is missing, or says in one line what to run and fails
needs() {
  local caller=$1 gone packages here=${BASH_SOURCE[0]%/*}
  local log=${here%/*}/target/needs.log
  shift
  mapfile -t gone < <(missing "$@")
  [[ ${#gone[@]} -gt 0 ]] || return 0
  if [[ " ${gone[*]} " == *' rt '* ]]; then
    echo "$caller: rt is missing. It is part of the Rattle kit, not of Debian: run export PATH=KIT/bin:\$PATH, where KIT is the kit's folder" >&2
    return 1
  fi
  if [[ " ${gone[*]} " == *' cargo '* ]] && command -v cargo >/dev/null 2>&1; then
    echo "$caller: cargo is older than 1.78: run rustup update or, on Debian, apt-get install $(package_of cargo)" >&2
    return 1
  fi
  if ! may_install; then
    mapfile -t packages < <(packages_of "${gone[@]}")
    echo "$caller: missing: ${gone[*]}. Run as root: apt-get install ${packages[*]}" >&2
    return 1
  fi
  mkdir -p "${log%/*}" && : >"$log" || return 1
  # A machine without lists of packages knows of none.
  apt-cache show gcc >/dev/null 2>&1 || apt-get update >>"$log" 2>&1
  mapfile -t packages < <(packages_of "${gone[@]}")
  echo "$caller: installing ${packages[*]} (log: $log)" >&2
  apt_install "${packages[@]}" >>"$log" 2>&1
  hash -r
  mapfile -t gone < <(missing "$@")
  [[ ${#gone[@]} -gt 0 ]] || return 0
  echo "$caller: still missing: ${gone[*]}. Run: apt-get install ${packages[*]} (log: $log)" >&2
  return 1
}
