# What is installed, and where: sourced by install, uninstall and deb, which run in bash.

here=$(cd -- "$(dirname -- "${BASH_SOURCE[0]}")" && pwd)
top=$(cd -- "$here/.." && pwd)

# The file of an installation that says what was put there, under PREFIX.
list=share/steno/installed

# Each file: its mode, where it is in this repository, and where it goes under PREFIX.
files() {
  cat <<'LIST'
755 crates/steno/out/steno bin/steno
755 packaging/steno-load-captures bin/steno-load-captures
644 packaging/man/steno.1 share/man/man1/steno.1
644 packaging/man/steno-load-captures.1 share/man/man1/steno-load-captures.1
644 packaging/man/steno-format.5 share/man/man5/steno-format.5
644 packaging/man/steno-query.7 share/man/man7/steno-query.7
644 packaging/completion/steno.bash share/bash-completion/completions/steno
644 packaging/completion/_steno share/zsh/site-functions/_steno
644 README.md share/doc/steno/README.md
644 CHANGELOG.md share/doc/steno/CHANGELOG.md
644 docs/RECIPES.md share/doc/steno/docs/RECIPES.md
644 docs/FROM_STENOGRAPHER.md share/doc/steno/docs/FROM_STENOGRAPHER.md
644 docs/QUERY.md share/doc/steno/docs/QUERY.md
644 docs/FORMAT.md share/doc/steno/docs/FORMAT.md
644 docs/PROVED.md share/doc/steno/docs/PROVED.md
644 samples/mixed.pcap share/doc/steno/examples/mixed.pcap
644 packaging/systemd/steno-load.service share/doc/steno/examples/steno-load.service
644 packaging/systemd/steno-load.timer share/doc/steno/examples/steno-load.timer
644 packaging/systemd/steno.sysusers share/doc/steno/examples/steno.sysusers
LIST
}

fail() {
  echo "steno: $*" >&2
  exit 1
}

# Takes PREFIX=... and DESTDIR=... from the arguments, else from the environment; sets `target`, the
# folder that PREFIX is for now.
take_settings() {
  local word
  PREFIX=${PREFIX:-/usr/local} DESTDIR=${DESTDIR:-}
  for word; do
    case $word in
    PREFIX=*) PREFIX=${word#*=} ;;
    DESTDIR=*) DESTDIR=${word#*=} ;;
    *) fail "usage: packaging/${0##*/} [PREFIX=/usr/local] [DESTDIR=]" ;;
    esac
  done
  [[ $PREFIX == /* ]] || fail "PREFIX is no absolute path: $PREFIX"
  [[ $PREFIX$DESTDIR != *$'\n'* ]] || fail 'PREFIX and DESTDIR have no line feed'
  PREFIX=${PREFIX%/}
  target=$DESTDIR$PREFIX
}
