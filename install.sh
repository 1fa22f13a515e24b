#!/usr/bin/env bash
# Installs popqc: the program, its man page, and what bash and zsh need to complete its commands and options.
# Proves and builds the program first, where that isn't done (popqc.sh does it).
#
#     ./install.sh PREFIX        for example /usr/local, or ~/.local
set -eu
top=$(cd "$(dirname "$0")" && pwd)
prefix=${1:-}
if [ $# -ne 1 ] || [ -z "$prefix" ] || [ "$prefix" = --help ]; then
  echo "usage: ./install.sh PREFIX, for example /usr/local or ~/.local" >&2
  exit 2
fi

put() { # MODE FILE TO
  install -D -m "$1" "$top/$2" "$prefix/$3"
  echo "$prefix/$3"
}

"$top/popqc.sh" gen --seed 0 --qubits 1 --gates 0 > /dev/null
put 755 crates/popqc/out/popqc bin/popqc
put 644 docs/popqc.1 share/man/man1/popqc.1
put 644 completions/popqc.bash share/bash-completion/completions/popqc
put 644 completions/_popqc share/zsh/site-functions/_popqc
