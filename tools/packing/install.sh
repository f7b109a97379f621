#!/bin/sh
# Puts this release below a folder, or takes away what it put there.
#
#     ./install.sh PREFIX
#     ./install.sh --remove PREFIX
#
# The files go to PREFIX/lib/pegasus; links to them stand in PREFIX/bin (pegasus, and each tool as pegasus-TOOL), in
# PREFIX/share/man/man1 and where bash and zsh look for completions. A file that is there already is never overwritten.
set -eu
here=$(cd "$(dirname "$0")" && pwd -P)

say() { echo "install.sh: $*" >&2; }
stop() { say "$*"; exit 1; }

# Each file of the release, as PROVED.txt lists them with their sums.
files() { sed -n 's/^[0-9a-f]\{64\}  //p' "$here/PROVED.txt"; echo PROVED.txt; }

# Each link below PREFIX, and what it leads to, as seen from where it stands.
links() {
  echo "bin/pegasus ../lib/pegasus/pegasus"
  for tool in draw report why salvage join from-pegasus from-wfformat; do
    [ ! -e "$here/tools/$tool" ] || echo "bin/pegasus-$tool ../lib/pegasus/tools/$tool"
  done
  files | sed -n 's,^share/man/man1/\(.*\)$,share/man/man1/\1 ../../../lib/pegasus/share/man/man1/\1,p'
  echo "share/bash-completion/completions/pegasus ../../../lib/pegasus/share/bash-completion/completions/pegasus"
  echo "share/zsh/site-functions/_pegasus ../../../lib/pegasus/share/zsh/site-functions/_pegasus"
}

# Takes away folders that are left empty, from this one upwards and below PREFIX.
empty() { (cd "$1" && rmdir -p "$2" 2>/dev/null) || true; }

install() {
  (cd "$here" && sed -n '/^[0-9a-f]\{64\}  /p' PROVED.txt | sha256sum -c --quiet) || stop "what was unpacked isn't whole: unpack it anew"
  [ ! -e "$prefix/lib/pegasus" ] || stop "$prefix/lib/pegasus is there already: ./install.sh --remove $prefix takes it away"
  links | while read -r link _; do
    [ ! -e "$prefix/$link" ] && [ ! -L "$prefix/$link" ] || stop "$prefix/$link is there already, and stays"
  done
  files | while read -r file; do
    mkdir -p "$prefix/lib/pegasus/$(dirname "$file")"
    cp -p "$here/$file" "$prefix/lib/pegasus/$file"
  done
  links | while read -r link target; do
    mkdir -p "$prefix/$(dirname "$link")"
    ln -s "$target" "$prefix/$link"
  done
  say "pegasus $(cat "$here/VERSION") is in $prefix/lib/pegasus, and begins as $prefix/bin/pegasus"
  case ":$PATH:" in *":$prefix/bin:"*) ;; *) say "$prefix/bin isn't on PATH" ;; esac
}

remove() {
  here=$prefix/lib/pegasus
  [ -e "$here/PROVED.txt" ] || stop "no release stands in $here"
  links | while read -r link target; do
    [ "$(readlink "$prefix/$link")" != "$target" ] || rm "$prefix/$link"
    empty "$prefix" "$(dirname "$link")"
  done
  files | while read -r file; do
    rm -f "$here/$file"
    [ "$file" = PROVED.txt ] || empty "$here" "$(dirname "$file")"
  done
  empty "$prefix" lib/pegasus
  [ ! -e "$here" ] || say "what isn't of the release stays in $here"
}

case $#:${1-} in
  2:--remove) does=remove prefix=$2 ;;
  1:-* | 0:) stop "./install.sh PREFIX, or ./install.sh --remove PREFIX" ;;
  1:*) does=install prefix=$1 ;;
  *) stop "./install.sh PREFIX, or ./install.sh --remove PREFIX" ;;
esac
case $prefix in /*) ;; *) prefix=$PWD/$prefix ;; esac
$does
