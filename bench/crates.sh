# For the scripts of bench/ and examples/ that have a program of their own: makes a repository in "$work", which is removed in the end.
top=$(cd "$(dirname "${BASH_SOURCE[0]}")/.." && pwd)
work=$(mktemp -d)
trap 'rm -rf "$work"' EXIT
mkdir "$work/crates"
cd "$work"
cp "$top/HANDLES" .
take_crates() { # NAME..: copies of these crates and those below them, with what was proved of them, unless kept is empty
  local crate below part
  for crate in "$@"; do
    below=$(grep "^$crate:" "$top/crates.txt" | cut -d: -f2)
    if [ -d "crates/$crate" ] || [ ! -d "$top/crates/$crate" ]; then continue; fi
    mkdir "crates/$crate"
    for part in src specs proofs ${kept-out}; do
      if [ -d "$top/crates/$crate/$part" ]; then cp -a "$top/crates/$crate/$part" "crates/$crate/"; fi
    done
    echo "$crate:$below" >> crates.txt
    take_crates $below
  done
}
take_program() { # FOLDER CRATE..: the program of bench/FOLDER or examples/FOLDER, each file with .txt behind its name there, and what it stands on
  local name=$1 from
  shift
  take_crates "$@"
  mkdir -p "crates/$name/proofs"
  for from in "$top/bench/$name" "$top/examples/$name"; do
    if [ -d "$from" ]; then cp -r "$from/." "crates/$name/"; fi
  done
  find "crates/$name" -name '*.txt' -exec sh -c 'mv "$1" "${1%.txt}"' _ {} \;
  echo "$name: $*" >> crates.txt
}
prove_program() { # NAME
  (cd "crates/$1" && rt run > "$work/run.log" 2>&1) || { tail -20 "$work/run.log"; exit 1; }
}
try_program() { # NAME, with its input: runs it before any proof
  (cd "crates/$1" && rt try --seconds 3000 > "$work/try.log" 2>&1) || { tail -20 "$work/try.log"; exit 1; }
}
