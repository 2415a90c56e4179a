#!/bin/sh
# Checks all proofs, and builds the program `judge`: build.sh FOLDER
#
# A proof that was checked of the same sources isn't checked again. The folder keeps nothing of other sources.
set -eu

lacking=
for tool in coqc ocamlfind flock; do
    command -v $tool >/dev/null || lacking="$lacking $tool"
done
[ "$lacking" ] || ocamlfind query zarith >/dev/null 2>&1 || lacking=" zarith"
if [ "$lacking" ]; then
    echo "there is no$lacking. On Debian 12: apt-get install make coq ocaml-findlib libzarith-ocaml-dev" >&2
    exit 2
fi

here=$(cd "$(dirname "$0")" && pwd)
proofs="Flows Tests Tables Texts Soundness Reading Canonical Quick Judge Certify Certificates Complete Kernel"
mkdir -p "$1"
cd "$1"
exec 9>lock
flock 9
sources=$(cd "$here" && cat ./*.v search.ml main.ml memory.c build.sh | sha256sum)
[ "$sources" != "$(cat built 2>/dev/null)" ] || exit 0
rm -f built
set -- -name lock
for it in $proofs; do
    set -- "$@" -o -name $it.vo -o -name $it.checked
done
find . -mindepth 1 ! \( "$@" \) -delete

before=$(coqc --version)
for it in $proofs; do
    before=$({ echo "$before" && cat "$here/$it.v" "$here/build.sh"; } | sha256sum)
    if [ "$before" != "$(cat $it.checked 2>/dev/null)" ]; then
        echo "coqc $it.v"
        cp "$here/$it.v" .
        coqc -q -R . Dimacs $it.v
        echo "$before" >$it.checked
    fi
done
cp "$here/Extract.v" "$here/search.ml" "$here/main.ml" "$here/memory.c" .
echo "coqc Extract.v; ocamlfind ocamlopt judge.ml search.ml memory.c main.ml"
coqc -q -R . Dimacs Extract.v
ocamlfind ocamlopt -inline 100 -package zarith,unix -linkpkg -w -a judge.mli judge.ml search.ml memory.c main.ml -o judge
echo "$sources" >built
echo "Try:  $(pwd)/judge certify-max examples/pipes.max examples/pipes.solution"
