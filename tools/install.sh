#!/bin/sh
# Installs what was built, or removes it again: tools/install.sh BUILD | tools/install.sh --remove
#
# The Makefile's variables name the folders. What is installed is written down in DATADIR/dimacs/files, and --remove takes
# away what that names, and the folders of our own that are empty then.
set -eu
cd "$(dirname "$0")/.."
umask 022
written=$DATADIR/dimacs/files

# copy MODE FILE PATH: installs a file by this path.
copy() {
    install -D -m "$1" "$2" "$DESTDIR$3"
    note "$3"
}

# put MODE FOLDER FILE..: installs files in a folder.
put() {
    mode=$1 folder=$2
    shift 2
    for file; do
        copy "$mode" "$file" "$folder/${file##*/}"
    done
}

# link TARGET PATH: makes a symbolic link.
link() {
    install -d "$DESTDIR${2%/*}"
    ln -sf "$1" "$DESTDIR$2"
    note "$2"
}

# fill TEMPLATE PATH: writes a template. In place of folders it has the paths to them from one that is found at run time.
fill() {
    install -d "$DESTDIR${2%/*}"
    sed -e "s|@VERSION@|$VERSION|; s|@NUMBERS@|$NUMBERS|; s|\.\./share/dimacs|$(beside "$BINDIR" "$DATADIR/dimacs")|" \
        -e "s|@PREFIX@|$(beside "${2%/*}" "$PREFIX")|; s|@LIBDIR@|$(beside "$PREFIX" "$LIBDIR")|" \
        -e "s|@INCLUDEDIR@|$(beside "$PREFIX" "$INCLUDEDIR")|" "$1" >"$DESTDIR$2"
    chmod 644 "$DESTDIR$2"
    note "$2"
}

# tree FOLDER SOURCE: installs a folder of the repository, without what runs leave in it.
tree() {
    find "$2/" -name __pycache__ -prune -o -type f -print | LC_ALL=C sort | while read -r file; do
        mode=644
        [ ! -x "$file" ] || mode=755
        copy "$mode" "$file" "$1${file#"$2"}"
    done
}

# beside FOLDER OTHER: the path from a folder to another one, so that both can be moved.
beside() {
    realpath -m -s --relative-to="$1" "$2"
}

note() {
    echo "$1" >>"$DESTDIR$written"
}

programs() {
    put 755 "$BINDIR" "$build/dimacs"
    for tool in batch draw; do
        fill "tools/dimacs-$tool" "$BINDIR/dimacs-$tool"
        chmod 755 "$DESTDIR$BINDIR/dimacs-$tool"
        tree "$DATADIR/dimacs/dimacs_$tool" "tools/dimacs_$tool"
    done
    tree "$DATADIR/dimacs/dimacs_draw/drawing" lib/python/dimacs/drawing
    copy 644 VERSION "$DATADIR/dimacs/dimacs_batch/VERSION"
    copy 755 referee/referee.py "$DATADIR/dimacs/referee.py"
    pages=build/man
    case $VERSION in *+unproved) pages=build/man-unproved ;; esac
    for page in "$pages"/*.[15]; do
        [ ! -e "$page" ] || put 644 "$MANDIR/man${page##*.}" "$page"
    done
    # bash and fish load a completion by the name of its command.
    fish=$DATADIR/fish/vendor_completions.d bash=$DATADIR/bash-completion/completions
    put 644 "$ZSHDIR" lib/completion/_dimacs
    put 644 "$fish" lib/completion/dimacs.fish
    link dimacs.fish "$fish/dimacs-batch.fish"
    link dimacs.fish "$fish/dimacs-draw.fish"
    copy 644 lib/completion/dimacs.bash "$bash/dimacs"
    link dimacs "$bash/dimacs-batch"
    link dimacs "$bash/dimacs-draw"
}

library() {
    copy 644 "$build/libdimacs.so.0" "$LIBDIR/libdimacs.so.$NUMBERS"
    link "libdimacs.so.$NUMBERS" "$LIBDIR/libdimacs.so.0"
    link libdimacs.so.0 "$LIBDIR/libdimacs.so"
    put 644 "$LIBDIR" "$build/libdimacs.a"
    put 644 "$INCLUDEDIR" lib/include/*.h lib/include/*.hpp
    put 644 "$INCLUDEDIR/dimacs" lib/include/dimacs/*.hpp
    fill lib/package/dimacs.pc.in "$LIBDIR/pkgconfig/dimacs.pc"
    fill lib/package/dimacsConfig.cmake.in "$LIBDIR/cmake/dimacs/dimacsConfig.cmake"
    fill lib/package/dimacsConfigVersion.cmake.in "$LIBDIR/cmake/dimacs/dimacsConfigVersion.cmake"
    put 644 "$DATADIR/dimacs/rust" lib/rust/Cargo.toml lib/rust/Cargo.lock lib/rust/build.rs
    put 644 "$DATADIR/dimacs/rust/src" lib/rust/src/*.rs
}

pages() {
    put 644 "$DOCDIR" README.md CHANGELOG.md LICENCE-STATUS
    tree "$DOCDIR/docs" docs
    tree "$DOCDIR/examples" examples
    tree "$DOCDIR/recipes" recipes
    tree "$DOCDIR/referee" referee
}

# Removes what was written down, and the empty folders that have our name in their path.
remove() {
    [ -f "$DESTDIR$written" ] || {
        echo "nothing is installed here: there is no $DESTDIR$written" >&2
        exit 1
    }
    while read -r path; do
        rm -f "$DESTDIR$path"
        folder=${path%/*}
        ! is_ours "$folder" || rm -rf "$DESTDIR$folder/__pycache__"
        while is_ours "$folder" && rmdir "$DESTDIR$folder" 2>/dev/null; do
            folder=${folder%/*}
        done
    done <<EOT
$(cat "$DESTDIR$written")
EOT
}

is_ours() {
    case $1 in
        */dimacs | */dimacs/*) true ;;
        *) false ;;
    esac
}

if [ "$1" = --remove ]; then
    remove
    exit
fi
build=$1
install -d "$DESTDIR${written%/*}"
rm -f "$DESTDIR$written"
note "$written"
programs
library
pages
