# For a script that links the library: looks for libdvbs.a in $EXPORTS_DIR, makes the folder of what is built, names the compiler.
: "${EXPORTS_DIR:?set EXPORTS_DIR to the folder of libdvbs.a}"
[ -f "$EXPORTS_DIR/libdvbs.a" ] || { echo "no libdvbs.a in $EXPORTS_DIR" >&2; exit 2; }
build=$here/build
mkdir -p "$build"
cc=${CC:-cc}
