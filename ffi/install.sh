#!/usr/bin/env bash
# Lays the library for C, Python and Go below a folder: install.sh PREFIX. DESTDIR goes before it. MODULES is the folder for
# the Python module, if it isn't the one where python3 of the prefix looks.
set -eu
prefix="$(realpath -m -- "$1")"
DESTDIR="${DESTDIR:+$(realpath -m -- "$DESTDIR")}"
to="$DESTDIR$prefix"
cd "$(dirname "$0")"
version="$(sed -n '/^## /{s/^## \([^,]*\).*/\1/p;q}' ../CHANGELOG.md)"

# Where python3 of the prefix finds modules: that of its bin, or else another whose modules lie below the prefix. Where none
# looks there, the folder that one of the prefix would look at.
modules_of() {
    local python modules version=
    for python in "$prefix/bin/python3" /usr/bin/python3 "$(command -v python3)"; do
        [ -x "$python" ] || continue
        modules="$("$python" -c 'import sysconfig; print(sysconfig.get_path("purelib"))')"
        version="${version:-$("$python" -c 'import sysconfig; print(sysconfig.get_python_version())')}"
        case "$modules" in "$prefix"/*) echo "$modules"; return ;; esac
    done
    [ -z "$version" ] || echo "$prefix/lib/python$version/site-packages"
}

install -d "$to/include" "$to/lib/pkgconfig" "$to/share/warg/go"
install -m 644 warg.h "$to/include/warg.h"
install -m 644 libwarg.a "$to/lib/libwarg.a"
install -m 755 libwarg.so "$to/lib/libwarg.so.0"
ln -sf libwarg.so.0 "$to/lib/libwarg.so"
install -m 644 go/go.mod go/warg.go warg.h libwarg.a "$to/share/warg/go"
cat > "$to/lib/pkgconfig/warg.pc" <<END
prefix=\${pcfiledir}/../..
includedir=\${prefix}/include
libdir=\${prefix}/lib

Name: warg
Description: Verdicts on the proofs of transparency logs and maps
Version: $version
Cflags: -I\${includedir}
Libs: -L\${libdir} -lwarg
END
echo "for C: $to/include/warg.h, $to/lib/libwarg.a, libwarg.so and pkgconfig/warg.pc"
modules="${MODULES:-$(modules_of)}"
if [ -n "$modules" ]; then
    install -d "$DESTDIR$modules"
    install -m 644 python/warg.py libwarg.so "$DESTDIR$modules"
    echo "for Python: $DESTDIR$modules/warg.py; PYTHONPATH names this folder where no python3 looks at it"
fi
echo "for Go, in your go.mod: replace warg => \"$prefix/share/warg/go\""
