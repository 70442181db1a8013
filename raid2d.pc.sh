#!/bin/sh
# Prints raid2d.pc, the file that pkg-config reads. Folders below the prefix are named by it, and the prefix by the file's own
# folder, so that an installed folder can be moved; others are named as they are.
# usage: sh raid2d.pc.sh VERSION PREFIX LIBDIR INCLUDEDIR PKGCONFIGDIR
version=$1 prefix=$2 libdir=$3 includedir=$4 pkgconfigdir=$5

# A folder by its prefix. A space in it has a backslash before it, as pkg-config reads it.
named() {
    case $1 in
    "$prefix"/*) printf '${prefix}%s' "${1#"$prefix"}" ;;
    *) printf '%s' "$1" ;;
    esac | sed 's/ /\\ /g'
}

case $pkgconfigdir in
"$prefix"/*) root='${pcfiledir}'$(printf '%s' "${pkgconfigdir#"$prefix"}" | sed 's|[^/][^/]*|..|g') ;;
*) root=$(printf '%s' "$prefix" | sed 's/ /\\ /g') ;;
esac
cat <<END
prefix=$root
libdir=$(named "$libdir")
includedir=$(named "$includedir")

Name: raid2d
Description: Two-dimensional RAID array with superparity, proved byte for byte
Version: $version
Libs: -L\${libdir} -lraid2d
Cflags: -I\${includedir}
END
