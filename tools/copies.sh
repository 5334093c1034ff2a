# shellcheck shell=dash
# The files of the library for C that the packages of other languages hold as copies: a package has nothing from outside its
# folder. A script at the top of the repository reads this file behind tools/dist.sh and calls its functions.

# copies TOP: the file and its copy, a line each, for those of go and rust/hpkebatch-sys that are there below TOP
copies() {
    local text=$dist/hpkebatch_c-x86-64-v2.s folder=$1/go
    if [ -d "$folder" ]; then
        # cgo takes .S and .c; the names are build constraints too
        echo "$text $folder/hpkebatch_c_linux_amd64.S"
        echo "$dist/parts.c $folder/parts_linux_amd64.c"
        echo "$dist/library.c $folder/library_linux_amd64.c"
        echo "include/hpkebatch.h $folder/hpkebatch.h"
    fi
    folder=$1/rust/hpkebatch-sys
    if [ -d "$folder" ]; then
        echo "$text $folder/c/hpkebatch_c.s"
        echo "$dist/parts.c $folder/c/parts.c"
        echo "$dist/library.c $folder/c/library.c"
        echo "include/hpkebatch.h $folder/c/hpkebatch.h"
    fi
}

# write_copies TOP: makes each copy anew that isn't its file
write_copies() {
    copies "$1" | while read -r file copy; do
        cmp -s "$file" "$copy" || { mkdir -p "${copy%/*}" && cp "$file" "$copy"; } || return
    done
}
