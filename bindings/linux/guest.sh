# For the scripts here that boot a kernel of Debian under qemu with pie-watch; each reads this file by `.` after bindings/kernel/guest.sh.

# fill_watch: builds pie-watch, which is `watch` then, and copies it, its libraries and guest_watch.sh to the first file system
fill_watch() {
    local path name
    watch=$work/watch/pie-watch
    make -s -C bindings/linux OUT="$work/watch"
    cp bindings/linux/guest_watch.sh "$work/root/watch.sh"
    for path in "$watch" $(libraries "$watch"); do
        name=$work/root/bin/pie-watch
        [ "$path" = "$watch" ] || name=$work/root$path
        mkdir -p "${name%/*}"
        cp -L "$path" "$name"
    done
}

# fill_refusals: copies the programs and the file with which boot_init.sh tests refusals to the first file system: changed.btf has the types of sch_pie
# with another name of a field
fill_refusals() {
    cc -O1 -o "$work/root/bin/as_nobody" bindings/linux/as_nobody.c
    cp -L "$(command -v setarch)" "$work/root/bin/"
    cp "$(find "$root/lib/modules/$release/" -name 'sch_pie.ko*')" "$work/"
    ! [ -e "$work/sch_pie.ko.xz" ] || xz -d "$work/sch_pie.ko.xz"
    objcopy --dump-section ".BTF=$work/types" "$work/sch_pie.ko" "$work/unused"
    LC_ALL=C sed 's/\x00overlimit\x00/\x00overlimix\x00/' "$work/types" > "$work/root/mods/changed.btf"
    [ "$(cmp -l "$work/types" "$work/root/mods/changed.btf" | wc -l)" = 1 ] || { echo "$me: the types of sch_pie have no field overlimit" >&2; exit 1; }
}
