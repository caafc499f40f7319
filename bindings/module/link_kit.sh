#!/bin/sh
# Makes a kit that is the one on the path but for one file of it, which is left to the caller. usage: link_kit.sh FOLDER FILE
set -eu
folder=$1
file=$2
kit=$(dirname "$(rt doc)")

# Links to all in the folder $1 of the kit but for the names that follow.
link_all_but() {
    from=$1
    shift
    mkdir -p "$folder/$from"
    for each in "$kit/$from"/*; do
        case " $* " in *" ${each##*/} "*) ;; *) ln -s "$each" "$folder/$from" ;; esac
    done
}

# rt takes the kit that its own files lie in.
case $file in
bin/*)
    link_all_but . bin
    link_all_but bin rt rtlib.py "${file##*/}"
    ;;
toolchain/bin/*)
    link_all_but . bin toolchain
    link_all_but bin rt rtlib.py
    link_all_but toolchain bin
    link_all_but toolchain/bin "${file##*/}"
    ;;
*) echo "link_kit.sh: $file lies in no folder that it knows" >&2 && exit 2 ;;
esac
cp "$kit/bin/rt" "$kit/bin/rtlib.py" "$folder/bin"
