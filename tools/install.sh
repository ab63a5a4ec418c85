#!/usr/bin/env bash
# Puts what is built and what stands around it in its places below PREFIX, or takes it away: what `./fws --install` and
# `./fws --uninstall` do. It is called as tools/install.sh check|put|take TOP PREFIX, where TOP is the checkout; `check` says
# whether `put` may write, and `put` needs the built program. Either all is done or nothing, and a line says why not.
set -u

# What goes where: mode, file of the checkout, place below PREFIX.
places=(
    '755 crates/fws/out/fws bin/fws'
    '755 tools/ask bin/fws-ask'
    '755 tools/site-of-host bin/fws-site-of-host'
    '755 tools/view bin/fws-view'
    '644 tools/configurations.py share/fws/configurations.py'
    '644 tools/fields.py share/fws/fields.py'
    '644 tools/questions.py share/fws/questions.py'
    '644 docs/PROFILES.md share/doc/fws/PROFILES.md'
    '644 share/man/man1/fws.1 share/man/man1/fws.1'
    '644 share/man/man1/fws-ask.1 share/man/man1/fws-ask.1'
    '644 share/man/man1/fws-site-of-host.1 share/man/man1/fws-site-of-host.1'
    '644 share/man/man1/fws-view.1 share/man/man1/fws-view.1'
    '644 share/bash-completion/completions/fws share/bash-completion/completions/fws'
    '644 share/bash-completion/completions/fws-ask share/bash-completion/completions/fws-ask'
    '644 share/bash-completion/completions/fws-site-of-host share/bash-completion/completions/fws-site-of-host'
    '644 share/bash-completion/completions/fws-view share/bash-completion/completions/fws-view'
    '644 share/zsh/site-functions/_fws share/zsh/site-functions/_fws'
    '644 share/zsh/site-functions/_fws_tools share/zsh/site-functions/_fws_tools'
)
own_folders=('share/fws' 'share/doc/fws') # that are taken away with them, where nothing else is there

say() { printf 'fws: %s\n' "$*" >&2; }

# What has to be undone where something goes wrong: new files by other names, folders that were made, and names that were
# changed, each with the file that stood there before, or nothing.
fresh=() folders=() changed=() saved=()

undo() {
    local k
    for ((k = ${#changed[@]} - 1; k >= 0; k--)); do
        if [ -n "${saved[k]}" ]; then mv -f -- "${saved[k]}" "${changed[k]}"; else rm -f -- "${changed[k]}"; fi
    done
    for ((k = ${#fresh[@]} - 1; k >= 0; k--)); do rm -f -- "${fresh[k]}"; done
    for ((k = ${#folders[@]} - 1; k >= 0; k--)); do rmdir -- "${folders[k]}" 2>/dev/null; done
}

refuse() { # says why, undoes what was done, and ends
    trap '' HUP INT TERM
    say "$*"
    undo
    exit 5
}

trap 'refuse "stopped; nothing was changed"' HUP INT TERM

# Refuses where nothing may be written to the folder, or made in the nearest folder above that is there.
ask_folder() {
    local folder=$1
    while [ ! -e "$folder" ] && [ ! -L "$folder" ] && [ "$folder" != / ]; do folder=$(dirname -- "$folder"); done
    [ -d "$folder" ] || refuse "cannot write to $1: $folder is no folder"
    { [ -w "$folder" ] && [ -x "$folder" ]; } || refuse "cannot write to $1: $folder may not be written to"
}

# Refuses where a place can't be written to.
ask_place() {
    ask_folder "$(dirname -- "$1")"
    [ ! -d "$1" ] || refuse "cannot write $1: it is a folder"
}

# Makes a folder with those above it.
make_folder() {
    [ -d "$1" ] && return
    make_folder "$(dirname -- "$1")"
    mkdir -- "$1" 2>/dev/null || refuse "cannot make the folder $1"
    folders+=("$1")
}

# Another name in the folder of $1, in `other`.
other_name() {
    other=$(mktemp "$(dirname -- "$1")/.fws-XXXXXX" 2>/dev/null) || refuse "cannot write to $(dirname -- "$1")"
    fresh+=("$other")
}

# Keeps what stands at $1 by another name too, in `other`; empty where nothing does.
keep() {
    other=
    [ -e "$1" ] || [ -L "$1" ] || return 0
    other_name "$1"
    ln -f -- "$1" "$other" 2>/dev/null || cp -fPp -- "$1" "$other" 2>/dev/null || refuse "cannot keep $1"
}

put() {
    local place mode from to news=() k
    for place in "${places[@]}"; do
        read -r mode from to <<<"$place"
        [ -f "$top/$from" ] || refuse "$top/$from is not there"
        ask_place "$prefix/$to"
    done
    for place in "${places[@]}"; do
        read -r mode from to <<<"$place"
        make_folder "$(dirname -- "$prefix/$to")"
        other_name "$prefix/$to"
        news+=("$other")
        { cp -- "$top/$from" "$other" 2>/dev/null && chmod "$mode" "$other"; } || refuse "cannot write $prefix/$to"
    done
    trap '' HUP INT TERM # from here on it takes no time
    for k in "${!places[@]}"; do
        read -r mode from to <<<"${places[k]}"
        keep "$prefix/$to"
        changed+=("$prefix/$to") saved+=("$other")
        mv -f -- "${news[k]}" "$prefix/$to" 2>/dev/null || refuse "cannot write $prefix/$to"
    done
    for k in "${!places[@]}"; do
        read -r mode from to <<<"${places[k]}"
        [ -z "${saved[k]}" ] || rm -f -- "${saved[k]}"
        say "put $prefix/$to"
    done
}

take() {
    local place to there=()
    for place in "${places[@]}"; do
        to=$prefix/${place##* }
        if [ -e "$to" ] || [ -L "$to" ]; then there+=("$to"); fi
    done
    [ "${#there[@]}" -gt 0 ] || { say "nothing of fws is in $prefix"; exit 0; }
    for to in "${there[@]}"; do ask_place "$to"; done
    trap '' HUP INT TERM
    for to in "${there[@]}"; do
        keep "$to"
        changed+=("$to") saved+=("$other")
        rm -f -- "$to" 2>/dev/null || refuse "cannot take $to away"
    done
    rm -f -- "${saved[@]}"
    for to in "${there[@]}"; do say "took $to away"; done
    for to in "${own_folders[@]}"; do rmdir -- "$prefix/$to" 2>/dev/null; done
    return 0
}

check() {
    local place
    for place in "${places[@]}"; do ask_place "$prefix/${place##* }"; done
}

if [ "$#" -ne 3 ] || [ -z "$3" ]; then say 'usage: tools/install.sh check|put|take TOP PREFIX'; exit 2; fi
top=$2
case "$3" in
    /) prefix= ;;
    /*) prefix=${3%/} ;;
    *) prefix=$PWD/${3%/} ;;
esac
case "$1" in
    check | put | take) "$1" ;;
    *) say 'usage: tools/install.sh check|put|take TOP PREFIX'; exit 2 ;;
esac
