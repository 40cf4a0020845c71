# Sourced by the commands in bin/: runs the program $program of the repository at $top with the given words, and builds it
# before where a source has changed. Where $program names several, the first one that is as the sources stand is run, or else the last one is
# built. Status, output and error line are the program's; 70 says that it could not be built.

# Whether the program has been built from the sources as they stand; no process is started for it. A folder is newer where a source came
# or went.
is_current() {
    # made by bin/build-program: the folders and the sources that the program was built from; its time is that of the build's beginning
    stamp="$built.built-from"
    [ -x "$built" ] && [ -r "$stamp" ] && ! [ "$top/crates.txt" -nt "$stamp" ] || return 1
    folders='' sources=''
    . "$stamp"
    for it in $folders; do
        [ -d "$top/$it" ] || return 1
    done
    for it in $folders $sources; do
        [ "$top/$it" -nt "$stamp" ] && return 1
    done
    [ -n "$sources" ]
}

for name in $program; do
    built="$top/crates/$name/out/$name"
    is_current && exec "$built" "$@"
done
"$top/bin/build-program" "$name" "${0##*/}" || exit 70
exec "$built" "$@"
