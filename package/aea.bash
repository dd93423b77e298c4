# Completion for bash of the words of aea and of its tools: commands, names of objects as `aea-look names` gives them, which writes nothing,
# and names of files.
_aea_commands='create put ingest session get fetch list stat scrub repair verify explain sites fence upgrade copies drill rehearse'
_aea_words() {
    mapfile -t COMPREPLY < <(compgen -W "$1" -- "$2")
}
_aea_files() {
    compopt -o filenames 2>/dev/null
    mapfile -t COMPREPLY < <(compgen "$1" -- "$2")
}
_aea_objects() {
    local name
    while IFS= read -r name; do
        if [[ $name == "$1"* ]]; then
            printf -v name %q "$name"
            COMPREPLY+=("$name")
        fi
    done < <(aea-look names 2>/dev/null)
}
_aea_command() {
    local at=$1 word=${COMP_WORDS[COMP_CWORD]}
    if [ "$COMP_CWORD" -eq "$at" ]; then
        _aea_words "$_aea_commands" "$word"
    elif [ "$COMP_CWORD" -eq $((at + 1)) ]; then
        case ${COMP_WORDS[at]} in
        put) _aea_files -f "$word" ;;
        get | fetch) _aea_objects "$word" ;;
        esac
    fi
}
_aea_session() {
    local at=$1 word=${COMP_WORDS[COMP_CWORD]}
    if [ "$COMP_CWORD" -lt "$at" ]; then
        _aea_files -c "$word"
    elif [ "$COMP_CWORD" -eq "$at" ]; then
        _aea_words "put get$([ "$at" -ne 1 ] || echo ' --program --help')" "$word"
    elif [ "$COMP_CWORD" -eq $((at + 1)) ]; then
        _aea_files -d "$word"
    elif [ "${COMP_WORDS[at]}" = get ]; then
        _aea_objects "$word"
    fi
}
_aea() {
    local word=${COMP_WORDS[COMP_CWORD]} first=${COMP_WORDS[1]}
    COMPREPLY=()
    case ${COMP_WORDS[0]##*/}:$COMP_CWORD in
    aea-look:1) _aea_words 'damage map space ledgers mark since files log names progress --help' "$word" ;;
    aea-look:2)
        case $first in
        map) _aea_words --svg "$word" ;;
        since) _aea_files -f "$word" ;;
        files) _aea_files -d "$word" ;;
        progress) _aea_words "$(pgrep -x aea 2>/dev/null)" "$word" ;;
        esac
        ;;
    aea-guard:1) _aea_words "-w --help $_aea_commands" "$word" ;;
    aea-guard:*) if [ "$first" = -w ]; then _aea_command 3; else _aea_command 1; fi ;;
    aea-session:*) if [ "$first" = --program ]; then _aea_session 3; else _aea_session 1; fi ;;
    aea-frames:*) if [[ $word == -* ]]; then _aea_words '--keep-going --from --help' "$word"; else _aea_files -f "$word"; fi ;;
    aea-scrub:1 | aea-salvage:1) if [[ $word == -* ]]; then _aea_words --help "$word"; elif [ "${COMP_WORDS[0]##*/}" = aea-scrub ]; then _aea_files -d "$word"; else _aea_files -f "$word"; fi ;;
    aea:*) _aea_command 1 ;;
    esac
}
complete -F _aea aea aea-look aea-guard aea-session aea-frames aea-scrub aea-salvage
