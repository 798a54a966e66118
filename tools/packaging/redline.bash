# bash completion of redline, redline-docx, redline-batch and flatopc, made from redline --help

# The words up to the cursor, joined where bash has parted them at a colon; `word` is the last one without quotes.
_redline_read() {
    local line=$COMP_LINE at
    words=()
    for ((at = 0; at <= COMP_CWORD; at++)); do
        if ((at)) && [[ $line != [[:space:]]* && ${words[-1]}${COMP_WORDS[at]} == *:* ]]; then
            words[-1]+=${COMP_WORDS[at]}
        else
            words+=("${COMP_WORDS[at]}")
        fi
        line=${line#"${line%%[![:space:]]*}"}
        line=${line#"${COMP_WORDS[at]}"}
    done
    raw=${words[-1]}
    word=${raw#[\"\']}
    word=${word//\\/}
}

# _redline_offer TEXT ..: the texts that begin as the word does, quoted as the word is
_redline_offer() {
    local text
    for text in "$@"; do
        [[ $text == "$word"* ]] || continue
        case $raw in
        \"*) text=$(sed 's/[\\"$`]/\\&/g' <<<"$text") ;;
        \'*) [[ $text != *\'* ]] || continue ;;
        *) [[ $text != *[![:alnum:]:,/.-]* ]] || printf -v text %q "$text" ;;
        esac
        COMPREPLY+=("$text")
    done
}

# the authors of the document on the line, or for redline-batch of the first ones in its folder
_redline_authors() {
    local name listed=()
    for name in "${words[@]:1:${#words[@]}-2}"; do
        name=${name#[\"\']}
        name=${name%[\"\']}
        name=${name//\\/}
        [[ $name != \~/* ]] || name=$HOME/${name:2}
        if [[ -f $name ]]; then
            listed=("$name")
            break
        elif [[ -d $name && $program == redline-batch ]]; then
            listed=("$name"/*.xml "$name"/*.docx)
            break
        fi
    done
    for name in "${listed[@]:0:5}"; do
        case $name in
        *.xml) redline list "$name" --format tab ;;
        *) redline-docx list "$name" --format tab ;;
        esac
    done 2>/dev/null </dev/null | awk -F '\t' '
        { gsub(/\\\\/, "\001", $7); if ($7 == "" || $7 ~ /\\/) next; gsub("\001", "\\", $7); print $7 }' | LC_ALL=C grep -v '[[:cntrl:]]' | sort -u
}

# what CHANGES may be
_redline_changes() {
    local authors
    case $word in
    kind:*) _redline_offer %(kinds_and_groups)s ;;
    author:*)
        mapfile -t authors < <(_redline_authors)
        _redline_offer "${authors[@]/#/author:}"
        ;;
    *) _redline_offer %(selections)s ;;
    esac
}

# what follows an option of redline: nothing where files may
_redline_value() {
    local authors
    case $command:$before in
%(values)s
    *) return 1 ;;
    esac
}

# what scrub takes out or keeps: names with commas between them
_redline_things() {
    local things=(%(things)s)
    [[ $word != *,* ]] || things=("${things[@]/#/${word%,*},}")
    _redline_offer "${things[@]}"
}

_redline_options() {
    case $command in
%(options)s
    esac
}

_redline_tool() {
    case $program:$command in
    redline-docx:*) echo '%(docx)s' ;;
    flatopc:unpack) echo '-f --tidy --to' ;;
    flatopc:pack) echo '-f --drop-unused-notes --to' ;;
    esac
}

# The command, which options of the tool may stand before.
_redline_command() {
    local at skip=
    command= second=
    for ((at = 1; at < ${#words[@]} - 1; at++)); do
        case $program:${words[at]} in
        redline-docx:-o | redline-docx:--package | redline-batch:-j | redline-batch:-S) ((at++)) ;;
        redline-docx:-* | redline-batch:-*) ;;
        redline-batch:*) [[ $skip != xx ]] && skip+=x || { command=${words[at]} && break; } ;;
        *) command=${words[at]} && break ;;
        esac
    done
    [[ -z $command ]] || second=${words[at + 1]}
    is_second=
    ((at + 2 != ${#words[@]})) || is_second=yes
}

_redline() {
    local words raw word program=${1##*/} command second is_second before
    COMPREPLY=()
    _redline_read
    _redline_command
    before=${words[-2]}
    compopt +o default
    case $program:$command:$before in
    redline-docx:*:-o | redline-docx:*:--package | flatopc:*:--to) compopt -o default ;;
    redline-docx:scrub:--keep | redline-docx:scrub:--take) _redline_things ;;
    redline-batch::-[jS]) ;;
    flatopc::*) _redline_offer pack unpack --help ;;
    redline-batch::*)
        compopt -o default
        [[ $word != -* ]] || _redline_offer --retry -j -S --bar --help
        [[ ${#words[@]} -lt 4 ]] || _redline_offer %(many)s
        ;;
    redline-docx::*) _redline_offer %(commands)s desk returned scrub --help --version $(_redline_tool) ;;
    redline::*) _redline_offer %(commands)s --help --version ;;
    *)
        if ! _redline_value; then
            if [[ $word == -* ]]; then
                _redline_offer $(_redline_options) $(_redline_tool)
            else
                compopt -o default
            fi
            [[ -z $is_second ]] || _redline_second
        fi
        ;;
    esac
    [[ ${#COMPREPLY[@]} != 1 || ${COMPREPLY[0]} != *: ]] || compopt -o nospace
    # (readline has the part behind the last colon alone, but within quotes)
    if [[ $raw == *:* && ${COMP_WORDS[COMP_CWORD]} != "$raw" ]]; then
        COMPREPLY=("${COMPREPLY[@]#"${raw%%"${raw##*:}"}"}")
    fi
}

_redline_second() {
    case $command in
%(second)s
    esac
}

complete -o default -F _redline redline redline-docx redline-batch flatopc
