# Completion of metaedit for bash. Source this file, or put it where bash-completion looks for `metaedit`.
_metaedit() {
    local commands='set apply batch recover show export validate md5 make'
    local rules='base ebu info fadgi' forms='csv xml' kinds='wave avi mov'
    local fields='Description= Originator= OriginatorReference= OriginationDate= OriginationTime= TimeReference= UMID=
        LoudnessValue= LoudnessRange= MaxTruePeakLevel= MaxMomentaryLoudness= MaxShortTermLoudness= CodingHistory=
        IARL= IART= ICMS= ICMT= ICOP= ICRD= IENG= IGNR= IKEY= IMED= INAM= IPRD= ISBJ= ISFT= ISRC= ISRF= ITCH=
        axml= iXML= XMP= MD5= @nam= @cmt= @day= @aut= @cpy= @inf= @swr= key: strn:'
    # bash splits words at `=` and `:`; here they are put together again, up to the cursor
    local -a words=()
    local index piece line=$COMP_LINE
    for ((index = 0; index <= COMP_CWORD; index++)); do
        piece=${COMP_WORDS[index]}
        if ((index)) && [[ $line != [[:blank:]]* ]]; then
            words[-1]+=$piece
        else
            words+=("$piece")
        fi
        line=${line#"${line%%[![:blank:]]*}"}
        line=${line#"$piece"}
    done
    local number=$((${#words[@]} - 1))
    local word=${words[number]} command=${words[1]-} before=${words[number - 1]-}
    COMPREPLY=()
    if ((number == 1)); then
        COMPREPLY=($(compgen -W "$commands" -- "$word"))
        return
    fi
    # the file; of `batch` the files behind the field
    if [[ $command = batch ]] && ((number > 2)) || { [[ $command != batch ]] && ((number == 2)); }; then
        compopt -o filenames 2>/dev/null
        mapfile -t COMPREPLY < <(compgen -f -- "$word")
        return
    fi
    # the values of options, behind a blank or behind `=`
    case $before,$word in
        *,--rules=*) COMPREPLY=($(compgen -W "$rules" -- "${word#--rules=}")); return ;;
        *,--as=*) COMPREPLY=($(compgen -W "$forms" -- "${word#--as=}")); return ;;
        --rules,*) COMPREPLY=($(compgen -W "$rules" -- "$word")); return ;;
        --as,*) COMPREPLY=($(compgen -W "$forms" -- "$word")); return ;;
    esac
    case $command in
        set)
            ((number == 3)) && COMPREPLY=($(compgen -W '--rules' -- "$word"))
            ;;
        validate)
            ((number == 3)) && COMPREPLY=($(compgen -W '--rules' -- "$word"))
            return
            ;;
        apply) COMPREPLY=($(compgen -W '--as --rules' -- "$word")); return ;;
        export) ((number == 3)) && COMPREPLY=($(compgen -W '--as' -- "$word")); return ;;
        make) ((number == 3)) && COMPREPLY=($(compgen -W "$kinds" -- "$word")); return ;;
        batch) ;;
        *) return ;;
    esac
    # a field's name; its value, and the names of keys and the numbers of streams, are the user's own
    if [[ $word != *[=:]* ]]; then
        compopt -o nospace 2>/dev/null
        COMPREPLY+=($(compgen -W "$fields" -- "$word"))
    fi
}
complete -F _metaedit metaedit
