# Completion of metaedit for fish.
function __metaedit_word
    # whether the word to be written has one of these numbers, from 1 behind the program's name
    contains -- (count (commandline -opc)) $argv
end

function __metaedit_behind
    # whether the word to be written stands behind this number of words at least
    test (count (commandline -opc)) -gt $argv[1]
end

function __metaedit_command
    # whether the command is one of these
    set -l words (commandline -opc)
    test (count $words) -gt 1; and contains -- $words[2] $argv
end

function __metaedit_name
    # whether no value was begun: values, the names of keys and the numbers of streams are the user's own
    not string match -q -r '[=:]' -- (commandline -ct)
end

complete -c metaedit -f
complete -c metaedit -n '__metaedit_word 1' -a set -d 'Edit fields'
complete -c metaedit -n '__metaedit_word 1' -a apply -d 'Edit fields by a table on standard input'
complete -c metaedit -n '__metaedit_word 1' -a batch -d 'Edit one field of many files'
complete -c metaedit -n '__metaedit_word 1' -a recover -d 'Settle the file after a crash'
complete -c metaedit -n '__metaedit_word 1' -a show -d 'Print all fields'
complete -c metaedit -n '__metaedit_word 1' -a export -d 'Print a table of the fields'
complete -c metaedit -n '__metaedit_word 1' -a validate -d 'Print the rules that fields break'
complete -c metaedit -n '__metaedit_word 1' -a md5 -d 'Print stored and computed checksums'
complete -c metaedit -n '__metaedit_word 1' -a make -d 'Make a file from a number'
complete -c metaedit -n '__metaedit_word 2; and not __metaedit_command batch' -F
complete -c metaedit -n '__metaedit_behind 2; and __metaedit_command batch' -F
complete -c metaedit -n '__metaedit_word 3 4 5 6; and __metaedit_command set apply validate' -l rules -x -a 'base ebu info fadgi' -d 'The rules that are tested'
complete -c metaedit -n '__metaedit_word 3 4 5 6; and __metaedit_command apply export' -l as -x -a 'csv xml' -d 'The form of the table'
complete -c metaedit -n '__metaedit_word 3; and __metaedit_command make' -a 'wave avi mov' -d 'The kind of the file'
set -l fields 'Description= Originator= OriginatorReference= OriginationDate= OriginationTime= TimeReference= UMID= LoudnessValue= LoudnessRange= MaxTruePeakLevel= MaxMomentaryLoudness= MaxShortTermLoudness= CodingHistory= IARL= IART= ICMS= ICMT= ICOP= ICRD= IENG= IGNR= IKEY= IMED= INAM= IPRD= ISBJ= ISFT= ISRC= ISRF= ITCH= axml= iXML= XMP= MD5= @nam= @cmt= @day= @aut= @cpy= @inf= @swr= key: strn:'
complete -c metaedit -n '__metaedit_behind 2; and __metaedit_command set; and __metaedit_name' -a $fields
complete -c metaedit -n '__metaedit_word 2; and __metaedit_command batch; and __metaedit_name' -a $fields
