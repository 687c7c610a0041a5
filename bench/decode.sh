#!/bin/sh
# Shows that files which other programs wrote sound and look the same after `metaedit set`: it makes two seconds of sound with ffmpeg
# and with sox, and movies and AVI files with ffmpeg and mencoder, `moov` first and last, of one form and of several. Each is edited
# three times; the checksums of the decoded samples and frames must stay, and ffprobe must then read the title. A test of some files
# and no proof. A program that isn't installed is skipped with a line; it ends with status 1 where something decoded or the title is
# another.
#   bench/decode.sh
# METAEDIT names a built program; else the script `metaedit` builds it. LARGE=1 also makes an AVI file of 2.2 GB.
set -eu
. "$(dirname -- "$0")/program.sh"

decoded() { # TOOL FILE: checksum and count of bytes of the samples
    case $1 in
    ffmpeg) ffmpeg -v error -i "$2" -map 0:a -f s32le - >"$folder/samples" ;;
    sox) sox "$2" -t raw -e signed-integer -b 32 - >"$folder/samples" ;;
    esac
    cksum <"$folder/samples"
}

compared() { # TOOL FILE: three edits, the sound after each beside that before
    before=$(decoded "$1" "$folder/$2")
    ways=
    for item in 'INAM=A title' 'Description=A description' 'INAM=A title that is longer than the other one'; do
        printed=$("$program" set "$folder/$2" "$item" 2>&1) || wrong "$2: set $item: $printed"
        [ "$before" = "$(decoded "$1" "$folder/$2")" ] || wrong "$2: set $item: another sound"
        ways="$ways $(echo "$printed" | cut -d ' ' -f 3)"
    done
    title=${item#INAM=}
    if [ "$1" = ffmpeg ] && command -v ffprobe >/dev/null; then
        [ "$(ffprobe -v error -show_entries format_tags=title -of csv=p=0 "$folder/$2")" = "$title" ] || wrong "$2: another title"
    fi
    echo "$1 $2: edits$ways; sound $before before and after each"
}

frames() { # FILE: checksum of all decoded frames and samples, each with its time
    ffmpeg -v error -i "$1" -map '0:v?' -map '0:a?' -f framemd5 - | grep -v '^#' | cksum
}

filmed() { # FILE ITEM..: the frames after each edit beside those before; the last item is the title
    file=$1
    shift
    before=$(frames "$folder/$file")
    ways=
    for item; do
        printed=$("$program" set "$folder/$file" "$item" 2>&1) || wrong "$file: set $item: $printed"
        [ "$before" = "$(frames "$folder/$file")" ] || wrong "$file: set $item: other frames"
        ways="$ways $(echo "$printed" | cut -d ' ' -f 3)"
    done
    read=$(ffprobe -v error -show_entries format_tags=title -of csv=p=0 "$folder/$file")
    [ "$read" = "${item#*=}" ] || wrong "$file: another title: $read"
    echo "$file: edits$ways; frames $before before and after each"
}

movie() { filmed "$1" '@cmt=A comment' 'key:com.example.note=A note' '@nam=A title that is longer than the other one'; }

avi() { filmed "$1" 'INAM=A title' 'strn:0=The first stream' 'INAM=A title that is longer than the other one'; }

if command -v ffmpeg >/dev/null; then
    sine='sine=frequency=440:duration=2:sample_rate=48000'
    for codec in pcm_s16le pcm_s24le pcm_f32le; do
        ffmpeg -v error -f lavfi -i "$sine" -ac 2 -c:a "$codec" "$folder/$codec.wav"
        compared ffmpeg "$codec.wav"
    done
    ffmpeg -v error -f lavfi -i "$sine" -c:a pcm_s24le -rf64 always "$folder/rf64.wav"
    compared ffmpeg rf64.wav
    ffmpeg -v error -f lavfi -i "$sine" -c:a pcm_s24le -write_bext 1 -metadata description=Old "$folder/bext.wav"
    compared ffmpeg bext.wav
    set -- -f lavfi -i testsrc=size=160x120:rate=25 -f lavfi -i "$sine" -t 2
    for codec in mpeg4 mjpeg rawvideo; do
        ffmpeg -v error "$@" -c:v "$codec" -c:a pcm_s16le "$folder/last_$codec.mov"
        movie "last_$codec.mov"
        ffmpeg -v error "$@" -c:v "$codec" -c:a pcm_s16le -movflags +faststart "$folder/first_$codec.mov"
        movie "first_$codec.mov"
        ffmpeg -v error "$@" -c:v "$codec" -c:a pcm_s16le "$folder/$codec.avi"
        avi "$codec.avi"
        if command -v mencoder >/dev/null; then
            for index in '' -noodml; do
                ffmpeg -v error -y "$@" -c:v "$codec" -c:a pcm_s16le "$folder/in.avi"
                # shellcheck disable=SC2086 # no word where there is no option
                mencoder -really-quiet $index -ovc copy -oac copy -o "$folder/mencoder${index}_$codec.avi" "$folder/in.avi" 2>/dev/null
                avi "mencoder${index}_$codec.avi"
            done
        fi
    done
    command -v mencoder >/dev/null || echo 'mencoder: skipped, not installed'
    if [ "${LARGE:-0}" = 1 ]; then
        ffmpeg -v error -f lavfi -i testsrc=size=640x480:rate=25 -f lavfi -i "sine=frequency=440:sample_rate=48000" -t 192 \
            -c:v rawvideo -pix_fmt yuv420p -c:a pcm_s16le "$folder/large.avi"
        avi large.avi
    fi
else
    echo 'ffmpeg: skipped, not installed'
fi
if command -v sox >/dev/null; then
    for bits in 16 24 32; do
        sox -D -n -r 48000 -c 2 -b "$bits" "$folder/pcm$bits.wav" synth 2 sine 440 vol 0.5
        compared sox "pcm$bits.wav"
    done
else
    echo 'sox: skipped, not installed'
fi
