#!/bin/sh
# The instructions of each case, by archive and C decoder, as callgrind counts them: bench/instructions.sh BENCH
set -eu
bench=$1
if ! command -v valgrind > /dev/null; then
    printf '\nInstructions of a call: left out, since valgrind is missing\n'
    exit 0
fi

# Counts within these functions alone: instructions CASE WHO FUNCTION...
instructions() {
    number=$1 who=$2
    shift 2
    valgrind --tool=callgrind --callgrind-out-file=/dev/null $(printf -- '--toggle-collect=%s ' "$@") \
        "$bench" once "$number" "$who" 2>&1 | sed -n 's/.*Collected : //p'
}

printf '\nInstructions of a call, or of all those of a stream, counted by callgrind:\n\n%-28s %12s %12s %8s\n' case archive C ratio
"$bench" list | while read -r number call name; do
    decoder=decoder_$call
    case $call in
        read | write | report) exported=rakhubole_j1850_$call ;;
        iso_*) exported=rakhubole_iso9141_${call#iso_} ;;
        check) exported=rakhubole_supplement_check ;;
        stream_read)
            exported='rakhubole_stream_read rakhubole_stream_advance'
            decoder=stream_reader_next
            ;;
    esac
    archive=$(instructions "$number" archive $exported)
    plain=$(instructions "$number" C $decoder)
    ratio=$(awk "BEGIN { printf \"%.3f\", $archive / $plain }")
    printf '%-28s %12s %12s %8s\n' "$name" "$archive" "$plain" "$ratio"
done
