#!/bin/sh
# Lets one of the two example greps search small trees, and compares all that it says with what it has to say.
# test_grep.sh ORDER GREP: the ORDER is `cat` if files have to come in the order of their paths, and `sort` if they may come
# in any order. The variable RUN may name an emulator.
set -u
order=$1 grep=$2
case $grep in /*) ;; *) grep=$PWD/$grep ;; esac
room=$(mktemp -d) || exit 2
trap 'rm -rf "$room"' EXIT
cd "$room" || exit 2
export LC_ALL=C
failed=0

# says WORDS..: standard input has the lines that the grep prints with these words, then its errors, and then its status.
says() {
    $order >expected
    timeout 60 ${RUN-} "$grep" "$@" >lines 2>errors
    status=$?
    # (Rust adds a number to what the system says of an error)
    { cat lines && sed 's/ (os error [0-9]*)$//' errors && echo "status $status"; } | $order >said
    cmp -s expected said || { echo "grep $*: FAILED" && diff expected said; failed=1; }
}

mkdir -p tree/letters/old closed many
printf 'Dear reader,\nthis letter is the first.\nYours\nP.S. A letter has an end' >tree/letters/first
printf 'a letter\n\nno letters\n' >tree/letters/old/second
echo 'nothing to see' >tree/notes
printf 'a letter\n\000\na letter\n' >tree/picture
printf 'axb\na.b\n' >tree/signs
: >tree/void
ln -s letters/first tree/link
mkfifo tree/pipe

says letter tree <<'END'
tree/letters/first:2:this letter is the first.
tree/letters/first:4:P.S. A letter has an end
tree/letters/old/second:1:a letter
tree/letters/old/second:3:no letters
grep: tree/picture: binary file matches
status 0
END
says a.b tree <<'END'
tree/signs:2:a.b
status 0
END
says nobody tree <<'END'
status 1
END
says letter nowhere tree/link tree/letters/old <<'END'
tree/letters/old/second:1:a letter
tree/letters/old/second:3:no letters
tree/link:2:this letter is the first.
tree/link:4:P.S. A letter has an end
grep: nowhere: No such file or directory
status 2
END
says '' tree/letters/old/second <<'END'
tree/letters/old/second:1:a letter
tree/letters/old/second:2:
tree/letters/old/second:3:no letters
status 0
END
says letter <<'END'
usage: grep TEXT PATH..
status 2
END

mkdir closed/folder
echo 'a letter' >closed/file
echo 'a letter' >closed/folder/file
chmod 0 closed/*
if [ -r closed/file ]; then # (root reads all files)
    printf 'closed/file:1:a letter\nclosed/folder/file:1:a letter\nstatus 0\n'
else
    printf 'grep: closed/%s: Permission denied\n' file folder && echo status 2
fi >all
says letter closed <all
chmod 700 closed/*

i=100
while [ $i -lt 400 ]; do
    echo "letter $i" >many/$i
    echo "many/$i:1:letter $i"
    i=$((i + 1))
done >all
echo 'status 0' >>all
says letter many <all
[ $failed = 1 ] || echo "grep says what it has to say"
exit $failed
