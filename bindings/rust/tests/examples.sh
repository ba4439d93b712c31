#!/bin/sh
# Runs the examples, and compares what each prints with what it has to print. The last line counts them.
cd "$(dirname -- "$0")/.." || exit 2
cargo build -q --locked --examples || exit
built=${CARGO_TARGET_DIR:-target}/debug/examples
room=$(mktemp -d) || exit 2
trap 'rm -rf "$room"' EXIT
passed=0 failed=0

# prints NAME [EDIT]: standard input is what the example has to print, after this edit by sed.
prints() {
    "$built/$1" >"$room/all" 2>"$room/errors"
    status=$?
    sed "${2-}" "$room/all" >"$room/said"
    if diff - "$room/said" && [ $status = 0 ]; then
        passed=$((passed + 1))
    else
        echo "example $1: FAILED with status $status" && cat "$room/errors"
        failed=$((failed + 1))
    fi
}

# (the README has this program, and the line that it prints)
prints two_workers <<END
$(grep -x '[0-9][0-9]*' ../../README.md)
END
prints one_letter <<'END'
Some("a letter")
Lost(0)
0 left
END
prints two_threads <<'END'
1000 letters were taken or left, and none twice
END
prints many_boxes <<'END'
10000 boxes: 10000 taken, 0 left, each dropped once
END

# (which worker has which try is open, so W stands for each of them)
prints job_queue '/tried by/s/[0-9][0-9]*\([],]\)/W\1/g; s/taken: {[^}]*}/taken: {..}/' <<'END'
mail 11 came after the stop
mail 1: delivered, tried by [W]
mail 2: delivered, tried by [W]
mail 3: delivered, tried by [W, W]
mail 4: delivered, tried by [W]
mail 5: delivered, tried by [W, W, W]
mail 6: delivered, tried by [W]
mail 7: delivered, tried by [W]
mail 8: nobody has this address, tried by [W, W, W]
mail 9: delivered, tried by [W]
mail 10: delivered, tried by [W]
Totals { sent: {0: 10}, given_back: 5, taken: {..}, left: 0, unknown: 0 }
END
prints async_workers <<'END'
primes below: {500: 95, 1000: 168, 2000: 303}
all tasks have ended
END
if sh ../test_grep.sh cat "$built/grep"; then passed=$((passed + 1)); else failed=$((failed + 1)); fi
echo "$passed passed, $failed failed"
[ $failed = 0 ]
