; Core 0 sleeps, and nothing else is at work.

again:  wfi
        b again
