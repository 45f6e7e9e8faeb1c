"""What tries the program with hostile scripts; bench/hostile.sh and bench/want_of_memory.sh call it.

    reader    which line of a text is refused, and with which code: a second reader, by the tables of docs/SCRIPT.md
    printing  what a script prints, by a plain and slow model, with `widgets`
    outputs   whether what is printed has the form of the script's reports
    drawing   scripts that are drawn at random, cut, joined and bent
    fuzz      plays such scripts, many a second, and compares what comes with what the reader says
    contents  one window of each widget, whose texts grow to their limits, beside the plain model
    streams   runs the program as badly as a shell can
    limits    scripts at each limit, the last value that passes and the first that is refused
    worst     scripts and streams that are as dear as they may be, with the time and the memory that they take
    growths   plays a script again and again, each time with another growth of memory refused
    program   runs the program, and measures it
"""
